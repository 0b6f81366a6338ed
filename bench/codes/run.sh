#!/bin/sh
# The codes on blocks and words, against plain C loops.
exec "$(dirname "$0")/../compare.sh" codes codes_bench

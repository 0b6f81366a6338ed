#!/bin/sh
# Recovery, against plain C loops and ISA-L (Debian's libisal-dev).
exec "$(dirname "$0")/../compare.sh" recover stripes_bench -lisal

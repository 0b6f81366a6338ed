#!/bin/sh
# Encoding, against plain C loops and ISA-L (Debian's libisal-dev).
exec "$(dirname "$0")/../compare.sh" encode parity_bench -lisal

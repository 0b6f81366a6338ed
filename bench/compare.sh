#!/bin/sh
# compare.sh NAME CRATE [LIBRARY..]: builds CRATE, which is proved, as a static library, and bench/NAME/loops.c with each C compiler at hand
# (the toolchain's own first), and runs bench/NAME/main.c, which checks that both agree and then times them in one run.
set -e
cd "$(dirname "$0")/.."
name=$1 crate=$2
shift 2
(cd "crates/$crate" && rt lib) >/dev/null 2>&1
kit=$(dirname "$(rt doc)")
out=target/bench
mkdir -p "$out"
for compiler in "$kit/toolchain/bin/clang" gcc clang; do
    command -v "$compiler" >/dev/null || continue
    "$compiler" -O3 -c "bench/$name/loops.c" -o "$out/$name-loops.o" 2>/dev/null || continue
    cc -O3 "bench/$name/main.c" "$out/$name-loops.o" "crates/$crate/out/lib$crate.a" "$kit/c/libos_c.a" "$kit/c/liblibc_c.a" "$@" -o "$out/$name"
    echo "C loops by $("$compiler" --version | head -n 1) -O3"
    "$out/$name"
done

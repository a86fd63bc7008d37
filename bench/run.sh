#!/bin/sh
# Times the library beside two checkers written by hand in C, in one run over the same bytes: bench/run.sh [ROUNDS]
#
# LIBRARY=FILE.a times another archive with the functions of include/asterix.h; by default it is that of tools/library.sh.
set -eu
cd "$(dirname "$0")/.."
root=$PWD
. tests/x86_64.sh
made=target/bench
mkdir -p $made
library=${LIBRARY:-target/staticlib/libasterix.a}
[ -n "${LIBRARY:-}" ] || tools/library.sh >$made/library.txt 2>&1 || { tail -n 20 $made/library.txt; exit 1; }
for c in baseline plain; do
    compile -O3 -march=x86-64-v2 -c bench/$c.c -o $made/$c.o
done
compile -O2 -c tests/c/generate.c -o $made/generate.o
compile -O2 -Iinclude -DLIBRARY -c bench/bench.c -o $made/bench.o
link $made/bench $made/bench.o $made/generate.o $made/baseline.o $made/plain.o $library
run $made/bench "$@"

#!/bin/sh
# Times two builds of the library in one program, in turn over the same inputs: bench/pair.sh BEFORE.a [AFTER.a [ROUNDS]]
#
# Each is what tools/library.sh put in target/staticlib; by default AFTER.a is that of this checkout. Both are made shared libraries, so that each keeps its own names.
set -eu
before=$(realpath "$1")
after=$(realpath "${2:-$(dirname "$0")/../target/staticlib/libasterix.a}")
cd "$(dirname "$0")/.."
root=$PWD
. tests/x86_64.sh
made=target/bench
mkdir -p $made
"$toolchain/bin/ld.lld" -shared -o $made/before.so --whole-archive "$before"
"$toolchain/bin/ld.lld" -shared -o $made/after.so --whole-archive "$after"
compile -O2 -c tests/c/generate.c -o $made/generate.o
compile -O2 -Iinclude -c bench/pair.c -o $made/pair.o
link $made/pair $made/pair.o $made/generate.o
run $made/pair $made/before.so $made/after.so ${3:-}

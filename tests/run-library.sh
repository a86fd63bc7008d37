#!/bin/sh
# The C tests of the library: tests/run-library.sh [INPUTS]
#
# The library is proved and built (tools/library.sh), asked every vector, by answers.c, and compared with the plain implementation over INPUTS inputs (a
# million) from a fixed seed and as many from a fresh one, which is printed. FRESH=SEED repeats a fresh run. Status 1 where anything differs. Output goes to target/c.
set -eu
cd "$(dirname "$0")/.."
root=$PWD
. tests/x86_64.sh
inputs=${1:-1000000}
made=target/c
mkdir -p $made

echo "== the library"
for c in plain generate answers differ; do
    compile -O2 -Iinclude -c tests/c/$c.c -o $made/$c.o
done
tools/library.sh >$made/library.txt 2>&1 || { tail -n 20 $made/library.txt; exit 1; }
library=target/staticlib/libasterix.a
# of names from outside it needs memset alone, which this line stands in for
"$toolchain/bin/ld.lld" -shared -z defs --defsym=memset=0 -o $made/alone.so --whole-archive $library
link $made/answers $made/answers.o $library
python3 tests/vectors.py $start $made/answers
link $made/differ $made/differ.o $made/generate.o $made/plain.o $library
run $made/differ "${FRESH:-fresh}" "$inputs" >$made/fresh.txt 2>&1 &
fresh=$!
run $made/differ 1718 "$inputs"
wait $fresh || { cat $made/fresh.txt; exit 1; }
cat $made/fresh.txt

echo "== the example"
LIBRARY=$library examples/c/run.sh >$made/example.txt
cmp $made/example.txt examples/c/expected.txt

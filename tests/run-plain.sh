#!/bin/sh
# The C tests that need no library: tests/run-plain.sh
#
# The plain implementation is asked every vector, by answers.c; differ.c is tried on it with each fault of faults/ planted, and must find each.
# Status 1 where anything differs. Output goes to target/plain.
set -eu
cd "$(dirname "$0")/.."
root=$PWD
. tests/x86_64.sh
made=target/plain
mkdir -p $made

for c in plain standin generate answers differ; do
    compile -O2 -Iinclude -c tests/c/$c.c -o $made/$c.o
done

echo "== the plain implementation"
link $made/answers-plain $made/answers.o $made/standin.o $made/plain.o
python3 tests/vectors.py $start $made/answers-plain

echo "== planted faults"
link $made/differ-plain $made/differ.o $made/generate.o $made/standin.o $made/plain.o
run $made/differ-plain 1718 100000 >$made/differ-plain.txt || { cat $made/differ-plain.txt; exit 1; }
# Plants a fault, and leaves $here/missed where it isn't found.
plant() {
    here=$made/faults/$(basename "$1" .edit)
    python3 tests/c/plant.py "$1" tests/c $here
    rm -f $here/missed
    for c in plain standin; do
        compile -w -O1 -Iinclude -include tests/c/other.h -c $here/$c.c -o $here/$c.o
    done
    link $here/differ $made/differ.o $made/generate.o $here/standin.o $here/plain.o $made/plain.o
    if run $here/differ 1718 100000 >$here/differ.txt 2>&1; then
        echo "not found: $(basename "$1" .edit)" | tee $here/missed
    fi
}
rm -rf $made/faults
for edit in tests/c/faults/*.edit; do
    plant $edit &
    first=${first:-$!}
    # two at a time
    [ $first = $! ] || { wait $first; first=$!; }
done
wait
[ -z "$(find $made/faults -name missed)" ]
[ "$(find $made/faults -name differ.txt | wc -l)" = "$(ls tests/c/faults/*.edit | wc -l)" ]
echo "$(ls tests/c/faults/*.edit | wc -l) planted, each found"

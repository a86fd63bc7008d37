#!/bin/sh
# The programs from outside: tests/programs.sh [--all]
#
# asterix_check against answers on recordings that are random, cut or changed in one bit; lines of odd forms for answers; then ./asterix, with a stand-in
# for `rt`. With --all also a recording of 1 GB and a line of 100 MB through a pipe. Prints figures; status 1 where anything differs.
set -eu
cd "$(dirname "$0")/.."
root=$PWD
. tests/x86_64.sh
./asterix check </dev/null >/dev/null
./asterix answers </dev/null
python3 tests/programs.py "${1:-}" $start
python3 tests/command.py

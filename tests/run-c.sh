#!/bin/sh
# The C tests: tests/run-c.sh [INPUTS], those of the plain implementation and then those of the library.
set -eu
cd "$(dirname "$0")"
./run-plain.sh
./run-library.sh "$@"

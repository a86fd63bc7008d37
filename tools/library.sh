#!/bin/sh
# The library for C and Rust: tools/library.sh
#
# Proves and builds crates/asterix_c, and the crates below it where they have changed, and puts its archive where C callers look for it:
# target/staticlib/libasterix.a. What rt says goes to standard output. Status 1 or 2 where it is not proved or not built, and then nothing is put there.
set -eu
cd "$(dirname "$0")/../crates/asterix_c"
rt lib </dev/null
made=out/libasterix_c.a library=../../target/staticlib/libasterix.a
# the same archive keeps its time, so that what is linked with it isn't made anew
cmp -s $made $library || { mkdir -p ../../target/staticlib && cp $made $library.new && mv $library.new $library; }

#!/bin/sh
# The Rust tests: tests/run-rust.sh
#
# The crate of bindings/rust is checked and documented, warnings being errors, wherever there is cargo; its tests run where the machine is x86-64 and the
# archive of tools/library.sh is there, or in the folder that ASTERIX_LIB_DIR names. Status 1 where anything fails.
set -eu
cd "$(dirname "$0")/.."
if ! command -v cargo >/dev/null; then
    echo "no cargo: bindings/rust is not checked"
    exit 0
fi
export CARGO_TARGET_DIR="$PWD/target/rust"
export RUSTFLAGS="-D warnings" RUSTDOCFLAGS="-D warnings"
archive=${ASTERIX_LIB_DIR:-target/staticlib}/libasterix.a
cd bindings/rust
cargo check --offline --quiet --all-targets
cargo doc --offline --quiet --no-deps
case $(uname -m) in
x86_64)
    if (cd ../.. && [ -f "$archive" ]); then
        cargo test --offline --quiet
        exit
    fi
    ;;
esac
echo "bindings/rust is checked; its tests need x86-64 and $archive"

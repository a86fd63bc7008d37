# Compiling, linking and running C by the toolchain beside `rt`, so that a machine needs no compiler of its own: to be read by the scripts
# that build C (`. tests/x86_64.sh`, with `root` the repository's folder). The toolchain is for x86-64, as `rt` is.
toolchain=$(dirname "$(dirname "$(readlink -f "$(command -v rt)")")")/toolchain

# compile ARG..: clang, with the declarations of tests/libc as the C library's headers.
compile() {
    "$toolchain/bin/clang" --target=x86_64-unknown-linux-gnu -nostdinc -isystem "$root/tests/libc" -ffreestanding -fPIE \
        -std=gnu11 -Wall -Wextra -Werror "$@"
}

# link PROGRAM FILE..
link() {
    to=$1
    shift
    "$toolchain/bin/ld.lld" -pie -dynamic-linker /lib64/ld-linux-x86-64.so.2 -o "$to" \
        "$toolchain/lib/Scrt1.o" "$toolchain/lib/crti.o" "$toolchain/lib/crtbeginS.o" "$@" \
        "$toolchain/lib/libc.so.6" "$toolchain/lib/libc_nonshared.a" "$toolchain/lib/crtendS.o" "$toolchain/lib/crtn.o"
}

# The words that start a program, and run PROGRAM ARG..
start="$toolchain/lib/ld-linux-x86-64.so.2 --library-path $toolchain/lib"
run() {
    $start "$@"
}

#!/bin/sh
# Builds log.c and sheet.c over the library and runs them: examples/c/run.sh; or log.c alone on a log: examples/c/run.sh LOG, examples/c/run.sh A B [OFFSET]
#
# Without LOG, log on a log of one block for every message type of categories 017 and 018 (the accepted ones of tests/vectors/messages); then on those of
# category 017 and those of category 018 as two logs, merged; then on what a user logged of a session of category 061, and on that and what the SDPS logged,
# merged; then sheet on an exercise sheet for the logs of 017 and 018. It should print examples/c/expected.txt. On x86-64 this is all that it takes:
#
#     tools/library.sh
#     cc -Iinclude examples/c/log.c target/staticlib/libasterix.a -o log && ./log FILE
#     cc -Iinclude examples/c/sheet.c target/staticlib/libasterix.a -o sheet && ./sheet FILE
#
# LIBRARY=FILE.a takes another archive. Here it is the toolchain's clang.
set -eu
cd "$(dirname "$0")/../.."
root=$PWD
. tests/x86_64.sh
made=target/examples
mkdir -p $made
library=${LIBRARY:-target/staticlib/libasterix.a}
[ -n "${LIBRARY:-}" ] || tools/library.sh >$made/library.txt 2>&1 || { tail -n 20 $made/library.txt; exit 1; }
for c in log sheet; do
    compile -O2 -Iinclude -c examples/c/$c.c -o $made/$c.o
    link $made/$c $made/$c.o $library
done
if [ $# -gt 0 ]; then
    run $made/log "$@"
    exit
fi
python3 - tests/vectors/messages-questions.txt tests/vectors/messages-answers.txt $made <<'END'
import sys


def write(name, octets):
    open(sys.argv[3] + "/" + name, "wb").write(octets)


blocks = [bytes.fromhex(q.split()[1]) for q, a in zip(open(sys.argv[1]), open(sys.argv[2])) if a.startswith("ok")]
for name, of in ("messages.log", (17, 18)), ("017.log", (17,)), ("018.log", (18,)):
    write(name, b"".join(block for block in blocks if block[0] in of))
# A user asks for a connection at 08:00:00, and a second later for a service: tracks 5 and 268, codes 432x and some categories of flights (I061/130), three items
# of category 062 (210), sensor information every 60 s and whenever the PSR azimuth bias changes by 20 units (380).
write("user.log", bytes.fromhex("3D 000B E8 1908 11 03 384000"
                                "3D 0024 E9070180 1908 21 03 384080 9140 02 0005 010C 01 18D1 2C818000 A108 8140 003C 0014"))
# The SDPS acknowledges the one after 1/2 s and the other after 1/4 s, and tells the end of a batch.
write("sdps.log", bytes.fromhex("3D 000C EA 1908 13 03 384040 02"
                                "3D 001B F8 1908 26 03 01 3840A0 FD0110 1908 2F 03 01 384280 00 01 0007"))
END
run $made/log $made/messages.log
run $made/log $made/017.log $made/018.log
run $made/log $made/user.log
run $made/log $made/user.log $made/sdps.log

# shows WORD..: what sheet is asked, and what it says. That something is refused is status 1.
cd $made
shows() {
    echo "sheet $*"
    run ./sheet "$@" || [ $? -eq 1 ]
}
shows exercise new -64 A:15:2:7 A:46:0:255 B:241:5:20
shows exercise
shows exercise add A:58:1:3
shows exercise add A:58:4:9
shows exercise remove A:46
shows exercise remove A:46
shows exercise add B:241:6:20
# the second mark's station is its sixth byte, behind 14 and a mark of 8
{ head -c 27 exercise; printf '\006'; tail -c +29 exercise; } >damaged
shows damaged
head -c 37 exercise >cut
shows cut add A:46:0:255
shows exercise empty
shows exercise new 46081
shows exercise

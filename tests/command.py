"""./asterix as a person or a script runs it, for tests/programs.sh: python3 tests/command.py

It is tried in a copy of the repository's folder that has one source, with a stand-in for `rt`, which proves nothing: it notes what it was asked, says a
line for each of two crates, and puts into a crate's out/ what is built in this folder.

In order: the copy; words; recordings; questions; building; a terminal.
"""

import os
import pathlib
import pty
import shutil
import subprocess
import sys
import tempfile
import time

root = pathlib.Path(__file__).resolve().parent.parent
sample = (root / "samples" / "messages.rec").read_bytes()
accepted = b"accepted 53 blocks 100 records\n"
failures = []
trials = 0

# ---- the copy

STANDIN = """#!/bin/sh
echo "$*" >>"$STANDIN/asked"
case "$* ${PWD##*/}" in
"run asterix_check") made=asterix_check ;;
"lib asterix_c") made=libasterix_c.a ;;
*) exit 2 ;;
esac
echo "rt: rules: begins with what a check kept"
echo "rt: chose --jobs 2 for blocks" >&2
[ ! -e "$STANDIN/fails" ] || { echo "fn blocks::one: open goal"; exit 1; }
echo "fn blocks::one: proved"
mkdir -p out && cp "$STANDIN/$made" out/
"""

# What ./asterix, tests/x86_64.sh and the stand-in run of the system's own.
TOOLS = ["bash", "cmp", "cp", "dirname", "find", "mkdir", "mv", "readlink", "sh", "tail", "tee", "touch"]

made = tempfile.TemporaryDirectory()
top = pathlib.Path(made.name)
copy, work, standin, tools = top / "copy", top / "work", top / "standin", top / "tools"
for folder in ["tests/c", "tools", "crates/one/src", "crates/asterix_check", "crates/asterix_c"]:
    (copy / folder).mkdir(parents=True)
for folder in [work, standin, tools, top / "kit" / "bin"]:
    folder.mkdir(parents=True)
for name in ["asterix", "tests/x86_64.sh", "tests/c/answers.c", "tests/c/tables.h", "tools/library.sh"]:
    shutil.copy(root / name, copy / name)
for name in ["include", "tests/libc"]:
    shutil.copytree(root / name, copy / name)
source = copy / "crates" / "one" / "src" / "lib.rt"
for file in [source, copy / "crates.txt"]:
    file.write_text("")
for name in ["asterix_check/out/asterix_check", "asterix_c/out/libasterix_c.a"]:
    shutil.copy(root / "crates" / name, standin)
for name in TOOLS:
    (tools / name).symlink_to(shutil.which(name))
rt = top / "kit" / "bin" / "rt"
rt.write_text(STANDIN)
rt.chmod(0o755)
(top / "kit" / "toolchain").symlink_to(pathlib.Path(shutil.which("rt")).resolve().parent.parent / "toolchain")
for name, octets in [("good.rec", sample), ("with space.rec", sample), ("bad.rec", b"\x11\0\3"), ("-x", b"")]:
    (work / name).write_bytes(octets)
(work / "link").symlink_to(copy / "asterix")
(work / "link to a link").symlink_to("link")


def age(file, seconds):
    then = time.time() - seconds
    os.utime(file, (then, then))


for file in [*copy.rglob("*"), copy]:
    age(file, 1000)

with_rt = {"PATH": f"{rt.parent}:{tools}", "STANDIN": str(standin)}
without_rt = {"PATH": str(tools)}


def asked():
    """What rt was asked since this was last called."""
    file = standin / "asked"
    lines = file.read_text().splitlines() if file.exists() else []
    file.unlink(missing_ok=True)
    return lines


def differ(what, found, expected):
    failures.append(what)
    print(f"DIFFERENT: {what}: {found!r}, expected {expected!r}")


def asterix(what, words, out, status, given=b"", says=(), quiet=None, env=with_rt, program=copy / "asterix", **streams):
    """Runs it: what it writes, its status, what standard error says among other things, or that it says nothing (where `says` is empty)."""
    global trials
    trials += 1
    if "stdin" not in streams:
        streams["input"] = given
    done = subprocess.run([str(program), *words], env=env, cwd=work, stderr=subprocess.PIPE, timeout=60, **{"stdout": subprocess.PIPE, **streams})
    found = (done.stdout or b"", done.returncode)
    if found != (out, status):
        differ(what, (*found, done.stderr), (out, status))
    said = done.stderr.decode()
    if any(text not in said for text in says) or (not says and said):
        differ(f"{what}: standard error", said, says)
    if quiet and quiet in said:
        differ(f"{what}: standard error", said, f"no {quiet}")


# ---- words: one that it doesn't know is 2, before anything is built

for words, says in [
    ([], "usage"),
    (["frob"], "frob"),
    (["Check"], "Check"),
    ([""], "usage"),
    (["-x"], "-x"),
    (["check", "-x"], "-x"),
    (["check", "good.rec", "--all"], "--all"),
    (["check", "-"], "-"),
    (["answers", "good.rec"], "good.rec"),
    (["answers", ""], "usage"),
    (["--help", "check"], "usage"),
]:
    asterix(f"words {words}", words, b"", 2, says=[says, "usage"])
asterix("--help without rt", ["--help"], b"usage: ./asterix check [FILE..], or ./asterix check < recording, or ./asterix answers < questions\n", 0, env=without_rt)
for words in [["check"], ["answers"]]:
    asterix(f"{words} without rt", words, b"", 2, says=["there is no rt"], env=without_rt)
if asked():
    differ("words", "rt was asked", "nothing")

# ---- building: where it is not there, where a source is newer, and not else

lines = ["proving blocks", "proved and built in "]
(standin / "fails").touch()
asterix("a proof that fails", ["check"], b"", 2, given=sample, says=["blocks::one: open goal", "is not built"])
(standin / "fails").unlink()
asterix("the first run", ["check"], accepted, 0, given=sample, says=["is not there", *lines], quiet="rules")
asterix("the second run", ["check"], accepted, 0, given=sample)
if asked() != ["run"] * 2:
    differ("the first runs", "rt was asked otherwise", "twice")
stamp, program = copy / "target" / "asterix-check.stamp", copy / "crates" / "asterix_check" / "out" / "asterix_check"
age(stamp, 500)
age(source, 400)
asterix("a newer source", ["check"], accepted, 0, given=sample, says=["newer", *lines])
asterix("and then", ["check"], accepted, 0, given=sample)
age(stamp, 500)
source.with_name("gone.rt").write_text("")
asterix("a new source", ["check"], accepted, 0, given=sample, says=["newer", *lines])
age(stamp, 500)
age(source, 400)
(standin / "fails").touch()
for _ in range(2):
    asterix("a newer source that is not proved", ["check", "good.rec"], b"", 2, says=["blocks::one: open goal", "is not built"])
(standin / "fails").unlink()
stamp.unlink()
age(program, 500)
asterix("newer than a program that was built otherwise", ["check"], accepted, 0, given=sample, says=["newer", *lines])
program.unlink()
asterix("a program that is gone", ["check"], accepted, 0, given=sample, says=["is not there", *lines])
asked()

# ---- recordings

asterix("nothing", ["check"], b"accepted 0 blocks 0 records\n", 0)
asterix("a refused recording", ["check"], b"refused 4 at 0\n", 1, given=b"\x11\0\3")
asterix("a file", ["check", "good.rec"], b"good.rec: " + accepted, 0)
asterix("names", ["check", "with space.rec", "./-x"], b"with space.rec: " + accepted + b"./-x: accepted 0 blocks 0 records\n", 0)
asterix("one refused", ["check", "bad.rec", "good.rec"], b"bad.rec: refused 4 at 0\ngood.rec: " + accepted, 1)
asterix("the other refused", ["check", "good.rec", "bad.rec"], b"good.rec: " + accepted + b"bad.rec: refused 4 at 0\n", 1)
for name in ["nosuch.rec", "", "/"]:
    asterix(f"no file {name!r}", ["check", name], b"", 2, says=[f"{name}: cannot be read"])
asterix("no file, then others", ["check", "nosuch.rec", "bad.rec", "good.rec"], b"bad.rec: refused 4 at 0\ngood.rec: " + accepted, 2, says=["nosuch.rec: cannot be read"])
for link in ["link", "link to a link"]:
    asterix(link, ["check", "good.rec"], b"good.rec: " + accepted, 0, program=work / link)
with open("/dev/full", "wb") as full:
    asterix("no room to write", ["check"], b"", 2, says=["cannot be written"], stdout=full)
    asterix("no room to write, files", ["check", "good.rec", "bad.rec"], b"", 2, says=["cannot be written"], stdout=full)
    asterix("no room to write, questions", ["answers"], b"", 2, given=b"recording -\n", says=["cannot be written"], stdout=full)

# ---- questions

asterix("questions", ["answers"], b"ok 0 0\nbad line\n", 0, given=b"recording -\nfrob\n")
for words in [["check"], ["answers"]]:
    folder = os.open("/", os.O_RDONLY)
    asterix(f"{words}: a folder as standard input", words, b"", 2, says=["cannot be read"], stdin=folder)
    os.close(folder)
    asterix(f"{words}: no standard input", words, b"", 2, says=["cannot be read"], stdin=None, preexec_fn=lambda: os.close(0))

# ---- a terminal: that standard input is read is said there, and only there

for words, says, out in [(["check"], "reading a recording from standard input", b"accepted 0 blocks 0 records\n"), (["answers"], "reading questions", b"")]:
    ours, theirs = pty.openpty()
    os.write(ours, b"\x04")
    asterix(f"{words} on a terminal", words, out, 0, says=[says], stdin=theirs)
    os.close(theirs)
    os.close(ours)

print(f"./asterix: {trials} trials" + (f", {len(failures)} differ" if failures else ", all as expected"))
sys.exit(len(failures) > 0)

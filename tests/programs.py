"""The programs from outside, for tests/programs.sh: python3 tests/programs.py (--all or an empty word) WORD.., the words that start a program.

In order: starting a program; recordings; lines; memory. ./asterix itself is tried by tests/command.py.
"""

import os
import pathlib
import random
import resource
import subprocess
import sys
import threading
import time

root = pathlib.Path(__file__).resolve().parent.parent
sys.path.insert(0, str(root / "model"))

import reading

everything, start = sys.argv[1] == "--all", sys.argv[2:]
places = {"asterix_check": "crates/asterix_check/out/asterix_check", "answers": "target/c/answers"}
sample = (root / "samples" / "messages.rec").read_bytes()
failures = []

# What a program may hold at most, by the system's count of its largest resident size; `answers` beside its longest line, which it may hold some three times
# while room for it grows.
MEMORY = 16 * 1024

# ---- starting a program


def command(program):
    return start + [str(root / places[program])]


def run(program, given):
    done = subprocess.run(command(program), input=given, stdout=subprocess.PIPE, stderr=subprocess.PIPE)
    return done.stdout, done.stderr, done.returncode


def same(what, found, expected):
    if found != expected:
        failures.append(what)
        if len(failures) <= 10:
            print(f"DIFFERENT: {what}: {found[:200]!r}, expected {expected[:200]!r}")


def fed(program, pieces):
    """What a program writes to standard output, its status, and its largest resident size in KiB once it has read all pieces."""
    child = subprocess.Popen(command(program), stdin=subprocess.PIPE, stdout=subprocess.PIPE)
    found = []
    reader = threading.Thread(target=lambda: found.append(child.stdout.read()))
    reader.start()
    for piece in pieces:
        child.stdin.write(piece)
    child.stdin.flush()
    status = pathlib.Path(f"/proc/{child.pid}/status").read_text()
    peak = next(int(line.split()[1]) for line in status.split("\n") if line.startswith("VmHWM"))
    child.stdin.close()
    reader.join()
    return found[0], child.wait(), peak


# ---- recordings: asterix_check says what answers says


def checked(line):
    """The line of asterix_check for an answer to `recording HEX`."""
    words = line.split(" ")
    return f"accepted {words[1]} blocks {words[2]} records" if words[0] == "ok" else line


def compare(what, recordings):
    began = time.monotonic()
    questions = "".join(f"recording {r.hex() or '-'}\n" for r in recordings).encode()
    answers, said, status = run("answers", questions)
    lines = answers.decode().split("\n")
    same(f"{what}: answers", (len(lines), said, status), (len(recordings) + 1, b"", 0))
    accepted = 0
    for recording, line in zip(recordings, lines):
        expected = checked(line)
        accepted += expected.startswith("accepted")
        same(f"{what}: {recording.hex()}", run("asterix_check", recording), (expected.encode() + b"\n", b"", 0))
    print(f"{what}: {len(recordings)} recordings, {accepted} accepted ({time.monotonic() - began:.1f} s)")


def whole_blocks(most):
    """The blocks of the sample that fit so many octets."""
    end = 0
    while end + int.from_bytes(sample[end + 1 : end + 3], "big") <= most:
        end += int.from_bytes(sample[end + 1 : end + 3], "big")
    return sample[:end]


def random_recording(chance):
    """Octets, of which the first are often a head that says their number."""
    count = chance.choice([0, 1, 2, 3, 4, 5, 8, 16, 40, 100, 300, 1000, 5000, 30000])
    octets = bytearray(chance.randbytes(chance.randint(count // 2, count)))
    if len(octets) >= 3 and chance.random() < 0.7:
        octets[0] = chance.choice([17, 18])
        octets[1:3] = len(octets).to_bytes(2, "big")
    return bytes(octets)


def changed(octets):
    for at in range(len(octets)):
        for bit in range(8):
            yield octets[:at] + bytes([octets[at] ^ 1 << bit]) + octets[at + 1 :]


chance = random.Random(20260101)
long = sample * 3
compare("random", [random_recording(chance) for _ in range(1000)])
compare("cut", [long[:n] for n in range(2001)])
compare("one bit changed", list(changed(whole_blocks(500))))

# ---- lines of odd forms


def ask(what, given, expected):
    same(what, run("answers", given), (expected, b"", 0))


at = 0
while at < len(sample):
    last = int.from_bytes(sample[at + 1 : at + 3], "big")
    at += last


def head(category, records):
    return bytes([category]) + (3 + len(records)).to_bytes(2, "big") + records


for what, given, expected in [
    ("empty input", b"", b""),
    ("one line feed", b"\n", b"bad line\n"),
    ("no line feed at the end", b"recording -", b"ok 0 0\n"),
    ("a line feed at the end", b"recording -\n", b"ok 0 0\n"),
    ("empty lines", b"\n\nrecording -\n\n", b"bad line\nbad line\nok 0 0\nbad line\n"),
    ("NUL", b"\0", b"bad line\n"),
    ("NUL in a word", b"recording\0-\nrecording -\0\nrecording -\n", b"bad line\nbad line\nok 0 0\n"),
    ("NUL alone, many", b"\0" * 70000, b"bad line\n"),
    ("carriage return", b"recording -\r\nrecording -\n", b"bad line\nok 0 0\n"),
    ("every octet", bytes(range(256)), b"bad line\nbad line\n"),
    ("many words", b"recording" + b" -" * 10**6 + b"\nrecording -", b"bad line\nok 0 0\n"),
    ("long lines, then one more", (b"x" * 10**7 + b"\n") * 3 + b"recording -", b"bad line\n" * 3 + b"ok 0 0\n"),
    ("a long recording", b"recording " + sample.hex().encode() * 1000, b"ok 53000 100000\n"),
    ("a long recording, cut", b"recording " + (sample * 1000)[:-1].hex().encode(), b"refused 3 at %d\n" % (1000 * len(sample) - last)),
    ("a block too long for its LEN", b"block 11FFFF" + b"00" * 10**6, b"refused 3 at 0\n"),
    ("long zeros in front", b"read " + b"0" * 10**6 + b"17 45 C00000800000", b"ok -4194304,-8388608\n"),
    ("a long number", b"record - " + b"9" * 10**6, b"refused 1 at 0\n"),
    ("many fields", b"write 17 210 9 " + b"1," * 10**6 + b"1", b"refused 11 at 0\n"),
    ("many fields and a fault", b"write 17 210 9 " + b"1," * 10**6 + b"y", b"bad line\n"),
    ("many FRNs", b"add 110003 99 " + b"1,2,3,5," * 10**5 + b"5 00010203144CA1B2", b"ok 12 11000CE800010203144CA1B2\n"),
    ("much in use", b"add 11FFFF" + b"00" * 10**6 + b" 99999999 1 -", b"refused 3 at 0 old\n"),
    ("much in use, no room", b"add 11FFFF" + b"00" * 10**6 + b" 999999 1 -", b"refused 16 at 0 old\n"),
]:
    ask(what, given, expected)
found, said, status = run("answers", b"mergerun 0 " + sample.hex().encode() * 100 + b" -")
same("two long logs", (found[:9], found.count(b" A@"), said, status), (b"ok 10000 ", 10000, b"", 0))
for length in [*range(4090, 4100), *range(65530, 65540), *range(131068, 131076)]:
    ask(f"a line of {length}", b"x" * length + b"\nrecording -\n", b"bad line\nok 0 0\n")

# What cannot be read, written or held: standard error says so. asterix_check ends with 0 where it has said what it had to; ./asterix has a status.
for program, status in [("asterix_check", 0), ("answers", 2)]:
    folder = os.open("/", os.O_RDONLY)
    done = subprocess.run(command(program), stdin=folder, stdout=subprocess.PIPE, stderr=subprocess.PIPE)
    os.close(folder)
    same(f"{program}: a read that fails", (done.stdout, done.stderr, done.returncode), (b"", f"{program}: standard input cannot be read\n".encode(), status))
with open("/dev/full", "wb") as full:
    done = subprocess.run(command("answers"), input=b"recording -\n", stdout=full, stderr=subprocess.PIPE)
same("answers: a write that fails", (done.stderr, done.returncode), (b"answers: standard output cannot be written\n", 2))
done = subprocess.run([*command("answers"), "recording"], stdin=subprocess.DEVNULL, stdout=subprocess.PIPE, stderr=subprocess.DEVNULL)
same("answers: a word", (done.stdout, done.returncode), (b"", 2))
most = 100 * 1024 * 1024
limit = lambda: resource.setrlimit(resource.RLIMIT_AS, (most, most))
done = subprocess.run(command("answers"), input=b"recording -\n" + b"x" * most, stdout=subprocess.PIPE, stderr=subprocess.PIPE, preexec_fn=limit)
same("answers: a line that memory does not hold", (done.stdout, done.stderr, done.returncode), (b"ok 0 0\n", b"answers: a line is longer than memory holds\n", 2))

# The same questions in pieces of odd sizes: lines end anywhere in what a read brings. The last line has no line feed.
questions = (root / "tests" / "vectors" / "edges-questions.txt").read_bytes().rstrip(b"\n")
answers = (root / "tests" / "vectors" / "edges-answers.txt").read_bytes()
for size in [1009, 4096, 65537]:
    found, status, peak = fed("answers", (questions[k : k + size] for k in range(0, len(questions), size)))
    same(f"pieces of {size}", (found, status), (answers, 0))

# Large blocks of each block of the sample's records in turn, the first of each category as large as can be: no answer is cut.
longest = 0
categories = set()
at = 0
while at < len(sample):
    size = int.from_bytes(sample[at + 1 : at + 3], "big")
    records = sample[at + 3 : at + size]
    most = 8192 if sample[at] in categories else 65535
    categories.add(sample[at])
    line = "block " + head(sample[at], records * ((most - 3) // len(records))).hex().upper()
    expected = reading.answer(line)
    longest = max(longest, len(expected))
    ask(f"a large block of {records.hex()}", line.encode(), expected.encode() + b"\n")
    at += size
print(f"lines: odd forms, pieces, and blocks of up to 65,535 octets; the longest answer has {longest} characters")

# ---- memory


def repeated(octets, times):
    chunk = octets * 1000
    for _ in range(times // 1000):
        yield chunk
    yield octets * (times % 1000)


def large(what, program, pieces, expected, line=0):
    """line: how many octets the longest line has."""
    began = time.monotonic()
    found, status, peak = fed(program, pieces)
    same(what, (found[:200], status), (expected[:200], 0))
    most = 3 * line // 1024 + MEMORY
    if peak >= most:
        failures.append(f"{what}: {peak} KiB")
        print(f"TOO MUCH: {what}: {peak} KiB, where {most} are the bound")
    print(f"{what}: {found.decode().partition(chr(10))[0]}, {peak} KiB, {time.monotonic() - began:.1f} s")


large("a line of 10 MB", "answers", repeated(b"x" * 1000, 10_000), b"bad line\n", 10**7)
large("lines of 40 MB", "answers", repeated(b"x" * 3999 + b"\n", 10_000), b"bad line\n" * 10_000, 4000)
if everything:
    large("a line of 100 MB", "answers", repeated(b"x" * 1000, 10**5), b"bad line\n", 10**8)
for size in [10**7] + [10**9] * everything:
    times = -(-size // len(sample))
    expected = f"accepted {53 * times} blocks {100 * times} records\n".encode()
    large(f"a recording of {times * len(sample)} octets", "asterix_check", repeated(sample, times), expected)

if failures:
    print(f"{len(failures)} differ")
    sys.exit(1)
print("all agree")

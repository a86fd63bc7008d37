"""Asks a program every question of tests/vectors, set by set: python3 tests/vectors.py WORD.., the words that start it.

Says of each set how many of how many questions were answered otherwise, and of each of those what was expected and what was answered.
Status 1 where any was, where a set has not as many answers as questions, or where there is no set.
"""

import pathlib
import subprocess
import sys
from itertools import zip_longest

# How much of a long line is shown.
SHOWN = 300


def lines_of(text):
    return text.removesuffix(b"\n").split(b"\n") if text else []


def shown(line):
    return line[:SHOWN].decode(errors="replace")


folder = pathlib.Path(__file__).resolve().parent / "vectors"
start = sys.argv[1:]
failed = asked = 0

for file in sorted(folder.glob("*-questions.txt")):
    name = file.name.removesuffix("-questions.txt")
    given = file.read_bytes()
    questions, expected = lines_of(given), lines_of((folder / f"{name}-answers.txt").read_bytes())
    if len(questions) != len(expected):
        sys.exit(f"vectors: {name} has {len(questions)} questions and {len(expected)} answers")
    done = subprocess.run(start, input=given, stdout=subprocess.PIPE)
    otherwise = 0
    for number, (question, right, answer) in enumerate(zip_longest(questions, expected, lines_of(done.stdout), fillvalue=b"(no line)"), 1):
        if answer != right:
            otherwise += 1
            print(f"{name}, line {number}: {shown(question)}\n  expected {shown(right)}\n  answered {shown(answer)}")
    if done.returncode != 0:
        print(f"{name}: the program ended with status {done.returncode}")
    print(f"{name}: {otherwise} of {len(questions)} questions answered otherwise")
    failed += otherwise + (done.returncode != 0)
    asked += len(questions)

print(f"vectors: {asked} questions, " + ("not all answered as expected" if failed else "all answered as expected"))
sys.exit(failed > 0 or asked == 0)

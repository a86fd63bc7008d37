#!/usr/bin/env python3
"""Counts, in crates/*/src, the places where the code reads like an older Rattle (docs/DESIGN-PASS.md): `tools/design-count.py [FOLDER] [POINT..]` lists each
place with its file and line, and how many there are. A place is found by its text alone; whether it is to be changed, the page says."""

import collections
import glob
import itertools
import os
import re
import sys


def files(folder):
    for path in sorted(glob.glob(os.path.join(folder, "crates/*/src/**/*.rt"), recursive=True)):
        with open(path) as file:
            yield os.path.relpath(path, folder), file.read()


def code(text):
    """The text with comments blanked, so that lines and columns stay."""
    return re.sub(r"//[^\n]*", lambda m: " " * len(m[0]), text)


def line_of(text, at):
    return text.count("\n", 0, at) + 1


SAYS_NOT = r"Refused|Failed|Fault|Unread|Barred|Stopped|Nothing|NoItem|Nowhere|Unknown|Neither|NotAccepted|Absent|RefusedOld|None"


def enums(folder):
    """1a: enums of the shape of Option or Result: a variant says that there is no value, or why not."""
    for path, text in files(folder):
        for m in re.finditer(r"^(?:pub )?enum (\w+)[^{]*\{(.*?)^\}", code(text), re.M | re.S):
            if re.search(rf"^    (?:{SAYS_NOT})\b", m[2], re.M):
                yield path, line_of(text, m.start()), m[1]


def kinds(folder):
    """1b: numbers for kinds or refusals: constants that are only compared, and fields and variants that hold a refusal's number."""
    names = {}
    for path, text in files(folder):
        for m in re.finditer(r"^(?:pub )?const ([A-Z_]+): (?:u8|usize) = \d;", code(text), re.M):
            names[m[1]] = (path, line_of(text, m.start()))
    compared = set()
    for _, text in files(folder):
        compared |= set(re.findall(r"(?:==|!=) (?:\w+::)?([A-Z_]+)\b", code(text)))
    for name, (path, line) in sorted(names.items(), key=lambda it: it[1]):
        if name in compared:
            yield path, line, name
    for path, text in files(folder):
        for m in re.finditer(r"\bnumber: u8\b", code(text)):
            yield path, line_of(text, m.start()), "number: u8"


def flags(folder):
    """1c: a flag with a value beside it in a struct, and functions that answer 0 for nothing."""
    for path, text in files(folder):
        for m in re.finditer(r"^(?:pub )?struct (\w+)[^{;]*\{(.*?)^\}", code(text), re.M | re.S):
            if re.search(r": bool,", m[2]):
                yield path, line_of(text, m.start()), m[1]
        lines = text.split("\n")
        for i, line in enumerate(lines):
            if re.match(r"\s*//.*\b(?:0 tells nothing|0 where)", line):
                after = next((it for it in lines[i + 1 :] if not it.strip().startswith("//")), "")
                name = re.match(r"\s*(?:pub )?(?:extern \"C\" )?fn (\w+)", after)
                if name:
                    yield path, i + 1, name[1]


TYPES = r"\b(?:u8|u16|u32|u64|usize|i64|bool|[A-Z]\w*)\b"


def shape_of(text):
    """The text with each type, constant and number as one letter; other names stay."""
    return " ".join(re.findall(r"\w+|[^\w\s]", re.sub(r"\b\d\w*\b", "0", re.sub(TYPES, "T", text))))


def twins(folder):
    """2: functions of one body, and types of one declaration, but for types, constants and numbers: each that has a twin."""
    found = collections.defaultdict(list)
    for path, text in files(folder):
        body = code(text)
        for m in re.finditer(r"^([ ]*)(?:pub )?fn (\w+).*?\n\1\{\n(.*?)^\1\}", body, re.M | re.S):
            if len(shape_of(m[3])) > 24:
                found["fn", shape_of(m[3])].append((path, line_of(text, m.start()), m[2]))
        for m in re.finditer(r"^(?:pub )?(struct|enum) (\w+)[^{;]*\{(.*?)^\}", body, re.M | re.S):
            shape = shape_of(re.sub(r"\bpub\b|#\[.*?\]", "", m[3]))
            if len(shape) > 12:
                found[m[1], shape].append((path, line_of(text, m.start()), m[2]))
    for (what, _), places in sorted(found.items(), key=lambda it: it[1]):
        if len(places) > 1:
            for path, line, name in places:
                yield path, line, f"{what} {name}, of {len(places)}"


def loops(folder):
    """3: loops that are no `for`."""
    for path, text in files(folder):
        for m in re.finditer(r"^\s*(?:while|loop)\b[^\n]*", code(text), re.M):
            yield path, line_of(text, m.start() + len(m[0]) - len(m[0].lstrip())), m[0].strip()


def conversions(folder):
    """4: conversion by hand: a function that takes a value apart by `match` into a number, or copies one struct's fields into another's; printing by hand."""
    for path, text in files(folder):
        for m in re.finditer(r"(?:\b(\w+): (\w+)\.\1,\s*){3,}", code(text)):
            yield path, line_of(text, m.start()), "fields copied one by one"
        for m in re.finditer(r"^\s*(?:pub )?fn (\w*(?:number|place|number_of|place_of))\(\w+: [A-Z]\w*\)|^\s*(?:pub )?fn (number|place)\(self\)", code(text), re.M):
            yield path, line_of(text, m.start()), m[1] or m[2]
        for m in re.finditer(r"^\s*(?:pub )?fn (put_sentence|verdict|put_decimal|put_octets|key_of)\b", code(text), re.M):
            yield path, line_of(text, m.start()), m[1]


def functions(folder):
    """Each function: its file, line, name, parameters and clauses."""
    for path, text in files(folder):
        body = code(text)
        for m in re.finditer(r"^[ ]*(?:#\[.*\]\n[ ]*)*(?:pub )?(?:extern \"C\" )?fn (\w+)(?:<[^>]*>)?\(([^)]*)\)", body, re.M):
            after = body[m.end() :].split("\n")
            clauses = [after[0]]
            for line in after[1:]:
                if not line.strip().startswith(("requires", "ensures", "×")):
                    break
                clauses.append(line)
            yield path, line_of(text, m.start()), m[1], m[2], "\n".join(clauses)


def facts(folder):
    """5a: a fact that stands in the `requires` of three or more functions: each such function."""
    found = collections.defaultdict(set)
    for path, line, name, _, rest in functions(folder):
        for clause in re.findall(r"requires[^{]*\{(.*)\}", rest):
            for word in re.findall(r"(?<![\w.])([A-Z]\w+|\w*sound\w*|exact_\w+) (?=[a-z(0-9])", clause):
                found[word].add((path, line, name))
    for word, places in sorted(found.items()):
        if len(places) >= 3:
            for path, line, name in sorted(places):
                yield path, line, f"{word}: {name}"


def together(folder):
    """5b: three or more parameters, by name and type, that travel together through four or more functions: each such group."""
    found = collections.defaultdict(list)
    for path, line, name, params, _ in functions(folder):
        named = [re.sub(r"\s+", " ", it).strip() for it in params.split(",")]
        for group in itertools.combinations([it for it in named if ":" in it], 3):
            found[group].append((path, line, name))
    for group, places in sorted(found.items(), key=lambda it: (-len(it[1]), it[0])):
        if len(places) >= 4:
            yield places[0][0], places[0][1], f"({', '.join(group)}) in {len(places)} functions"


def buffers(folder):
    """6: a buffer with a place in it beside, in a signature; and tables in columns, an array each."""
    for path, line, name, params, _ in functions(folder):
        if re.search(r": &mut \[[^\]]*\]", params) and re.search(r"\b(?:at|start|q|place|used|from|to): usize", params):
            yield path, line, name
    for path, text in files(folder):
        for m in re.finditer(r"^(?:pub )?(?:const|static) ([A-Z_0-9]+): \[", code(text), re.M):
            yield path, line_of(text, m.start()), m[1]


def switches(folder):
    """7: a `match` on a number whose arms call functions, and tables of functions."""
    for path, text in files(folder):
        for m in re.finditer(r"^\s*(?:0x)?[0-9A-F_]+ => (\w+)\(", code(text), re.M):
            yield path, line_of(text, m.start()), m[1]
        for m in re.finditer(r"\bfn\([^)]*\) ->", code(text)):
            yield path, line_of(text, m.start()), "fn"


def answers(folder):
    """8: answers in proofs."""
    for path in sorted(glob.glob(os.path.join(folder, "crates/*/proofs/**/Answers.antt"), recursive=True)):
        with open(path) as file:
            text = file.read()
        for m in re.finditer(r"^pub ([\w-]+) : goal\.", text, re.M):
            yield os.path.relpath(path, folder), line_of(text, m.start()), m[1]


POINTS = {
    "1a": enums,
    "1b": kinds,
    "1c": flags,
    "2": twins,
    "3": loops,
    "4": conversions,
    "5a": facts,
    "5b": together,
    "6": buffers,
    "7": switches,
    "8": answers,
}


def main():
    folder = sys.argv[1] if len(sys.argv) > 1 else "."
    wanted = sys.argv[2:]
    for point, find in POINTS.items():
        if wanted and point not in wanted:
            continue
        places = list(find(folder))
        print(f"{point}: {len(places)}: {find.__doc__.splitlines()[0].split(': ', 1)[1]}")
        if wanted:
            for path, line, name in places:
                print(f"    {path}:{line}  {name}")


main()

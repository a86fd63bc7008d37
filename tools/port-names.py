#!/usr/bin/env python3
"""Brings the repository's own definitions and lemmas to today's spelling: words in snake case, a dash only between two names.

usage: tools/port-names.py [--list]      at the top of a checkout in which the kit's port.py has just run; --list only prints old and new names

A name is one that a file of specs/ or proofs/ declares: a definition, a lemma, a field of a record, a constructor. Types, facts and modules keep their
capitals, and so do parts of names that are types. Names of Rust's side, exported names, strings, inputs and outputs are not touched. A name that the
kit's library has too is left in each file that imports it from there. It is run once.
"""
import collections
import os
import re
import sys

LISTED = "--list" in sys.argv
WORD = re.compile(r"[^\s(){}\[\].,;:=|\"`]+")
DECLARED = re.compile(r"^((?:unfoldable |abbrev |pub |opaque )*)([^\s:(){},=]+(?: [^\s:(){},=]+)*)(?: \{[^}]*\})* :(?: |$)")
FIELD = re.compile(r"^ +(?:abbrev |pub )*([^\s:(){},=]+(?: [^\s:(){},=]+)*)(?: \{[^}]*\})* :(?: |$)")


def files():
    for folder, dirs, names in os.walk("crates"):
        dirs[:] = sorted(d for d in dirs if d != "out")
        for name in sorted(names):
            yield os.path.join(folder, name)


def read(path):
    with open(path, encoding="utf-8") as f:
        return f.read()


def snake(part):
    """A part of a name: words run together by capitals are set apart; one that begins with a capital is a type's."""
    if not re.match(r"[a-z]", part):
        return part
    part = part.replace("getD", "get_or")
    return re.sub(r"([a-z0-9'])([A-Z])", lambda m: m.group(1) + "_" + m.group(2).lower(), part)


def declared():
    """Which names the repository declares, and which of them are definitions of specs/ or fields."""
    all_names, defs, members = set(), set(), set()
    for path in files():
        if not path.endswith(".antt") or os.path.basename(path) == "Proof.antt":
            continue
        inside = False
        for line in read(path).split("\n"):
            top = DECLARED.match(line)
            if re.match(r"^(?:pub |abbrev )*(record|data)\s", line):
                inside = True
                continue
            if top:
                inside = False
                got = top.group(2).split()
                all_names.update(got)
                if "/specs/" in path:
                    defs.update(got)
                continue
            field = FIELD.match(line)
            if field and not field.group(1).startswith("let "):
                got = field.group(1).split()
                all_names.update(got)
                if inside:
                    members.update(got)
                if inside and "/specs/" in path:
                    defs.update(got)
    return all_names, defs, members


def imported(text, own):
    """The names that a file imports from elsewhere than this repository."""
    got = set()
    for m in re.finditer(r"^(?:ghost )?use ([^\s{]+)\.\{([^}]*)\}", text, re.M):
        parts = m.group(1).split(".")
        if parts[0] == "Rattle" and parts[1] in own:
            continue
        for item in m.group(2).split(","):
            got.add(item.split(" as ")[0].strip())
    return got


def table():
    own = set(os.listdir("crates"))
    names, defs, members = declared()
    library = set()
    for path in files():
        if path.endswith((".antt", ".rt")):
            library |= imported(read(path), own)
    new = {}
    for name in names:
        if not re.match(r"[a-z]", name) or "◌" in name or name in library:
            continue
        # a dash stays beside a part that is the name of a type or of a definition of more than one word: it joins two names
        raw = name.split("-")
        out = snake(raw[0])
        for left, right in zip(raw, raw[1:]):
            joins = any(re.search(r"[A-Z]", p) for p in (left, right))
            out += ("-" if joins else "_") + snake(right)
        if out != name:
            new[name] = out
    # where names fall together the definition has the plain one, and the lemma ends in _lem
    groups = collections.defaultdict(set)
    for name in names - set(new):
        groups[name].add(name)
    for name in new:
        groups[new[name]].add(name)
    for out, olds in sorted(groups.items()):
        if len(olds) < 2:
            continue
        ranked = sorted(olds, key=lambda n: (n not in defs, "-" in n, n == out, n))
        for i, name in enumerate(ranked):
            new[name] = out + ("" if i == 0 else "_lem" if i == 1 else f"_lem{i}")
        print("together: " + ", ".join(f"{n} is {new[n]}" for n in ranked), file=sys.stderr)
    for name in sorted(new):
        if new[name] in library:
            print(f"library: {name} is {new[name]}", file=sys.stderr)
    return own, {k: v for k, v in new.items() if k != v}, members


def turned(text, new, members, proof, rust):
    """The words of a piece of code. After a dot stands a field, or in the proof of a function a step of the code, whose name is not ours."""

    def one(w):
        word = w.group(0)
        plain = re.fullmatch(r"[a-z0-9_']+", word)
        if word not in new or rust and plain:
            return word
        if text[w.start() - 1 : w.start()] == "." and (plain or proof and word not in members):
            return word
        return new[word]

    return WORD.sub(one, text)


def main():
    own, new, members = table()
    if LISTED:
        for name in sorted(new):
            print(f"{name}\t{new[name]}")
        return
    for path in files():
        if not path.endswith((".antt", ".rt")):
            continue
        text = read(path)
        there = imported(text, own)
        here = {k: v for k, v in new.items() if k not in there}
        rust, proof = path.endswith(".rt"), os.path.basename(path) == "Proof.antt"
        lines = []
        for line in text.split("\n"):
            code, comment = re.match(r"^(.*?)((?://|--\s|--$).*)?$" if rust else r"^(.*?)((?:--\s|--$).*)?$", line).groups()
            comment = re.sub(r"`[^`]*`", lambda m: turned(m.group(0), here, members, False, rust), comment or "")
            lines.append(turned(code, here, members, proof, rust) + comment)
        out = "\n".join(lines)
        if out != text:
            with open(path, "w", encoding="utf-8") as f:
                f.write(out)


main()

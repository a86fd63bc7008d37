#!/usr/bin/env python3
"""Counts the public lemmas, definitions, records and fields of specs/ and proofs/ that a crate of the folder OLD has and that of NEW has no more, by name
(docs/DESIGN-PASS.md, "Lemmas that are no more"): `tools/design-lemmas.py OLD NEW [CRATE..]` lists those of the crates named. Answers to goals and invariants are
none of them."""

import collections
import glob
import os
import re
import sys


def names(folder, crate):
    """Each public name: a field with its record before it, as `Record.field`; with it the file, from the crate's folder."""
    found = {}
    for part in "specs", "proofs":
        for path in sorted(glob.glob(os.path.join(folder, "crates", crate, part, "**", "*.antt"), recursive=True)):
            if part == "proofs" and os.path.basename(path) in ("Answers.antt", "Invariants.antt"):
                continue
            with open(path) as file:
                lines = file.read().split("\n")
            record = (0, None)
            for line in lines:
                inset = len(line) - len(line.lstrip())
                if line.strip() and inset <= record[0]:
                    record = (0, None)
                m = re.match(r"\s*(?:abbrev |unfoldable )*(?:pub )?(?:abbrev |unfoldable )*(record |data )?([^\s:({]+)", line)
                if not m or not re.match(r"\s*(?:abbrev |unfoldable )*pub (?!use |mod )", line) and not m[1]:
                    continue
                if re.search(r"\bpub ", line[: m.start(2)]):
                    found[f"{record[1]}.{m[2]}" if record[1] else m[2]] = os.path.relpath(path, os.path.join(folder, "crates", crate))
                if m[1] == "record ":
                    record = (inset, m[2])
    return found


def main():
    old, new, wanted = sys.argv[1], sys.argv[2], sys.argv[3:]
    counts = collections.Counter()
    for path in sorted(glob.glob(os.path.join(old, "crates", "*", ""))):
        crate = os.path.basename(os.path.dirname(path))
        kept = names(new, crate)
        for name, file in names(old, crate).items():
            counts["in all", file.split("/")[0]] += 1
            if name not in kept:
                counts["gone", file.split("/")[0]] += 1
                if crate in wanted:
                    print(f"    {crate}/{file}  {name}")
    for (what, part), n in sorted(counts.items()):
        print(f"{part}, {what}: {n}")


main()

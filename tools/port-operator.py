#!/usr/bin/env python3
"""Calls the rules' own `if◌then◌else◌` `when◌then◌else◌`: the library has an operator of the old name, and no other may bear it.

usage: tools/port-operator.py        at the top of a checkout, after tools/port-names.py; it is run once
"""
import os
import re

OWN = "if◌then◌else◌"
WORD = re.compile(r"(?<![\w.'◌-])if(?![\w'-])")


def turned(code):
    return WORD.sub("when", code)


def main():
    changed = set()
    for folder, dirs, names in os.walk("crates"):
        dirs[:] = sorted(d for d in dirs if d != "out")
        for name in sorted(names):
            path = os.path.join(folder, name)
            if not name.endswith((".antt", ".rt")):
                continue
            with open(path, encoding="utf-8") as f:
                text = f.read()
            if OWN not in text:
                continue
            lines = []
            for line in text.split("\n"):
                # of a source file only what stands in a clause is ours
                if name.endswith(".rt"):
                    lines.append(turned(line) if OWN in line or " then " in line and "{ " in line else line)
                    continue
                code, comment = re.match(r"^(.*?)((?:--\s|--$).*)?$", line).groups()
                lines.append(turned(code) + (comment or ""))
            with open(path, "w", encoding="utf-8") as f:
                f.write("\n".join(lines))
            changed.add(path)
    for folder, dirs, names in os.walk("crates"):
        dirs[:] = sorted(d for d in dirs if d != "out")
        for name in sorted(names):
            if not name.endswith(".edit"):
                continue
            path = os.path.join(folder, name)
            with open(path, encoding="utf-8") as f:
                text = f.read()
            of = re.search(r"(?m)^file: (.*)$", text)
            if of and os.path.join(os.path.dirname(folder), of.group(1)) in changed:
                text = re.sub(r"(?m)^(?:old|new): .*$", lambda m: m.group(0)[:5] + turned(m.group(0)[5:]), text)
                with open(path, "w", encoding="utf-8") as f:
                    f.write(text)


main()

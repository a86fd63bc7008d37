"""plant.py EDIT SOURCES TO: copies the C sources of one folder to another, with the edit of a file of faults/ made in them.

An edit has the form of a crate's must-fail edits: a line that says what is wrong, `file:`, `old:` and `new:`. The old text must be there exactly once."""

import pathlib
import sys

edit, sources, to = (pathlib.Path(a) for a in sys.argv[1:4])
part = {}
for line in edit.read_text().splitlines():
    key, _, text = line.partition(": ")
    part[key] = text
to.mkdir(parents=True, exist_ok=True)
for source in sorted(sources.glob("*.[ch]")):
    text = source.read_text()
    if source.name == part["file"]:
        if text.count(part["old"]) != 1:
            sys.exit(f"{edit}: the old text is there {text.count(part['old'])} times")
        text = text.replace(part["old"], part["new"])
    (to / source.name).write_text(text)

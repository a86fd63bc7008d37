"""Makes from tables.py what the repository has of it: the tables of the code, docs/FIELDS.md,
docs/MESSAGES.md, the vectors of message types, of edges and of lengths, and the sample recording.

    python3 model/make.py [--check]

A table of the code is a region of its file, between a comment that names it and one that ends it; what
stands outside is written by hand. Without --check whatever differs is written anew and named. With
--check nothing is written: each difference is shown, and with one or more the exit status is 1.

Nothing that is made here is trusted: the computed tests of the proofs hold each table of the code to
crates/rules/specs, which was transcribed apart.
"""

import difflib
import pathlib
import re
import sys
from collections import namedtuple

import code_tables as code
import edges
import fields
import lengths
import messages
import quick_tables as quick
import samples
import tables

ROOT = pathlib.Path(__file__).resolve().parents[1]

# ---- what is made

# A part of a file: the name in its first comment, and what gives its lines.
Region = namedtuple("Region", "file name lines")

TABLES = "crates/tables/src/tables.rt"
FIELD_RULES = "crates/tables/src/field_rules.rt"
TABLES_SPECS = "crates/tables/specs/Tables.antt"
PROFILES = "crates/tables/src/profiles.rt"
MESSAGES = "crates/sets/src/messages.rt"
MESSAGES_PROOF = "crates/sets/proofs/messages/row_of/Answers.antt"
SUMS = "crates/lengths/src/sums.rt"
QUICK_ITEMS = "crates/quick_items/src/lib.rt"
LENT = "crates/quick_records/src/lent.rt"
LENT_SPECS = "crates/quick_records/specs/Record.antt"
SHAPES = "crates/measuring/src/shape.rt"

REGIONS = [
    Region(TABLES, "PROFILES, FRNS", code.sizes),
    Region(TABLES, "FIELDS", code.fields),
    Region(TABLES, "RANGES", code.ranges),
    Region(TABLES, "GROUPS", code.groups),
    Region(TABLES, "LAYOUTS", code.layouts),
    Region(TABLES, "PLACES", code.places),
    Region(TABLES, "PRIMARIES", code.primaries),
    Region(TABLES, "SUBFIELDS", code.subfields),
    Region(FIELD_RULES, "RULES", code.field_rules),
    Region(FIELD_RULES, "SIZES", code.group_sizes),
    Region(FIELD_RULES, "FIRST_RULES", code.first_rules),
    Region(FIELD_RULES, "SINGLE", code.single),
    Region(TABLES_SPECS, "profile_count, frn_count", code.profile_counts),
    Region(PROFILES, "the rows of profiles", code.profiles),
    Region(MESSAGES, "the rows of message types", code.messages),
    Region(MESSAGES_PROOF, "an answer to an arm", code.message_arms),
    Region(SUMS, "a table to a category, a row to an octet", code.sums),
    Region(QUICK_ITEMS, "steps", quick.steps),
    Region(LENT, "KINDS, ROWS", quick.lent_sizes),
    Region(LENT_SPECS, "kind_count, row_count", quick.lent_sizes_spec),
    Region(LENT, "TYPES", quick.types),
    Region(LENT, "SETS", quick.sets),
    Region(SHAPES, "SHAPES", quick.measured_shapes),
]

# A whole file, and what gives its contents.
Page = namedtuple("Page", "file contents")

PAGES = [
    Page("docs/FIELDS.md", fields.page),
    Page("docs/MESSAGES.md", messages.page),
    Page("tests/vectors/messages-questions.txt", messages.questions),
    Page("tests/vectors/messages-answers.txt", messages.answers),
    Page("tests/vectors/edges-questions.txt", edges.questions),
    Page("tests/vectors/edges-answers.txt", edges.answers),
    Page("tests/vectors/lengths-questions.txt", lengths.questions),
    Page("tests/vectors/lengths-answers.txt", lengths.answers),
    Page("samples/messages.rec", samples.recording),
    Page("crates/asterix_check/stdin", samples.recording),
    Page("crates/asterix_check/stdout", samples.line),
]

# ---- the regions of a file

START = re.compile(r"\s*(?://|--) ---- made by model/make\.py: (.+)")
END = re.compile(r"\s*(?://|--) ---- end of what is made")


def made(file, text):
    """The text of a file with each of its regions made anew."""
    regions = {region.name: region.lines for region in REGIONS if region.file == file}
    out, inside = [], None
    for number, line in enumerate(text.split("\n"), 1):
        start = START.fullmatch(line)
        if start and inside or END.fullmatch(line) and not inside:
            sys.exit("%s:%d: a region starts in another or ends twice" % (file, number))
        if start:
            inside = start.group(1)
            if inside not in regions:
                sys.exit("%s:%d: make.py makes no %s here" % (file, number, inside))
            out += [line] + regions.pop(inside)()
            out += [""] * (file.endswith(".antt") and not line.startswith(" "))  # `rt fmt` has it so before a comment outside of a declaration
        elif END.fullmatch(line):
            inside = None
        if not inside:
            out.append(line)
    if inside or regions:
        sys.exit("%s: no end, or no start, of %s" % (file, inside or ", ".join(regions)))
    return "\n".join(out)


def files():
    """Every file that is made or has regions: its name, its octets and what they should be."""
    for file in dict.fromkeys(region.file for region in REGIONS):
        there = (ROOT / file).read_bytes()
        yield file, there, made(file, there.decode()).encode()
    for page in PAGES:
        contents = page.contents()
        yield page.file, (ROOT / page.file).read_bytes(), contents if isinstance(contents, bytes) else contents.encode()


def show(file, there, right):
    """What differs, line by line."""
    old, new = (octets.decode(errors="replace").split("\n") for octets in (there, right))
    print("\n".join(difflib.unified_diff(old, new, file, file + ", as tables.py has it", lineterm="", n=1)))


def main(arguments):
    if arguments not in ([], ["--check"]):
        sys.exit(__doc__)
    faults = tables.faults()
    if faults:
        sys.exit("\n".join("tables.py: " + fault for fault in faults))
    different = [(file, there, right) for file, there, right in files() if there != right]
    for file, there, right in different:
        if arguments:
            show(file, there, right)
        else:
            (ROOT / file).write_bytes(right)
            print("%s: written" % file)
    for note in quick.left_out():
        print("note: " + note)
    print("make: %d regions and %d files made from tables.py, %d files %s" % (
        len(REGIONS), len(PAGES), len(different), "differ" if arguments else "written"))
    return 1 if arguments and different else 0


if __name__ == "__main__":
    sys.exit(main(sys.argv[1:]))

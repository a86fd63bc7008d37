"""The page docs/MESSAGES.md, and tests/vectors/messages-questions.txt and -answers.txt, from tables.py.
Written by make.py.

For every known message type a block of one record with its compulsory items only, and the same block
without each of them. The answers are reading.py's; what document 01 says of these blocks (14; 12 for
the message type item; 7 where no item is left) is asked of them before anything is written.
"""

import functools
import textwrap

import reading
import tables
from reading import ABSENT
from tables import FX, SPARE

# ---- the fields of items that some type must send; an item that is not here has those of `middle`

VALUES = {
    17: {
        "010": [25, 3],
        "012": [25, 6],
        "350": [25, 7],
        "220": [0x4CA1B2],
        "140": [3686400],  # 08:00:00
        "045": [2213660, -151460],  # 47.5 degrees north, 3.25 west
        "070": [0, 0, 1, 0o4321],
        "050": [0, 1, 1400],  # flight level 350
        "200": [2048, 22528],  # 450 kt, 123.75 degrees
        "230": [5, 0],  # airborne; SI capable
        "210": [0x3C6589],
        "360": [4],
    },
    18: {
        "036": [25, 9],
        "037": [25, 29],
        "001": [1, 3],
        "005": [0x406B2D],
        "016": [100001],
        "018": [15, 2],
        "019": [0x9C, 0x41],
        "025": [70003],
        "027": [0x40],
        "002": [5797952],  # 12:34:56.5
        "006": [0x4B1815],
        "007": [1, 0, 1, 0],
        "008": [1, 0, 0, 0, 1, ABSENT],
        "009": [1, 0, 1, 0, 0, 1, 0, ABSENT],
        "020": [50002],
        "022": [0x1234567],
        "023": [0x58C382D690C8AC],
        "004": [5, 6],
    },
    61: {
        "010": [25, 12],
        "012": [9],
        "015": [5],
        "020": [3686400],  # 08:00:00
        "045": [3],
        "330": [258],
    },
}

FIRST = """For every known message type of %s: one block that is accepted, with only the type's compulsory items, and
the same block without each of them. Made from model/tables.py by model/make.py, as are the same blocks,
with their answers, in tests/vectors/messages-questions.txt and messages-answers.txt."""

HEAD = """# Message types

%s

- Each block holds one record, which starts at place 3. Lists have one part, the led item two content
  octets, extended items no extent. Fields are named as in FIELDS.md.
- A block without an item is a real one: FSPEC without that item's bit and without an octet that would be
  left empty at its end, LEN renewed. So only the message type's own rule can refuse it: 12 at 3
  where the message type item is missing, else 14 at 3. Every type has three compulsory items or more, so
  one is always left, and 7 isn't met here.
- An item that is neither compulsory nor optional for a type isn't sent: with it the record is refused 15.
- Cells that depend on more than the message type count as optional; the last part lists each, with its ground.
"""


# ---- blocks

def block(category, values):
    """The octets of a block of one record with those items, and its parts by name."""
    known = tables.items(category)
    frns = [frn for frn, reference in sorted(tables.usable(category).items()) if reference in values]
    parts = [("FSPEC", reading.fspec(frns), "FRN " + ", ".join(str(frn) for frn in frns))]
    for frn in frns:
        reference = tables.usable(category)[frn]
        item = known[reference]
        name = "I%03d/%s" % (category.number, reference)
        try:
            parts.append((name, reading.write_item(item, values[reference]), said(item, values[reference])))
        except reading.Refused:
            raise SystemExit("messages.py: VALUES has no such fields as %s has" % name)
    length = 3 + sum(len(octets) for _, octets, _ in parts)
    parts = [("CAT", bytes([category.number]), str(category.number)), ("LEN", length.to_bytes(2, "big"), str(length))] + parts
    return b"".join(octets for _, octets, _ in parts), parts


def said(item, values):
    """The fields of an item by name."""
    told = [field for field in item.parts[0] if field.kind not in (SPARE, FX)]
    if item.form == "led":
        return "length %d, contents %s" % (1 + len(values), " ".join("%02X" % value for value in values))
    text = ", ".join("%s %s" % (field.name, shown(field, value)) for field, value in zip(told, values))
    text += ", no extent" * (values[-1] == ABSENT)
    return "REP 1: " + text if item.form == "list" else text


def shown(field, value):
    """A number with its unit; what is read in octal or hexadecimal so, too."""
    text = format(value, ",").replace("-", "−")
    if field.name == "code":
        return "%s (octal %04o)" % (text, value)
    if field.name in ("address", "BDS", "prefix", "broadcast"):
        return "%s (hex %0*X)" % (text, (field.width + 3) // 4, value)
    return "%s (%s)" % (text, field.unit) if field.unit else text


def spaced(octets):
    return octets.hex(" ").upper()


def middle(item):
    """The number in the middle of each field's range, of one part or of as few as may be; extents are absent."""
    values = [(field.least + field.greatest) // 2 for field in item.parts[0] if field.kind not in (SPARE, FX)]
    return values * max(1, item.least) + [ABSENT] * (len(item.parts) - 1)


def expected(reference, left):
    """What document 01 says of an accepted block without one compulsory item."""
    return "refused %d at 3" % (7 if not left else 12 if reference == "000" else 14)


def cases(category, row):
    """(reference left out or None, octets, parts, answer) for a message type."""
    compulsory = row.compulsory.split()
    chosen = {"000": reading.type_fields(category, row.number), **VALUES.get(category.number, {})}
    values = {reference: chosen.get(reference) or middle(tables.items(category)[reference]) for reference in compulsory}
    for missing in [None] + compulsory:
        kept = {reference: fields for reference, fields in values.items() if reference != missing}
        octets, parts = block(category, kept)
        answer = reading.answer("block " + octets.hex().upper())
        right = answer.startswith("ok 1 | ") if missing is None else answer == expected(missing, kept)
        if not right:
            raise SystemExit("%d, message %d without %s: %s" % (category.number, row.number, missing, answer))
        yield missing, octets, parts, answer


# ---- the page

def number(category, kind):
    """A message type as its document prints it."""
    return "%02Xh" % kind if category.base == 16 else "%03d" % kind


def summary(category):
    yield "## Category %03d" % category.number
    yield ""
    digits = len(tables.items(category)["000"].parts[0]) > 1
    yield "Sections 5.2.1 (numbers, %s%s) and %s (items). Items are named by the number after the slash." % (
        "hexadecimal" if category.base == 16 else "decimal", ": a digit of family, one of nature" * digits, category.sections[1])
    yield ""
    yield "| Type | Name | Compulsory | Optional |"
    yield "|--|--|--|--|"
    for row in category.messages:
        yield "| %s | %s | %s | %s |" % (
            number(category, row.number), row.name, row.compulsory.replace(" ", ", "), row.optional.replace(" ", ", ") or "none")


def detail(category, row):
    yield ""
    yield "### %03d, type %s, %s" % (category.number, number(category, row.number), row.name)
    yield ""
    (_, octets, parts, _), *without = cases(category, row)
    yield "Accepted, one record: `%s`" % spaced(octets)
    yield ""
    yield "| Part | Octets | What it says |"
    yield "|--|--|--|"
    for name, piece, says in parts:
        yield "| %s | `%s` | %s |" % (name, spaced(piece), says)
    yield ""
    yield "| Without | Block | Refused |"
    yield "|--|--|--|"
    for missing, octets, _, answer in without:
        yield "| I%03d/%s | `%s` | %s |" % (category.number, missing, spaced(octets), answer.replace("refused ", ""))


def listed(category):
    """The cells, those of one item in a row where they have the same ground."""
    types = {}
    for cell in category.cells:
        types.setdefault(cell[1:], []).append(tables.message(category, cell.number))
    yield ""
    yield "| Type | Item | Printed | Ground |"
    yield "|--|--|--|--|"
    for (reference, printed, ground), some in types.items():
        named = ", ".join(number(category, row.number) for row in some) + (" " + some[0].name) * (len(some) == 1)
        yield "| %s | I%03d/%s | %s | %s |" % (named, category.number, reference, printed.replace("*", "\\*"), ground)


def lines():
    yield HEAD % textwrap.fill(FIRST % tables.editions(), 105)
    for category in tables.CATEGORIES.values():
        yield from summary(category)
        yield ""
    for category in tables.CATEGORIES.values():
        yield "## Blocks of category %03d" % category.number
        for row in category.messages:
            yield from detail(category, row)
        yield ""
    yield "## Cells that depend on more than the message type"
    yield ""
    yield "Each counts as optional (document 01, \"Block, record, item\"): a record is accepted with the item and without it."
    for category in tables.CATEGORIES.values():
        yield ""
        yield "### Cells of category %03d, %s" % (category.number, category.sections[1])
        yield from listed(category)


def page():
    return "\n".join(lines()) + "\n"


# ---- the vectors

@functools.cache
def pairs():
    """Each block as a question, and its answer."""
    return [("block " + octets.hex().upper(), answer)
            for category in tables.CATEGORIES.values() for row in category.messages
            for _, octets, _, answer in cases(category, row)]


def questions():
    return "".join(question + "\n" for question, _ in pairs())


def answers():
    return "".join(answer + "\n" for _, answer in pairs())

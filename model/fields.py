"""The page docs/FIELDS.md, from tables.py: every item of each category, its layout and its fields. Written
by make.py.
"""

import textwrap

import tables
from tables import FX, SIGNED, SPARE

FIRST = """Every item of %s, as it is read and written here. Made from model/tables.py by model/make.py; R1 to R11 and
C1 to C15 are rows of DECISIONS.md. Section numbers are those of the category's own document."""

HEAD = """# Items and fields

%s

- Bits are numbered as the documents do, 1 being the lowest bit of the last octet of the item, of a
  list's part, of an extended item's part or of a subfield. `48/25` is bits 48 down to 25. Octets go high
  octet first.
- Values are whole numbers of the unit given. A range that bars a number that its bits could hold is
  in **bold**. A number outside its range, or a spare bit that isn't zero, is refused 11.
- An item's fields are reported, and given for writing, as one list of numbers, from its highest bit
  down. Spare bits, FX, a list's count, a led item's length and primary octets aren't among them; but in a
  compound item a subfield that is a list has its count before its parts' values.
- Fixed: so many octets, always. List: one count octet (REP) and then that many equal parts. Led: a
  length octet that counts itself, and then the contents. Extended: a first part and, where the FX bit of
  a part is set, the next of the extents that are printed. Compound: primary octets, one or as many as are
  printed, whose bits say which subfields follow; then these, each fixed or a list.
- An extent or a subfield that is absent stands in the list as one number that no field has, −2^63
  (`ABSENT`; `x` in the lines of tests/vectors). It says so only where an extent or a subfield would begin;
  anywhere else it is a number outside every range. The first part of an extended item is never absent.
- Written, an extent after an absent one, and a compound item without a subfield, are refused 11; so is a
  list that has not this form: too few numbers, too many, or a count that the rest doesn't bear out.
- A code that a section's list doesn't name is legal and reported as its number. Only the message type is
  held to its list (MESSAGES.md), and only in a record.
"""


def count(number):
    """A number with commas, and a minus sign of its own width."""
    return format(number, ",").replace("-", "−")


def span(field):
    """The range of a field."""
    if field.kind == SPARE:
        return "0"
    if field.width > 32 and field.greatest == 2 ** field.width - 1:
        return "0 to 2^%d − 1" % field.width
    text = "%s to %s" % (count(field.least), count(field.greatest))
    if field.width == 1:
        text = "0 or 1" if field.greatest else "0"
    return text if field.greatest - field.least + 1 == 2 ** field.width else "**%s**" % text


NUMBERS = ("no", "one", "two", "three", "four", "five", "six", "seven", "eight", "nine", "ten", "eleven", "twelve")


def plural(number, word):
    return "%s %s%s" % (NUMBERS[number], word, "" if number == 1 else "s")


def extremes(item):
    """The fewest and the most octets of an item."""
    if item.form == "compound":
        rows = [[extremes(some) for some in row if some] for row in item.primaries]
        return min(n + least for n, row in enumerate(rows, 1) for least, _ in row), len(rows) + sum(most for row in rows for _, most in row)
    before = item.form in ("list", "led")
    return before + item.octets * item.least, before + item.octets * item.greatest


def size(item):
    """An item's size, as the profile prints it where it does."""
    if item.form == "fixed":
        return str(item.octets)
    if item.form == "list":
        return "1 + %d × REP" % item.octets
    least, most = extremes(item)
    return "%s %s %s" % (count(least), "or" if item.form == "extended" and len(item.parts) == 2 else "to", count(most))


def explained(item):
    """What an item's layout is, in a sentence or two."""
    if item.form == "fixed":
        return "Fixed, %s." % plural(item.octets, "octet")
    if item.form == "list":
        empty = ("and an empty list is the octet 00." + " More is refused 11." * (item.greatest < 255) if item.least == 0
                 else "0 is refused 11." if item.least == 1 else "less is refused 11.")
        return "List: REP in one octet, then REP parts of %s each. REP is %d to %d%s %s" % (
            plural(item.octets, "octet"), item.least, item.greatest, "," if item.least == 0 else ";", empty)
    if item.form == "led":
        return ("Led by a length octet, %d to %d, that counts itself; then %d to %d content octets, each a field. "
                "A smaller length is refused 10." % (1 + item.least, 1 + item.greatest, item.least, item.greatest))
    if item.form == "extended":
        extents = len(item.parts) - 1
        more = "one extent of as many where its FX is set" if extents == 1 else (
            "up to %s of as many each, each where FX of the part before it is set" % plural(extents, "extent"))
        return ("Extended by FX: a first part of %s, and %s. FX set in the %sextent is refused 6. "
                "An absent extent is listed as one `x`, and differs from an extent of zeros." % (plural(item.octets, "octet"), more, "last " * (extents > 1)))
    return ("Compound: one primary octet or, where its FX is set, %s; then the subfields whose bits are set. Primary octets that are cut are refused 9, "
            "FX set in the last that is printed 6, a last one without a presence bit 7, a bit without a subfield 8. "
            "Listed are the %d subfields in order: the values of one that is fixed; of a list its REP and then the values of its parts; of an absent one a single `x`." % (
                NUMBERS[len(item.primaries)], len(tables.subfields(item))))


def rows(item):
    """The rows of an item's table: bits, field, unit, range, meaning."""
    barred = "**" * (item.least > 0 or item.greatest < 255)
    for n, part in enumerate(item.parts):
        if item.form == "extended":
            yield "", "*%s*" % ("first part" if n == 0 else "extent %d" % n if len(item.parts) > 2 else "extent"), "", "", "absent: `x`" if n else ""
        if item.form == "list":
            yield "first octet", "REP", "", "%s%d to %d%s" % (barred, item.least, item.greatest, barred), "how many parts follow"
        if item.form == "led":
            yield "first octet", "length", "octets", "**%d to %d**" % (1 + item.least, 1 + item.greatest), "counts itself"
        for field in part:
            if field.kind == FX and n + 1 == len(item.parts):
                field = field._replace(greatest=0, says="zero: no further extent is printed")
            name = field.name if field.kind not in (SPARE, FX) else "*%s*" % field.name
            says = "; ".join(["two's complement"] * (field.kind == SIGNED) + [field.says] * bool(field.says))
            yield field.bits, name, field.unit, span(field), says


def field_table(item):
    yield ""
    yield "| Bits | Field | Unit | Range | Meaning |"
    yield "|--|--|--|--|--|"
    for row in rows(item):
        yield ("| %s | %s | %s | %s | %s |" % row).replace("  ", " ").replace("  ", " ")


def told(item):
    return sum(field.kind not in (SPARE, FX) for field in item.parts[0])


def primary_table(item):
    """What stands at each bit of the primary octets."""
    yield ""
    yield "| Primary octet | Bit | Subfield | Layout | Octets | Numbers listed | Where absent |"
    yield "|--:|--:|--|--|--|--|--|"
    for octet, row in enumerate(item.primaries, 1):
        for n, some in enumerate(row):
            if some:
                listed = "REP, then %d × REP" % told(some) if some.form == "list" else str(told(some))
                yield "| %d | %d | #%d %s | %s | %s | %s | `x` |" % (octet, 8 - n, some.number, some.title, some.form, size(some), listed)
            else:
                yield "| %d | %d | none | | | none | |" % (octet, 8 - n)


def item_lines(item):
    """The tables of an item: of its fields, or of its primary octets and then of each subfield's fields."""
    if item.form != "compound":
        yield from field_table(item)
        return
    yield from primary_table(item)
    for some in tables.subfields(item):
        yield ""
        yield "Subfield #%d, %s. %s%s" % (some.number, some.title, explained(some), " " + some.note if some.note else "")
        yield from field_table(some)


def written(category):
    """The part of the page that is about one category."""
    known, places = tables.items(category), {place.reference: place.frn for place in category.profile}
    prefix = "I%03d/" % category.number
    yield "## Category %03d" % category.number
    yield ""
    unusable = any(place.reference is None for place in category.profile)
    yield "The profile (%s). %s %s" % (category.sections[0], category.note, "A presence bit for an unusable FRN is refused 8." if unusable else "Every FRN is usable.")
    yield ""
    yield "| FRN | Item | Section | Title | Layout | Octets |"
    yield "|--:|--|--|--|--|--|"
    for place in category.profile:
        if place.reference:
            item = known[place.reference]
            yield "| %d | %s%s | %s | %s | %s | %s |" % (place.frn, prefix, item.reference, item.section, item.title, item.form, size(item))
        else:
            yield "| %d | none | | *%s* | unusable | |" % (place.frn, place.says)
    for item in category.items:
        yield ""
        yield "### %s%s, %s" % (prefix, item.reference, item.title)
        yield ""
        yield "Section %s, FRN %d. %s%s" % (item.section, places[item.reference], explained(item), " " + item.note if item.note else "")
        yield from item_lines(item)


def page():
    lines = [HEAD % textwrap.fill(FIRST % tables.editions(), 100)]
    for category in tables.CATEGORIES.values():
        lines += list(written(category)) + [""]
    return "\n".join(lines).rstrip("\n") + "\n"

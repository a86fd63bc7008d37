"""The items of tables.py as the code has them: profile after profile, FRN by FRN.

In order: places; groups and their fields; rules of fields; sets of FRNs. What each table of the code
makes of them is in code_tables.py and quick_tables.py.
"""

from collections import namedtuple

import tables
from tables import FX, SIGNED, SPARE

PROFILES = list(tables.CATEGORIES.values())

# ---- places

# What a profile has at an FRN: no item where says is why there is none.
Place = namedtuple("Place", "profile frn item says")

# Each profile has as many places: FRN 0, which is none, up to the last FRN of the longest.
FRNS = 1 + max(len(category.profile) for category in PROFILES)


def items_at(category):
    """The items of a category by their FRNs."""
    items = tables.items(category)
    return {frn: items[reference] for frn, reference in tables.usable(category).items()}


def places_of(profile):
    """The places that a profile prints, FRN 1 first."""
    items = items_at(PROFILES[profile])
    return [Place(profile, row.frn, items.get(row.frn), row.says) for row in PROFILES[profile].profile]


def places():
    """FRNS places for each profile."""
    for profile in range(len(PROFILES)):
        printed = places_of(profile)
        yield Place(profile, 0, None, "no item")
        yield from printed
        for frn in range(1 + len(printed), FRNS):
            yield Place(profile, frn, None, "past the end of the profile")


def with_item():
    """The places that have an item."""
    return [place for place in places() if place.item]


def formats_of(place):
    """A place for each of what has fields there: of a compound item its subfields, else the item."""
    return [place._replace(item=item) for item in tables.formats(place.item)]


def layouts():
    """What has a row among the layouts, in order: the items, a compound one with its subfields behind it."""
    return [row for place in with_item() for row in [place] * (place.item.form == "compound") + formats_of(place)]


def type_frn(profile):
    """The FRN of the message type item."""
    return next(place.frn for place in places_of(profile) if place.item and place.item.reference == "000")


def time_frn(profile):
    """The FRN of the item that is a record's time; 0 where there is none."""
    return next((place.frn for place in places_of(profile) if place.item and place.item.reference == PROFILES[profile].time), 0)


def cited(place):
    """An item's reference and section."""
    return "I%03d/%s  %-6s" % (PROFILES[place.profile].number, place.item.reference, place.item.section)


def titled(place):
    """The same with its title, less an abbreviation."""
    return "%s  %s" % (cited(place), numbered(place.item) + place.item.title.split(" (")[0])


def numbered(item):
    """What stands before the name of a subfield: its number."""
    return "#%d " % item.number if item.number else ""


def at_frn(place):
    """An FRN, and the item there or why there is none."""
    return "FRN %-2d  %s" % (place.frn, titled(place) if place.item else place.says)


# ---- groups: the fields of a part, FX apart

Group = namedtuple("Group", "place part fields")


def groups_of(place):
    """Those of an item: one for each part that is printed, of a compound one those of its subfields."""
    return [Group(some, n, [f for f in part if f.kind != FX]) for some in formats_of(place) for n, part in enumerate(some.item.parts)]


def groups():
    return [group for place in with_item() for group in groups_of(place)]


def fields():
    """Every field, with its group."""
    return [(group, field) for group in groups() for field in group.fields]


def named(group, field):
    return "%s  %s" % (cited(group.place), numbered(group.place.item) + field.called)


def range_of(field):
    return (0, 0) if field.kind == SPARE else (field.least, field.greatest)


def is_free(field):
    """Whether any bits are legal in it."""
    least, greatest = range_of(field)
    return greatest - least == 2 ** field.width - 1


def ranges():
    """The ranges of the fields, each once and with the first that has it."""
    first = {}
    for group, field in fields():
        first.setdefault(range_of(field), (group, field))
    return first


# ---- rules: what the check of a part asks of a field that is not free. Its code, moved so that what is
# legal starts at 0, is at most a limit

Rule = namedtuple("Rule", "field shift width added limit")


def rules_of(group):
    out, below = [], sum(field.width for field in group.fields)
    for field in group.fields:
        below -= field.width
        if not is_free(field):
            least, greatest = range_of(field)
            out.append(Rule(field, below, field.width, -least % 2 ** field.width, greatest - least))
    return out


def all_free(place):
    """Whether any bits are legal in each part of an item."""
    return not any(rules_of(group) for group in groups_of(place))


# ---- sets of FRNs

def bits(frns):
    """As a number of 64 bits: FRN f is bit 63 - f."""
    return sum(1 << 63 - frn for frn in frns)


def frns_of(profile, references):
    frn_of = {place.item.reference: place.frn for place in places_of(profile) if place.item}
    return [frn_of[reference] for reference in references.split()]


def must_and_may(profile, message):
    """The set of what a message type must have, and that of what it must or may have."""
    must = frns_of(profile, message.compulsory)
    return bits(must), bits(must + frns_of(profile, message.optional))


def fspec(frns):
    """The octets of an FSPEC, the first one lowest, and how many they are."""
    count = (max(frns) + 6) // 7
    octets = [sum(0x80 >> (f - 1) % 7 for f in frns if (f - 1) // 7 == k) | (k < count - 1) for k in range(count)]
    return sum(octet << 8 * k for k, octet in enumerate(octets)), count


# ---- numbers as the code writes them

def quads(number):
    """A hexadecimal number, a `_` before each four digits."""
    digits = "%X" % number
    head = len(digits) % 4 or 4
    return "0x" + "_".join([digits[:head]] + [digits[k:k + 4] for k in range(head, len(digits), 4)])


def kind(category, number):
    """A message type's number, in the base of its document."""
    return "0x%02X" % number if category.base == 16 else "%d" % number


def message_name(message):
    return message.name + (' ("%s")' % message.also if message.also else "")

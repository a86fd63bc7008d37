"""The tables of the accept-only path, crates/quick_items and crates/quick_records, and of crates/measuring,
each made from tables.py: a function for each region of make.py, which gives its lines.

In order: rules and words of items; message types and their sets; shapes.

A row of these tables may say less than the rules have, never more: the proofs' computed tests see to
that. What has no word here, or no shape, is only slow.
"""

import functools
import itertools
import pathlib
import re
from collections import namedtuple

import rows
from code_tables import aligned, number_spec
from rows import PROFILES

CRATES = pathlib.Path(__file__).resolve().parents[1] / "crates"

# ---- rules and words, `WORDS` of crates/quick_items/src/lib.rt

RULES = 16  # as many as a digit of a word can name
RULED, COUNTED, EXTENDED, TWICE, SIZED = 1, 2, 3, 4, 5  # as `kind_of` there reads them
ANY_BITS = (0x00_000000, 0x28_FFFFFF)


def rule_words(rule, octets, step=0):
    """The two words of a rule, of a part of so many octets with some bits below that are no field's; none
    where it asks for more than the first three octets."""
    down = rule.shift + step + 24 - 8 * octets
    if down < 0 or max(rule.added, rule.limit) >= 1 << 24:
        return None
    return down << 24 | rule.added, (64 - rule.width) << 24 | rule.limit


def asked(place):
    """How the parts of an item lie and the rules that its octets are asked, each as its two words and what
    stands beside it; none where they are not told."""
    item, groups = place.item, rows.groups_of(place)
    own = [rows.rules_of(group) for group in groups]
    if item.form == "extended" and item.octets == 1 and len(groups) == 2 and max(map(len, own)) < 2:
        kind = EXTENDED
    elif item.form == "fixed" and item.octets < 16 and 0 < len(own[0]) < 3:
        kind = RULED if len(own[0]) == 1 else TWICE
    else:
        return None
    out = []
    for group, some in zip(groups, own):
        out += [(rule_words(rule, item.octets, kind == EXTENDED), rows.named(group, rule.field)) for rule in some]
        out += [(ANY_BITS, "%s  any bits" % rows.cited(place))] * (not some)
    return (kind, out) if all(words for words, _ in out) else None


def counted(item):
    """The word of a list of free parts or of a led item: its least count or length, how its parts lie, the
    octets of a part, those before the parts."""
    if item.form == "led" and item.least < 15:
        return item.least + 1, COUNTED, 1, 0
    if item.form == "list" and max(item.least, item.octets) < 16 and item.greatest == 255:
        return item.least, COUNTED, item.octets, 1
    return None


def sized(item):
    """The word that says of an item how many octets it has, and nothing of which are legal; none where a digit does not do."""
    part, before = {"fixed": (0, item.octets), "list": (item.octets, 1), "led": (1, 0)}.get(item.form, (16, 16))
    return (0, SIZED, part, before) if max(part, before) < 16 else None


def free_octets(place):
    """The octets of an item that is one part of free bits, 7 at most; else 0."""
    item = place.item
    return item.octets if item and item.form == "fixed" and item.octets < 8 and rows.all_free(place) else 0


def list_word(place):
    """The word of an item of free parts whose first octet tells how many; none for any other."""
    return counted(place.item) if place.item and rows.all_free(place) else None


def ruled_octets(place):
    """The octets of an item that is one part with one rule, 7 at most; else 0."""
    return place.item.octets if place.item and place.item.octets < 8 and asked(place) and asked(place)[0] == RULED else 0


def digits(word):
    return "0x" + "_".join("%X" % digit for digit in word)


class Rules:
    """The rules that words name: each stands once, unless two have to stand one after the other."""

    def __init__(self):
        self.words, self.says = [], []

    def row_of(self, rules):
        """The row of the first of some rules, which the others follow; none where there is no room."""
        words = [pair for pair, _ in rules]
        spans = range(len(self.words) - len(words) + 1)
        row = next((n for n in spans if self.words[n:n + len(words)] == words), len(self.words))
        if row == len(self.words):
            if row + len(words) > RULES:
                return None
            self.words += words
            self.says += [[] for _ in words]
        for n, (_, says) in enumerate(rules):
            self.says[row + n].append(says)
        return row

    def rows(self, which):
        """The first or the second words of all."""
        out = [(words[which], "; ".join(says)) for words, says in zip(self.words, self.says)]
        out += [(ANY_BITS[which], "none: any bits")] * (RULES - len(out))
        return [("0x%02X_%06X" % (word >> 24, word & 0xFFFFFF), "rule %X   %s" % (n, says)) for n, (word, says) in enumerate(out)]


def step(place, rules):
    """The word of a place: what is legal there, where a word can tell it, else how many octets the item has."""
    if not place.item or free_octets(place):
        return str(free_octets(place))
    word, told = list_word(place), asked(place)
    if told:
        kind, some = told
        row = rules.row_of(some)
        word = None if row is None else (row, kind, 0, 0 if kind == EXTENDED else place.item.octets)
    word = word or sized(place.item)
    return digits(word) if word else "0"


def steps():
    rules = Rules()
    out = [(step(place, rules), rows.at_frn(place)) for place in rows.places()]
    return aligned(out + rules.rows(0) + rules.rows(1), 4)


# ---- message types and their sets, crates/quick_records/src/lent.rt

KINDS = 1 + max(message.number for category in PROFILES for message in category.messages)
ROWS = 1 + max(len(category.messages) for category in PROFILES)
FIRST_ITEMS = range(4, 8)  # FRNs of the first FSPEC octet that may be missing


def has_front(profile):
    """Whether FRN 1 to 3 are free, one of them being the message type: what this path starts from."""
    return all(map(free_octets, rows.places_of(profile)[:3])) and rows.type_frn(profile) in (1, 2, 3)


def type_at(profile):
    """How many octets of FRN 1 to 3 are before the message type."""
    return sum(map(free_octets, rows.places_of(profile)[:rows.type_frn(profile) - 1]))


def numbered():
    """Every message type, with its profile and its row there, from 1 on."""
    return [(profile, row, message) for profile, category in enumerate(PROFILES) for row, message in enumerate(category.messages, 1)]


def type_rows():
    """By profile and number of the message type, its row, 0 where it is unknown."""
    row_of = {(profile, message.number): (row, message) for profile, row, message in numbered()}
    for profile, category in enumerate(PROFILES):
        cited = rows.cited(rows.places_of(profile)[rows.type_frn(profile) - 1]).rstrip()
        for number in range(KINDS):
            row, message = row_of.get((profile, number), (0, None))
            yield row, "%s  %s  %s" % (cited, rows.kind(category, number), rows.message_name(message)) if row else ""


def first_octets():
    """By profile and the presence bits of FRN 4 to 7, the octets of FRN 1 to 7 where all are free; else 0."""
    for profile, category in enumerate(PROFILES):
        sizes = [0] + [free_octets(place) for place in rows.places_of(profile)]
        for presence in range(1 << len(FIRST_ITEMS)):
            there = [frn for frn in FIRST_ITEMS if presence >> FIRST_ITEMS[-1] - frn & 1]
            some = [sizes[frn] for frn in [1, 2, 3] + there]
            octets = sum(some) if all(some) and has_front(profile) else 0
            yield octets, "category %03d, FRN %s" % (category.number, ", ".join(["1 to 3"] + list(map(str, there))))


def type_places():
    """By profile, where among the octets of FRN 1 to 3 the message type stands; 0 where they are not told."""
    for profile, category in enumerate(PROFILES):
        cited = rows.cited(rows.places_of(profile)[rows.type_frn(profile) - 1]).rstrip()
        yield (type_at(profile), "%s  among FRN 1 to 3" % cited) if has_front(profile) else (0, "category %03d, not told" % category.number)


def lent_sizes():
    return ["const KINDS: usize = %d;" % KINDS, "", "const ROWS: usize = %d;" % ROWS]


def lent_sizes_spec():
    return number_spec("kind_count", KINDS) + [""] + number_spec("row_count", ROWS)


def filled(table):
    """Rows, each a short number and what stands beside it or nothing, as `rt fmt` has them: up to 100 columns to a line, which what stands beside a number ends."""
    out, line = [], "   "
    for number, says in table:
        if len("%s %d," % (line, number)) > 100:
            out, line = out + [line], "   "
        line = "%s %d," % (line, number)
        if says:
            out, line = out + ["%s // %s" % (line, says)], "   "
    return out + [line] * bool(line.strip())


def types():
    return ["static TYPES: [u8; FIRST_PLACE + PROFILES] = ["] + filled([*type_rows(), *first_octets(), *type_places()]) + ["];"]


def set_rows(profile):
    """The sets of a profile's message types, ROWS pairs of them, the first of which is no type's."""
    category = PROFILES[profile]
    out = ["    0, // category %03d: no message type" % category.number, "    0,"]
    for message in category.messages:
        must, may = map(rows.quads, rows.must_and_may(profile, message))
        out += ["    %s, // I%03d/000 type %s  %s" % (must, category.number, rows.kind(category, message.number), rows.message_name(message)), "    %s," % may]
    over = 2 * ROWS - len(out)
    return out + ["    0, // category %03d: no more" % category.number] * (over > 0) + ["    0,"] * (over - 1)


def sets():
    return ["static SETS: [u64; FIRST_SHAPE + 4 * SLOTS] = ["] + [line for profile in range(len(PROFILES)) for line in set_rows(profile)] + shape_lines(checked) + ["];"]


# ---- shapes: FSPECs that are legal for some message type of at most six optional items; each stands where
# `slot_of` of crates/quick_records/src/shape.rt looks for it

SLOTS = 64
MOST_OPTIONAL = 6

# One shape: its FRNs, and the message types that have it, by row and as their document prints them.
Shape = namedtuple("Shape", "profile frns types")


def shapes():
    out = {}
    for profile, row, message in numbered():
        optional = rows.frns_of(profile, message.optional)
        if len(optional) > MOST_OPTIONAL:
            continue
        must = rows.frns_of(profile, message.compulsory)
        for count in range(len(optional) + 1):
            for some in itertools.combinations(optional, count):
                frns = tuple(sorted(must + list(some)))
                out.setdefault((profile, frns), []).append((row, rows.kind(PROFILES[profile], message.number)))
    return [Shape(profile, frns, some) for (profile, frns), some in out.items()]


def said(shape):
    """Its category and its FSPEC."""
    raw, used = rows.fspec(shape.frns)
    return "category %03d, FSPEC %s" % (PROFILES[shape.profile].number, " ".join("%02X" % (raw >> 8 * k & 255) for k in range(used)))


@functools.cache
def factor():
    """By what an FSPEC is multiplied to find its place, and how far the product is moved down, as the code has it."""
    code = (CRATES / "quick_records" / "src" / "shape.rt").read_text()
    return tuple(map(int, re.search(r"\* (\d+) >> (\d+)\) % SLOTS", code).groups()))


def slot_of(shape):
    """Where a shape is looked for."""
    times, down = factor()
    return ((rows.fspec(shape.frns)[0] + shape.profile % 16) * times >> down) % SLOTS


def slotted(some):
    """Shapes by their places; of two with the same place, the first."""
    return {slot_of(shape): shape for shape in reversed(some)}


def left_out():
    """Which shapes stand in no table since their place is another's, as sentences."""
    out = []
    for words_of in (checked, measured):
        some = [shape for shape in shapes() if words_of(shape)]
        out += [said(shape) for shape in some if shape not in slotted(some).values()]
    return ["the shape of %s is left out: its place is taken; another factor in slot_of may give it one" % shape for shape in dict.fromkeys(out)]


def shape_lines(words_of):
    """The rows of a table of shapes. The shape of fewest items fills the places of no shape."""
    some = [shape for shape in shapes() if words_of(shape)]
    filler = min(some, key=lambda shape: len(shape.frns))
    placed = slotted(some)
    out = []
    for slot in range(SLOTS):
        shape = placed.get(slot)
        says = "%s: type %s" % (said(shape), ", ".join(name for _, name in shape.types)) if shape else "no shape: %s again" % said(filler)
        first, *others = words_of(shape or filler)
        out += ["    %s, // %s" % (first, says)] + ["    %s," % word for word in others]
    return out


def looked_into(place):
    """The word and the rule of an item that a shape can tell, or nothing."""
    if list_word(place):
        return list_word(place), ANY_BITS
    if ruled_octets(place):
        return (0, RULED, 0, place.item.octets), asked(place)[1][0][0]
    return None


def checked(shape):
    """The four words of a shape in crates/quick_records, or nothing where it has no front."""
    if shape.frns[:3] != (1, 2, 3) or not has_front(shape.profile):
        return None
    place_at = dict(enumerate(rows.places_of(shape.profile), 1))
    raw, used = rows.fspec(shape.frns)
    left = list(shape.frns)

    def run():
        octets = 0
        while left and free_octets(place_at[left[0]]):
            octets += free_octets(place_at[left.pop(0)])
        return octets

    before = run()
    told = looked_into(place_at[left[0]]) if left else None
    if told:
        left.pop(0)
        at, (word, (low, high)), tail = used + before, told, run()
    else:
        at, word, (low, high), tail = used, (0, 0, 0, 0), ANY_BITS, before
    return (
        "0x%X_%02X_%02X_%X_%010X" % (shape.profile, tail, at, used, raw),
        "0x%02X_%X%X%X%X_%010X" % (used + type_at(shape.profile), *word, sum(1 << row for row, _ in shape.types)),
        "0x%02X_%06X_%02X_%06X" % (high >> 24, high & 0xFFFFFF, low >> 24, low & 0xFFFFFF),
        quads_of_set(left),
    )


def quads_of_set(frns):
    return "0x" + "_".join(re.findall("....", "%016X" % rows.bits(frns))) if frns else "0"


# ---- crates/measuring

def measured(shape):
    """The two words of a shape in crates/measuring, or nothing where one octet does not tell its size."""
    raw, used = rows.fspec(shape.frns)
    base, starts, parts = used, {}, []
    for frn in shape.frns:
        item = rows.places_of(shape.profile)[frn - 1].item
        if item.form in ("extended", "compound"):
            return None
        if not parts:
            starts[frn] = base
        if item.form != "fixed":
            parts.append((base, item.octets))
        base += {"fixed": item.octets, "list": 1, "led": 0}[item.form]
    place, part = parts[0] if parts else (0, 0)
    time = kind = untimed = 0
    if rows.time_frn(shape.profile) in shape.frns:
        time, kind = starts.get(rows.time_frn(shape.profile)), starts.get(rows.type_frn(shape.profile))
        untimed = next((1 + number for number in PROFILES[shape.profile].untimed), 0)
    if len(parts) > 1 or part > 15 or base > 255 or None in (time, kind):
        return None
    return "0x%X_0000_%X_%010X" % (shape.profile, used, raw), "0x%03X_%02X_%02X_%02X_%02X_%X" % (untimed, kind, time, base, place, part)


def measured_shapes():
    return ["static ROWS: [u64; 2 * SLOTS] = ["] + shape_lines(measured) + ["];"]

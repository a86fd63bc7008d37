"""The tables of the code, each made from tables.py: a function for each region of make.py, which gives
its lines. What a column is, and how it is tied to the rules, says the file that has the region.
"""

import reading
import rows
from rows import FRNS, PROFILES
from tables import SIGNED, SPARE

KINDS = {"fixed": 1, "list": 2, "led": 3, "extended": 4, "compound": 5}  # how parts lie, in `LAYOUTS`


def aligned(table, indent=4):
    """Rows, each a word and what stands beside it, which starts in one column."""
    width = max(len(word) for word, _ in table)
    return ["%s%s, //%s %s" % (" " * indent, word, " " * (width - len(word)), says) for word, says in table]


def constant(name, kind, table):
    """A table and its size."""
    return ["const %s: [%s; %d] = [" % (name, kind, len(table))] + aligned(table) + ["];"]


def static(name, kind, table):
    """The same, read where it stands."""
    return ["static" + line[len("const"):] if n == 0 else line for n, line in enumerate(constant(name, kind, table))]


# ---- crates/tables/src/tables.rt

def sizes():
    return ["pub const PROFILES: usize = %d;" % len(PROFILES), "", "pub const FRNS: usize = %d;" % FRNS]


def fields():
    range_at = {span: n for n, span in enumerate(rows.ranges())}
    holds = {SIGNED: 1, SPARE: 2}
    return static("FIELDS", "u16", [
        ("%d_%d_%02d" % (field.width, holds.get(field.kind, 0), range_at[rows.range_of(field)]), rows.named(group, field))
        for group, field in rows.fields()])


def ranged(group, field):
    """What a range is, by the first field that has it."""
    if field.kind == SPARE:
        return "spare"
    if field.kind == SIGNED:
        text = "two's complement in %d bits" % field.width
        return text if rows.is_free(field) else text + ", " + rows.named(group, field)
    return "%d bits" % field.width if rows.is_free(field) else rows.named(group, field)


def ranges():
    return static("RANGES", "Range", [("Range(%d, %d)" % span, ranged(*first)) for span, first in rows.ranges().items()])


def group_title(group):
    part = "" if group.place.item.form != "extended" else ", first part" if group.part == 0 else ", extent %d" % group.part
    return rows.titled(group.place) + part


def groups():
    out, first = [], 0
    for group in rows.groups():
        values = sum(field.kind != SPARE for field in group.fields)
        word = "%d_%03d_%02d_%02d_%d" % (group.place.item.octets, first, len(group.fields), values, not rows.rules_of(group))
        out.append((word, group_title(group)))
        first += len(group.fields)
    return static("GROUPS", "u32", out)


def layouts():
    """The place in each row is that of a group. A compound item has no parts of its own, and its place is that of a primary octet."""
    out, group, primary = [("0", "no item")], 0, 0
    for place in rows.layouts():
        item = place.item
        if item.form == "compound":
            columns = (0, 0, primary, len(item.primaries))
        else:
            columns = (item.least, item.greatest, group, len(item.parts))
        out.append(("%d_%d_%03d_%03d_%d" % (KINDS[item.form], *columns), rows.titled(place)))
        group, primary = group + len(item.parts), primary + len(item.primaries)
    return static("LAYOUTS", "u32", out)


def layout_places():
    """Where the layout of an item stands, by its profile, its FRN and, for a subfield, its number."""
    return {(place.profile, place.frn, place.item.number): n for n, place in enumerate(rows.layouts(), 1)}


def places():
    at = layout_places()
    return static("PLACES", "Place", [
        ("Place(%d, %d)" % (at.get((p.profile, p.frn, 0), 0), int(p.item.reference) if p.item else 0), rows.at_frn(p)) for p in rows.places()])


def primary_octets():
    """Each primary octet of each compound item: its place in the profile, its number, what stands at its bits."""
    return [(place, n, row) for place in rows.with_item() for n, row in enumerate(place.item.primaries, 1)]


def primaries():
    out = []
    for place, n, row in primary_octets():
        bits = sum(128 >> bit for bit, some in enumerate(row) if some)
        out.append(("0x%02X" % bits, "%s  octet %d: %s" % (rows.cited(place), n, ", ".join("#%d" % some.number for some in row if some))))
    return static("PRIMARIES", "u8", out)


def subfields():
    at, out = layout_places(), []
    for place, n, row in primary_octets():
        for bit, some in enumerate(row):
            says = rows.numbered(some) + some.title if some else "none"
            out.append((str(at[place.profile, place.frn, some.number] if some else 0), "%s  octet %d, bit %d  %s" % (rows.cited(place), n, 8 - bit, says)))
    return static("SUBFIELDS", "u8", out)


# ---- crates/tables/src/field_rules.rt

def field_rules():
    return static("RULES", "RuleRow", [
        ("RuleRow(%d, %d, %d, %d)" % (rule.shift, rule.width, rule.added, rule.limit), rows.named(group, rule.field))
        for group in rows.groups() for rule in rows.rules_of(group)])


def group_sizes():
    return static("SIZES", "u8", [(str(group.place.item.octets), group_title(group)) for group in rows.groups()])


def first_rules():
    out, first = [], 0
    for group in rows.groups():
        out.append((str(first), group_title(group)))
        first += len(rows.rules_of(group))
    return static("FIRST_RULES", "u8", out + [(str(first), "the end")])


def single():
    group_at = {(group.place.profile, group.place.frn): n for n, group in reversed(list(enumerate(rows.groups())))}
    out = []
    for place in rows.places():
        word = 0
        if place.item and place.item.form == "fixed":
            word = place.item.octets if rows.all_free(place) else 8 + group_at[place.profile, place.frn]
        out.append((str(word), rows.at_frn(place)))
    return static("SINGLE", "u8", out)


# ---- crates/tables/src/profiles.rt and specs/Tables.antt

def usable(profile):
    return rows.quads(rows.bits(place.frn for place in rows.places_of(profile) if place.item))


def untimed(category):
    """One more than the message type in which a time is none."""
    return "0x%02X" % (1 + category.untimed[0]) if category.untimed else "0"


def profiles():
    out = ["static ROWS: [ProfileRow; %d] = [" % len(PROFILES)]
    for profile, category in enumerate(PROFILES):
        columns = {
            "cat": category.number, "octets": category.octets, "usable": usable(profile),
            "kind": rows.type_frn(profile), "time": rows.time_frn(profile), "untimed": untimed(category)}
        out += ["    ProfileRow {"] + ["        %s: %s," % column for column in columns.items()] + ["    },"]
    return out + ["];"]


def number_spec(name, number):
    """The definition of a number."""
    return ["abbrev pub %s : ℕ" % name, "%s = %d" % (name, number)]


def profile_counts():
    return number_spec("profile_count", len(PROFILES)) + [""] + number_spec("frn_count", FRNS)


# ---- crates/sets/src/messages.rt: a message type is found by its profile and its number

def messages():
    out = []
    for profile, category in enumerate(PROFILES):
        out.append("// category %03d" % category.number)
        for message in category.messages:
            number = "%d" % message.number if profile == 0 and category.base == 10 else "0x%X_%02X" % (profile, message.number)
            must, may = map(rows.quads, rows.must_and_may(profile, message))
            out.append("%s => (%s, %s), // %s" % (number, must, may, rows.message_name(message)))
    return [" " * 8 + line for line in out]


def answers(unfolding, proof, arms):
    """The answers of a proof to a goal for each arm of a match: they are alike, and the tool asks for one by one. Each arm is its goal's name and its hypothesis's."""
    out = []
    for goal, arm in arms:
        out += ["pub %s : goal.%s" % (goal, goal), "unfolding " + unfolding, "%s c = %s" % (goal, proof.replace("ARM", arm)), ""]
    return out[:-1]


def message_arms():
    numbers = [256 * profile + message.number for profile, category in enumerate(PROFILES) for message in category.messages]
    return answers("row_at message_of when◌then◌else◌ ◌>>=◌ category_at categories bits_of number", "row_key _ _ c.ranges.kind.fits c.ARM.is",
                   [("returns-in-%d" % number, "in-%d" % number) for number in numbers])


# ---- crates/lengths

def fspec_octets():
    """The FSPEC octets of every profile: the profile, the octet's place, and what stands at its seven bits."""
    for profile in range(len(PROFILES)):
        printed = rows.places_of(profile)
        for place in range(len(printed) // 7):
            yield profile, place, printed[7 * place:7 * place + 7]


def bit_adds(bit, at):
    says = rows.cited(at).rstrip() if at.item else at.says
    return "// bit %d  FRN %-2d  %d  %s" % (bit, at.frn, reading.least_octets(at.item) if at.item else 0, says)


def sums_row(profile, place, bits):
    """The sums of one octet by its value, after what each of its bits adds."""
    category = PROFILES[profile].number
    lines = []
    for value in range(256):
        named = [at.frn for n, at in enumerate(bits) if value >> (7 - n) & 1]
        lines.append((str(reading.least_length(category, place, value)), ("%02X  %s" % (value, " ".join(map(str, named)))).rstrip()))
    front = ["// Octet %d:" % (1 + place)] + [bit_adds(8 - n, at) for n, at in enumerate(bits)] + ["["]
    return ["    " + line for line in front] + aligned(lines, 8) + ["    ],"]


def sums():
    """A table to a category, and in it a row to an octet."""
    out = []
    for profile, category in enumerate(PROFILES):
        octets = [octet for octet in fspec_octets() if octet[0] == profile]
        out += ["", "pub static SUMS_OF_%03d: [[u8; 256]; %d] = [" % (category.number, len(octets))]
        out += [line for octet in octets for line in sums_row(*octet)] + ["];"]
    return out[1:]

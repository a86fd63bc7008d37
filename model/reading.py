"""The reading and writing rules of document 01 and of W-205 in document 02, over tables.py, in the plainest
way there is.

Answers the questions of tests/vectors (README.md there has their form), those about sheets by the rules
of sheets.py. It serves to make those vectors and to try the tables; it shares nothing with the crates but
the documents. Bytes only, no speed: every answer starts again from the block's first octet.
"""

import re
import sys

import sheets
import tables
from refusal import Refused
from tables import FX, SIGNED, SPARE


ABSENT = -2 ** 63  # the number that no field has: in a list of fields a part or subfield that is not there


# ---- fields and items

def read_part(part, octets, at):
    """The fields of one part that lies whole in octets; 11 at the item's start."""
    bits, left, values = int.from_bytes(octets, "big"), 8 * len(octets), []
    for field in part:
        left -= field.width
        value = bits >> left & 2 ** field.width - 1
        if field.kind == SIGNED and value >= 2 ** (field.width - 1):
            value -= 2 ** field.width
        if field.kind == FX:
            continue
        if not field.least <= value <= field.greatest:
            raise Refused(11, at)
        if field.kind != SPARE:
            values.append(value)
    return values


def read_item(item, octets, at):
    """The fields of the item that starts at a place, and where it ends: 9, 10, 9, 6, 11."""
    def need(end):
        if end > len(octets):
            raise Refused(9, at)
        return end

    if item.form == "compound":
        return read_compound(item, octets, at)
    if item.form == "fixed":
        end = need(at + item.octets)
        return read_part(item.parts[0], octets[at:end], at), end
    if item.form == "extended":
        end = need(at + item.octets)
        while octets[end - 1] & 1:
            if end - at == item.octets * item.greatest:
                raise Refused(6, at)
            end = need(end + item.octets)
        values = []
        for n, part in enumerate(item.parts):
            start = at + n * item.octets
            values += read_part(part, octets[start:start + item.octets], at) if start < end else [ABSENT]
        return values, end
    start = need(at + 1)
    if item.form == "list":
        count = octets[at]
        end = need(start + count * item.octets)
        if not item.least <= count <= item.greatest:
            raise Refused(11, at)
        values = []
        for n in range(start, end, item.octets):
            values += read_part(item.parts[0], octets[n:n + item.octets], at)
        return values, end
    if octets[at] < 1 + item.least:
        raise Refused(10, at)
    end = need(at + octets[at])
    return list(octets[start:end]), end


def read_presence(octets, at, most, usable, cut):
    """The places, from 1 on, that presence octets name, rising, and where the octets end: cut, 6, 7, 8."""
    named, end = [], at
    while True:
        if end == len(octets):
            raise Refused(cut, at)
        octet, base = octets[end], 7 * (end - at)
        named += [base + n + 1 for n in range(7) if octet & 128 >> n]
        end += 1
        if not octet & 1:
            break
        if end - at == most:
            raise Refused(6, at)
    if octets[end - 1] & 254 == 0:
        raise Refused(7, at)
    if not set(named) <= set(usable):
        raise Refused(8, at)
    return named, end


def printed(item):
    """The subfields of a compound item by their places in its primary octets, from 1 on."""
    return {n: some for n, some in enumerate((some for row in item.primaries for some in row), 1) if some}


def read_compound(item, octets, at):
    """The same of a compound item: its primary octets, 9, 6, 7, 8, then its subfields, each by 9 and 11; all at its start."""
    named, end = read_presence(octets, at, len(item.primaries), printed(item), 9)
    values = []
    for place, some in printed(item).items():
        if place not in named:
            values.append(ABSENT)
            continue
        try:
            listed, stop = read_item(some, octets, end)
        except Refused as fault:
            raise Refused(fault.number, at)
        values += [octets[end]] * (some.form == "list") + listed
        end = stop
    return values, end


def write_part(part, values):
    """The octets of one part; the values are taken from the front of the list."""
    bits = 0
    for field in part:
        value = 0
        if field.kind not in (SPARE, FX):
            value = values.pop(0)
            if not field.least <= value <= field.greatest:
                raise Refused(11, 0)
        bits = bits << field.width | value % 2 ** field.width
    return bits.to_bytes(sum(field.width for field in part) // 8, "big")


def told(part):
    """How many values a part has."""
    return sum(field.kind not in (SPARE, FX) for field in part)


def take(values, many):
    """So many numbers from the front of the list; 11 where it has fewer."""
    if not 0 <= many <= len(values):
        raise Refused(11, 0)
    taken = values[:many]
    del values[:many]
    return taken


def is_absent(values):
    """Whether what begins here is not there, which one number of the list then says."""
    if values[:1] != [ABSENT]:
        return False
    take(values, 1)
    return True


def write_item(item, values):
    """The octets of an item with those fields; 11 where no legal item has them."""
    values = list(values)
    if item.form == "compound":
        octets = write_compound(item, values)
    elif item.form == "extended":
        octets = write_extended(item, values)
    else:
        octets = write_parts(item, values, len(values))
    if values:
        raise Refused(11, 0)
    return octets


def write_parts(item, values, many):
    """The octets of an item of equal parts, of so many numbers from the front of the list."""
    count, rest = divmod(many, told(item.parts[0]))
    if rest or not item.least <= count <= item.greatest:
        raise Refused(11, 0)
    body = b"".join(write_part(item.parts[0], take(values, told(item.parts[0]))) for _ in range(count))
    if item.form == "list":
        return bytes([count]) + body
    return bytes([1 + count]) + body if item.form == "led" else body


def write_extended(item, values):
    """Each extension is there or absent; one that is there after an absent one is 11."""
    parts = []
    for n, part in enumerate(item.parts):
        absent = n > 0 and is_absent(values)
        if not absent and len(parts) < n:
            raise Refused(11, 0)
        parts += [] if absent else [bytearray(write_part(part, take(values, told(part))))]
    for part in parts[:-1]:
        part[-1] |= 1
    return b"".join(parts)


def write_compound(item, values):
    """Each subfield is there or absent, a list behind its count; none at all is 11."""
    places, body = [], b""
    for place, some in printed(item).items():
        if is_absent(values):
            continue
        count = take(values, 1)[0] if some.form == "list" else 1
        body += write_parts(some, values, count * told(some.parts[0]))
        places.append(place)
    if not places:
        raise Refused(11, 0)
    return presence(places) + body


# ---- records

def presence(places):
    """The presence octets of places: none after the one that names the last, and one where they name none, which is refused."""
    octets = bytearray((max(places, default=1) + 6) // 7)
    for place in places:
        octets[(place - 1) // 7] |= 128 >> (place - 1) % 7
    return bytes(octet | (n + 1 < len(octets)) for n, octet in enumerate(octets))


def fspec(frns):
    """The FSPEC of a set of FRNs."""
    return presence(frns)


def read_fspec(category, octets, at):
    """The FRNs that an FSPEC names, rising, and where it ends: 5, 6, 7, 8."""
    return read_presence(octets, at, category.octets, tables.usable(category), 5)


def read_items(category, frns, octets, at):
    """(FRN, reference, start, fields) for each item, and where the last one ends."""
    found = []
    for frn in frns:
        reference = tables.usable(category)[frn]
        values, end = read_item(tables.items(category)[reference], octets, at)
        found.append((frn, reference, at, values))
        at = end
    return found, at


def spelled(item, values):
    """The number that the fields of one part make, from the highest bit down."""
    number = 0
    for field, value in zip(item.parts[0], values):
        number = number << field.width | value
    return number


def type_fields(category, number):
    """The fields of the message type item that make a number."""
    fields, left = [], number
    for field in reversed(tables.items(category)["000"].parts[0]):
        fields, left = [left % 2 ** field.width] + fields, left >> field.width
    return fields


def judge(category, found, at):
    """The message type's rules on a record's items: 12, 13, 14, 15."""
    present = {reference: values for _, reference, _, values in found}
    if "000" not in present:
        raise Refused(12, at)
    row = tables.message(category, spelled(tables.items(category)["000"], present["000"]))
    if row is None:
        raise Refused(13, at)
    compulsory, optional = set(row.compulsory.split()), set(row.optional.split())
    if not compulsory <= set(present):
        raise Refused(14, at)
    if not set(present) <= compulsory | optional:
        raise Refused(15, at)


def read_record(category, octets, at):
    """(start, end, items) of the record that starts at a place."""
    frns, body = read_fspec(category, octets, at)
    found, end = read_items(category, frns, octets, body)
    judge(category, found, at)
    return at, end, found


# ---- blocks and recordings

def read_head(octets, at, single, least):
    """Category and end of the block that starts at a place: 1, 2, 3, 4."""
    if len(octets) - at < 3:
        raise Refused(1, at)
    category, length = tables.CATEGORIES.get(octets[at]), octets[at + 1] << 8 | octets[at + 2]
    if category is None:
        raise Refused(2, at)
    left = len(octets) - at
    if length < 3 or (length != left if single else length > left):
        raise Refused(3, at)
    if length < least:
        raise Refused(4, at)
    return category, at + length


def read_block(octets, at=0, single=True, least=4):
    """Category, records and end of the block that starts at a place."""
    category, end = read_head(octets, at, single, least)
    records, at = [], at + 3
    while at < end:
        records.append(read_record(category, octets[:end], at))
        at = records[-1][1]
    return category, records, end


def read_recording(octets):
    """How many blocks and records."""
    at = blocks = records = 0
    while at < len(octets):
        _, found, at = read_block(octets, at, single=False)
        blocks, records = blocks + 1, records + len(found)
    return blocks, records


# ---- questions

def known(category, reference):
    """The item that a caller names: 21."""
    row = tables.CATEGORIES.get(category)
    item = row and tables.items(row).get("%03d" % reference)
    if not item:
        raise Refused(21, 0)
    return item


def commas(values):
    return ",".join("x" if value == ABSENT else str(value) for value in values) or "-"


def answer_block(octets):
    _, records, _ = read_block(octets)
    return "ok %d" % len(records) + "".join(
        " | %d %d" % (start, end) + "".join(" %s=%s" % (item[1], commas(item[3])) for item in found)
        for start, end, found in records)


def answer_read(category, reference, octets):
    item = known(category, reference)
    values, end = read_item(item, octets, 0)
    if end < len(octets):
        raise Refused(18, end)
    return "ok " + commas(values)


def answer_write(category, reference, room, values):
    octets = write_item(known(category, reference), values)
    if len(octets) > room:
        raise Refused(16, 0)
    return answer_octets(octets)


def answer_find(octets, reference, n):
    category, records, _ = read_block(octets)
    known(category.number, reference)
    if n >= len(records):
        raise Refused(19, 0)
    start, end, found = records[n]
    ends = [item[2] for item in found[1:]] + [end]
    for item, stop in zip(found, ends):
        if item[1] == "%03d" % reference:
            return "ok %d %d %s" % (item[2], stop - item[2], octets[item[2]:stop].hex().upper())
    raise Refused(20, start)


def answer_record(octets, n):
    _, records, _ = read_block(octets)
    if n >= len(records):
        raise Refused(19, 0)
    start, end, found = records[n]
    return "ok %d %d %d" % (start, end - start, len(found)) + "".join(" %d@%d" % item[:3:2] for item in found)


def answer_add(used, room, frns, items):
    if len(used) > room:
        raise Refused(16, 0, "old")
    try:
        category, _, _ = read_block(used, least=3)
    except Refused as fault:
        raise Refused(fault.number, fault.place, "old")
    try:
        if not frns:
            raise Refused(7, 0)
        if not frns <= set(tables.usable(category)):
            raise Refused(8, 0)
        found, end = read_items(category, sorted(frns), items, 0)
        if end < len(items):
            raise Refused(18, end)
        judge(category, found, 0)
        whole = used + fspec(frns) + items
        if len(whole) > 65535:
            raise Refused(17, 0)
        if len(whole) > room:
            raise Refused(16, 0)
    except Refused as fault:
        raise Refused(fault.number, fault.place, "new")
    return answer_octets(whole[:1] + len(whole).to_bytes(2, "big") + whole[3:])


def answer_octets(octets):
    return "ok %d %s" % (len(octets), octets.hex().upper())


def answer_sheet(octets):
    edition, offset, marks = sheets.read(octets)
    return "ok %d %d %d" % (edition, offset, len(marks)) + "".join(" %d:%d:%d:%d" % mark[:4] for mark in marks)


# ---- lengths

def least_octets(item):
    """The fewest octets of an item: of a list, a led or a compound item its first, of an extended item its first part."""
    return 1 if item.form in ("list", "led") else item.octets


def least_length(number, place, octet):
    """The sum over the items that the octet at a place of an FSPEC names; 0 where the category has no such octet."""
    if number not in tables.CATEGORIES:
        return 0
    category = tables.CATEGORIES[number]
    items, usable = tables.items(category), tables.usable(category)
    named = [7 * place + bit + 1 for bit in range(7) if octet >> (7 - bit) & 1]
    return sum(least_octets(items[usable[frn]]) for frn in named if frn in usable)


# ---- lines

HEX = r"(-|(?:[0-9A-Fa-f]{2})+)"
OCTET = r"([0-9A-Fa-f]{2})"
NUMBER = r"([0-9]+)"
CAT = r"(0*(?:[0-9]{1,2}|1[0-9]{2}|2[0-4][0-9]|25[0-5]))"
FIELD = r"(?:-?[0-9]+|x)"
FIELDS = r"(-|%s(?:,%s)*)" % (FIELD, FIELD)
FRNS = r"(-|[0-9]+(?:,[0-9]+)*)"
OFFSET = r"(-?[0-9]+)"
MARK = r"([0-9]+(?::[0-9]+){3})"
MARKS = r"(-|[0-9]+(?::[0-9]+){3}(?:,[0-9]+(?::[0-9]+){3})*)"

FORMS = {
    "block": [HEX],
    "recording": [HEX],
    "read": [CAT, NUMBER, HEX],
    "write": [CAT, NUMBER, NUMBER, FIELDS],
    "add": [HEX, NUMBER, FRNS, HEX],
    "find": [HEX, NUMBER, NUMBER],
    "record": [HEX, NUMBER],
    "least": [CAT, NUMBER, OCTET],
    "sheetread": [HEX],
    "sheetwrite": [NUMBER, OFFSET, MARKS],
    "sheetadd": [HEX, MARK, NUMBER],
    "sheetremove": [HEX, NUMBER, NUMBER, NUMBER],
    "sheetempty": [HEX, NUMBER],
}


def octets_of(word):
    return b"" if word == "-" else bytes.fromhex(word)


def numbers_of(word):
    return [] if word == "-" else [ABSENT if number == "x" else int(number) for number in word.split(",")]


class BadLine(Exception):
    """A number that its question doesn't take."""


def bounded(word, least, greatest):
    if not least <= int(word) <= greatest:
        raise BadLine
    return int(word)


def offset_of(word):
    return bounded(word, -2 ** 63, 2 ** 63 - 1)


def place_of(word):
    return bounded(word, 0, 2 ** 32 - 1)


def octet_of(word):
    return bounded(word, 0, 255)


def mark_of(word):
    """A mark of a sheet; its closing zero isn't the caller's."""
    place, log, station, comment = word.split(":")
    return place_of(place), octet_of(log), octet_of(station), octet_of(comment), 0


def marks_of(word):
    return [] if word == "-" else [mark_of(mark) for mark in word.split(",")]


def answer(line):
    """The answer to one line."""
    kind, *words = line.split(" ")
    if not re.fullmatch(" ".join(FORMS.get(kind, ["(?!)"])), " ".join(words)):
        return "bad line"
    try:
        if kind == "block":
            return answer_block(octets_of(*words))
        if kind == "recording":
            return "ok %d %d" % read_recording(octets_of(*words))
        if kind == "read":
            return answer_read(int(words[0]), int(words[1]), octets_of(words[2]))
        if kind == "write":
            return answer_write(int(words[0]), int(words[1]), int(words[2]), numbers_of(words[3]))
        if kind == "add":
            return answer_add(octets_of(words[0]), int(words[1]), set(numbers_of(words[2])), octets_of(words[3]))
        if kind == "find":
            return answer_find(octets_of(words[0]), int(words[1]), int(words[2]))
        if kind == "record":
            return answer_record(octets_of(words[0]), int(words[1]))
        if kind == "least":
            return "ok %d" % least_length(int(words[0]), int(words[1]), int(words[2], 16))
        if kind == "sheetread":
            return answer_sheet(octets_of(*words))
        if kind == "sheetwrite":
            return answer_octets(sheets.write(offset_of(words[1]), marks_of(words[2]), int(words[0])))
        if kind == "sheetadd":
            return answer_octets(sheets.add(octets_of(words[0]), mark_of(words[1]), int(words[2])))
        if kind == "sheetremove":
            return answer_octets(sheets.remove(octets_of(words[0]), octet_of(words[1]), place_of(words[2]), int(words[3])))
        if kind == "sheetempty":
            return answer_octets(sheets.empty(octets_of(words[0]), int(words[1])))
    except BadLine:
        return "bad line"
    except Refused as fault:
        return fault.line()


if __name__ == "__main__":
    for question in sys.stdin:
        print(answer(question.rstrip("\n")))

"""Exercise sheets: the rules of W-203 in document 02, in the plainest way there is.

reading.py asks it what a question of tests/vectors asks about a sheet. As there, nothing is shared with
the crates but the documents, and every answer starts again from the sheet's first octet. A mark is a
tuple of its numbers in the form's order, the closing zero among them.
"""

from collections import namedtuple

from refusal import Refused

# ---- the form: three fields and nothing after, each a tag of one octet, a length of two and so many octets

# A number, high octet first, two's complement where it may be below zero.
Number = namedtuple("Number", "name octets least greatest")

# A field: its tag, the numbers it holds once, or of each entry where it is a list, and a list's most entries.
Field = namedtuple("Field", "tag numbers most", defaults=[None])

HEAD = 3

EDITION = Field(1, [Number("edition", 1, 1, 1)])
OFFSET = Field(2, [Number("clock offset", 4, -46080, 46080)])  # the range is W-201's
MARKS = Field(3, [
    Number("place", 4, 0, 2 ** 32 - 1),
    Number("log", 1, 0, 1),
    Number("station", 1, 0, 5),
    Number("comment", 1, 0, 255),
    Number("zero", 1, 0, 0),
], 200)


def where(mark):
    """What marks rise strictly by: log, then place."""
    place, log, *_ = mark
    return log, place


# ---- legal values

def barred(field, values):
    return not all(number.least <= value <= number.greatest for number, value in zip(field.numbers, values))


def at_fault(marks):
    """The number, from 0, of the first mark that has a barred value or isn't above the one before it; None where there is none."""
    for n, mark in enumerate(marks):
        if barred(MARKS, mark) or n > 0 and where(mark) <= where(marks[n - 1]):
            return n
    return None


# ---- octets

def size(field):
    return sum(number.octets for number in field.numbers)


def numbers_at(field, octets, at):
    """A field's numbers, from a place on."""
    values = []
    for number in field.numbers:
        values.append(int.from_bytes(octets[at:at + number.octets], "big", signed=number.least < 0))
        at += number.octets
    return tuple(values)


def field_octets(field, entries):
    body = b"".join(value.to_bytes(number.octets, "big", signed=number.least < 0)
                    for values in entries for number, value in zip(field.numbers, values))
    return bytes([field.tag]) + len(body).to_bytes(2, "big") + body


# ---- reading

def read_field(field, octets, at):
    """The entries of the field that starts at a place, and where it ends: 31, 30, 31, 32, 34, 33."""
    if at == len(octets):
        raise Refused(31, at)
    body = at + HEAD
    if body > len(octets):
        raise Refused(30, at)
    end = body + int.from_bytes(octets[at + 1:body], "big")
    if end > len(octets):
        raise Refused(30, at)
    if octets[at] != field.tag:
        raise Refused(31, at)
    if (end - body) % size(field) or not field.most and end - body != size(field):
        raise Refused(32, at)
    entries = [numbers_at(field, octets, start) for start in range(body, end, size(field))]
    if not field.most:
        if barred(field, entries[0]):
            raise Refused(33, at)
    elif len(entries) > field.most:
        raise Refused(34, at)
    elif at_fault(entries) is not None:
        raise Refused(33, body + at_fault(entries) * size(field))
    return entries, end


def read(octets):
    """Edition, offset and marks of a sheet."""
    [(edition,)], at = read_field(EDITION, octets, 0)
    [(offset,)], at = read_field(OFFSET, octets, at)
    marks, at = read_field(MARKS, octets, at)
    if at < len(octets):
        raise Refused(31, at)
    return edition, offset, marks


# ---- writing, and changing into a second buffer

def put(offset, marks, room):
    """The octets of a sheet that is legal: 16."""
    octets = field_octets(EDITION, [[1]]) + field_octets(OFFSET, [[offset]]) + field_octets(MARKS, marks)
    if len(octets) > room:
        raise Refused(16, 0)
    return octets


def write(offset, marks, room):
    if len(marks) > MARKS.most:
        raise Refused(34, 0)
    if barred(OFFSET, [offset]) or at_fault(marks) is not None:
        raise Refused(33, 0)
    return put(offset, marks, room)


def add(octets, mark, room):
    _, offset, marks = read(octets)
    if barred(MARKS, mark):
        raise Refused(33, 0)
    if where(mark) in map(where, marks):
        raise Refused(35, 0)
    if len(marks) == MARKS.most:
        raise Refused(34, 0)
    return put(offset, sorted(marks + [mark], key=where), room)


def remove(octets, log, place, room):
    _, offset, marks = read(octets)
    left = [mark for mark in marks if where(mark) != (log, place)]
    if left == marks:
        raise Refused(36, 0)
    return put(offset, left, room)


def empty(octets, room):
    _, offset, _ = read(octets)
    return put(offset, [], room)

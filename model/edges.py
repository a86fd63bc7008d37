"""The vectors tests/vectors/edges-questions.txt and -answers.txt, from tables.py: every item at its edges, read
and written. Written by make.py.

For each item of each category, and for each subfield alone in its item: each field at its least and its greatest
value and one past each; each spare bit set alone; an octet too few and one too many; room for it and one octet
less. For lists no part, one, as many as may be and one more; for the led item its least and greatest contents
and one past each; for extended items each set of parts, and FX set in the last. For compound items the primary
octets: cut, past the printed ones, 00 last, each bit without a subfield; then subfields together, two faults at
once, no subfield, and counts that the rest does not bear out. Extended and compound items in a record, too.
Then numbers that no item has, lists longer than any item's, rooms of any size, and records added at their edges.
The answers are reading.py's; what a case is made to show, of a legal item every octet and every field, is asked
of each before anything is written.
"""

import functools

import reading
import tables
from reading import ABSENT
from tables import FX, SPARE


def asked(question, shows):
    """A question and its answer, which is the one given, or a refusal by the number given; by 0 it is accepted."""
    answer = reading.answer(question)
    if not (answer == shows if isinstance(shows, str) else answer.startswith("refused %d at " % shows if shows else "ok ")):
        raise SystemExit("%s: %s, which is not %s" % (question, answer, shows))
    return question, answer


class Edges:
    """Questions about an item, or about a subfield that is alone in it, with their answers."""

    def __init__(self, category, item, some=None):
        self.name, self.pairs = "%d %s" % (category.number, item.reference), []
        self.primary, self.before, self.after, self.part = b"", [], [], 0
        if some:
            subs = tables.subfields(item)
            self.primary = primary(place_of(item, some))
            self.before, self.after = [ABSENT] * subs.index(some), [ABSENT] * (len(subs) - subs.index(some) - 1)
            self.part = len(told(some.parts[0])) if some.form == "list" else 0

    def fields(self, values):
        """The fields of the whole item; a list that is a subfield has its count before its values."""
        count = [-(-len(values) // self.part)] if self.part else []
        return self.before + count + list(values) + self.after

    def read(self, octets, shows):
        self.pairs.append(asked("read %s %s" % (self.name, (self.primary + octets).hex().upper() or "-"), shows))

    def write(self, values, shows, room=2000):
        self.pairs.append(asked("write %s %d %s" % (self.name, room, reading.commas(self.fields(values))), shows))

    def both(self, octets, values):
        """An item that is legal: read and written, cut, with an octet after it, and with an octet of room too few."""
        whole = self.primary + octets
        written = "ok %d %s" % (len(whole), whole.hex().upper())
        self.read(octets, "ok " + reading.commas(self.fields(values)))
        self.read(octets[:-1], 9)
        self.read(octets + b"\0", 18)
        self.write(values, written, room=max(2000, len(whole) + 1))
        self.write(values, written, room=len(whole))
        self.write(values, 16, room=len(whole) - 1)


def told(part):
    return [field for field in part if field.kind not in (SPARE, FX)]


def chained(parts):
    """Parts of some octets each, or octets, with FX set in all but the last."""
    return b"".join(part[:-1] + bytes([part[-1] & 254 | (n + 1 < len(parts))]) for n, part in enumerate(parts))


def whole(item, parts):
    """The octets of an item of those parts, which need not be legal."""
    body = b"".join(parts)
    if item.form == "list":
        return bytes([len(parts)]) + body
    if item.form == "led":
        return bytes([1 + len(parts)]) + body
    return chained(parts) if item.form == "extended" else body


def coded(part, values, spare=0):
    """The octets of a part with those values, cut to their bits, and with those spare bits."""
    bits, values = 0, list(values)
    for field in part:
        value = values.pop(0) if field.kind not in (SPARE, FX) else 0
        bits = bits << field.width | value % 2 ** field.width
    return (bits | spare).to_bytes(sum(field.width for field in part) // 8, "big")


# ---- an item that is not compound, or a subfield

def plain(edges, item):
    for n in range(len(item.parts)):
        # what must be there with the part that is tried: the parts before it, as many as a list or a led item has at least
        before = [[field.least for field in told(part)] for part in item.parts[:n]]
        after = max(0, item.least - 1)
        base = [field.least for field in told(item.parts[n])]
        absent = [ABSENT] * (len(item.parts) - n - 1)

        def made(values, spare=0):
            parts = [coded(part, row) for part, row in zip(item.parts, before)] + [coded(item.parts[n], values, spare)]
            return whole(item, parts + [coded(item.parts[n], base)] * after), sum(before, []) + values + base * after + absent

        for k, field in enumerate(told(item.parts[n])):
            def tried(value):
                return base[:k] + [value] + base[k + 1:]

            for value in (field.least, field.greatest):
                edges.both(*made(tried(value)))
            for value in (field.least - 1, field.greatest + 1):
                octets, values = made(tried(value))
                edges.write(values, 11)
                half = 2 ** (field.width - 1)
                span = (-half, half - 1) if field.kind == tables.SIGNED else (0, 2 * half - 1)
                if span[0] <= value <= span[1]:
                    edges.read(octets, 11)
        low = sum(field.width for field in item.parts[n])
        for field in item.parts[n]:
            low -= field.width
            for bit in range(field.width if field.kind == SPARE else 0):
                edges.read(made(base, 1 << low + bit)[0], 11)
        # values too few, and too many
        for values in (made(base)[1][:-1], made(base)[1] + [0]):
            edges.write(values, 0 if legal(item, len(values)) else 11)
    if item.form in ("list", "led"):
        counts(edges, item)
    if item.form == "extended":
        extensions(edges, item)
    edges.read(b"", 9)
    edges.write([], 0 if legal(item, 0) else 11)


def legal(item, values):
    """Whether an item of equal parts may have so many values."""
    parts, rest = divmod(values, len(told(item.parts[0])))
    return item.form != "extended" and not rest and item.least <= parts <= item.greatest


def counts(edges, item):
    """How many parts a list or a led item may have."""
    base = [field.greatest for field in told(item.parts[0])]
    part = coded(item.parts[0], base)
    for parts in sorted({0, 1, item.least, item.least + 1, item.greatest - 1, item.greatest} | {max(0, item.least - 1)}):
        octets, values = whole(item, [part] * parts), base * parts
        if parts < item.least:
            edges.read(octets, 11 if item.form == "list" else 10)
            edges.write(values, 11)
        else:
            edges.both(octets, values)
    for parts in (item.greatest + 1, 255) if item.greatest < 254 else ():
        edges.read(whole(item, [part] * parts), 11)
        edges.read(whole(item, [part] * parts)[:-1], 9)
    edges.write(base * (item.greatest + 1), 11)
    edges.write(base * min(3000, 9000 // len(base)), 11)
    if item.form == "led":
        edges.read(b"\0", 10)
        edges.read(b"\0\0\0", 10)


def extensions(edges, item):
    """Which parts of an extended item may be there, and where FX leads: 9, 6, 11."""
    zeros = [[0] * len(told(part)) for part in item.parts]
    parts = [coded(part, [1] * len(told(part))) for part in item.parts]
    endless = chained(parts + [b"\0"])[:-1]
    for octets in (endless, endless[:-1] + b"\xff"):
        edges.read(octets, 6)
        edges.read(octets + b"\0", 6)
    for n in range(1, len(parts)):
        edges.read(chained(parts[:n] + [b"\0"])[:-1], 9)
        edges.read(chained(parts[:n] + [b"\xff" * item.octets])[:-1], 9)
    for there in range(2 ** len(parts)):
        rows = [row if there >> n & 1 else [ABSENT] for n, row in enumerate(zeros)]
        many = [*rows, [ABSENT]].index([ABSENT])
        if many and not any(there >> n & 1 for n in range(many, len(rows))):
            edges.both(whole(item, [coded(part, row) for part, row in zip(item.parts, rows[:many])]), sum(rows, []))
        else:
            edges.write(sum(rows, []), 11)
    for n, row in ((n, row) for n, row in enumerate(zeros) if len(row) > 1):
        edges.write(sum(zeros[:n], []) + row[:-1] + [ABSENT] * (len(zeros) - n), 11)


# ---- compound items

def place_of(item, some):
    """Where the bit of a subfield stands in the primary octets, from 1 on."""
    return [place for row in item.primaries for place in row].index(some) + 1


def primary(*places):
    """The primary octets that name these places."""
    octets = [sum(128 >> (place - 1) % 7 for place in places if (place - 1) // 7 == n) for n in range((max(places) + 6) // 7)]
    return chained([bytes([octet]) for octet in octets])


def made_of(item, subs, parts, end):
    """The octets and the values of an item with these subfields, a list with so many parts, each field at its least or greatest."""
    body, values = b"", []
    for some in tables.subfields(item):
        if some not in subs:
            values.append(ABSENT)
            continue
        row, many = [getattr(field, end) for field in told(some.parts[0])], parts if some.form == "list" else 1
        body += whole(some, [coded(some.parts[0], row)] * many)
        values += [many] * (some.form == "list") + row * many
    return primary(*(place_of(item, some) for some in subs)) + body, values


def all_bits(item):
    """The primary octets with every bit that has a subfield, FX apart."""
    return bytes(sum(128 >> n for n, some in enumerate(row) if some) for row in item.primaries)


def primaries(item):
    """Primary octets at fault, each with the refusal: 9 where they are cut, 6, 7, 8; before any subfield is looked at."""
    full, past = all_bits(item), bytes(octet | 1 for octet in all_bits(item))
    yield b"", 9
    for n in range(1, len(full)):
        yield past[:n], 9
        yield b"\1" * n, 9
    for octets in (past, b"\1" * len(full), b"\xff" * len(full), past[:-1] + b"\1", b"\1" * (len(full) - 1) + past[-1:]):
        yield octets, 6
        yield octets + b"\0" * 99, 6
    for octets in [b"\1" * n + b"\0" for n in range(len(full))] + [past[:-1] + b"\0", b"\xff" * (len(full) - 1) + b"\0"]:
        yield octets, 7
        yield octets + b"\0", 7
    for n, row in enumerate(item.primaries):
        for bit in (128 >> k for k, some in enumerate(row) if not some):
            for octets in (b"\1" * n + bytes([bit]), past[:n] + bytes([full[n] | bit])):
                yield octets, 8
                yield octets + b"\0" * 99, 8
            for octets in [past[:n] + bytes([bit | 1]) + full[n + 1:]] * (n + 1 < len(full)):
                yield octets, 8


def barred(item):
    """A part of a subfield with all its bits set, where that is not legal."""
    return None if all(field.kind != SPARE and field.greatest == 2 ** field.width - 1 for field in item.parts[0]) else b"\xff" * item.octets


def together(edges, item):
    """Subfields together: all, all but one, each two; then two faults, of which the first tells."""
    subs = tables.subfields(item)
    for parts, end in ((0, "least"), (1, "least"), (1, "greatest"), (2, "greatest"), (255, "greatest")):
        edges.both(*made_of(item, subs, parts, end))
    for one in subs:
        edges.both(*made_of(item, [some for some in subs if some != one], 1, "greatest"))
    for one, other in zip(subs, subs[1:]):
        octets, values = made_of(item, [one, other], 1, "greatest")
        edges.both(octets, values)
        cut = len(octets) - other.octets - (other.form == "list")
        edges.read(octets[:cut], 9)
        if barred(one):
            octets = octets[:cut - one.octets] + barred(one) + octets[cut:]
            edges.read(octets, 11)
            edges.read(octets[:cut], 11)
            edges.read(octets[:cut - 1], 9)
        if barred(other):
            edges.read(octets[:-other.octets] + barred(other), 11)


def unborne(edges, item):
    """Lists of numbers that have no such form: no subfield, too few or too many, counts that the rest does not bear out, x inside a part."""
    subs = tables.subfields(item)
    for many in (0, len(subs) - 1, len(subs), len(subs) + 1):
        edges.write([ABSENT] * many, 11)
    for n, some in enumerate(subs):
        before, after, row = [ABSENT] * n, [ABSENT] * (len(subs) - n - 1), [field.least for field in told(some.parts[0])]
        lists = [[1] + row] if some.form == "fixed" else [
            [said] + row * parts
            for said, parts in ((0, 1), (1, 0), (1, 2), (2, 1), (-1, 0), (-1, 1), (255, 1), (256, 1), (256, 256), (257, 256), (2 ** 32, 0), (2 ** 63 - 1, 1))]
        inside = [row[:k] + [ABSENT] + row[k + 1:] for k in range(some.form == "fixed", len(row))]
        for values in lists + [[1] * (some.form == "list") + part for part in inside]:
            edges.write(before + values + after, 11)


def cases(category, item):
    edges = [Edges(category, item)]
    if item.form == "compound":
        for octets, shows in primaries(item):
            edges[0].read(octets, shows)
        together(edges[0], item)
        unborne(edges[0], item)
        for some in tables.subfields(item):
            edges.append(Edges(category, item, some))
            plain(edges[-1], some)
    else:
        plain(edges[0], item)
    return [pair for some in edges for pair in some.pairs]


# ---- in records

def ends(item):
    """An extended or compound item, legal and at fault, each with the refusal or 0."""
    if item.form == "extended":
        zeros = [coded(part, [0] * len(told(part))) for part in item.parts]
        yield from ((chained(zeros[:n + 1]), 0) for n in range(len(zeros)))
        yield from ((chained(zeros[:n + 1] + [b"\0"])[:-1], 9) for n in range(len(zeros) - 1))
        yield chained(zeros + [b"\0"])[:-1], 6
        yield from ((chained(zeros[:n] + [part[:-1] + b"\xff"]), 11) for n, part in enumerate(zeros) if barred(item._replace(parts=[item.parts[n][:-1]])))
        return
    for one in tables.subfields(item):
        yield made_of(item, [one], 1, "greatest")[0], 0
        yield made_of(item, [one], 1, "greatest")[0][:-1], 9
        if barred(one):
            yield primary(place_of(item, one)) + whole(one, [barred(one)]), 11
    yield from ((octets, shows) for octets, shows in primaries(item) if octets)


def in_records(category, item):
    """The same as the last item of a record: the place is its start, in a block and in what is added."""
    row = next(row for row in category.messages if item.reference in row.compulsory.split() + row.optional.split())
    frns, before = [], b""
    for frn, reference in sorted(tables.usable(category).items()):
        if reference in (*row.compulsory.split(), item.reference):
            frns.append(frn)
        if reference in row.compulsory.split() and reference != item.reference:
            before += reading.write_item(tables.items(category)[reference], least_of(category, reference, row))
    if tables.usable(category)[frns[-1]] != item.reference:
        raise SystemExit("I%03d/%s is not the last item of its record" % (category.number, item.reference))
    for octets, shows in ends(item):
        record = reading.fspec(frns) + before + octets
        block = bytes([category.number]) + (3 + len(record)).to_bytes(2, "big") + record
        for question, said in (
                ("block %s" % block.hex().upper(), "refused %d at %d" % (shows, len(block) - len(octets))),
                ("add %02X0003 999 %s %s" % (category.number, ",".join(map(str, frns)), (before + octets).hex().upper()), "refused %d at %d new" % (shows, len(before)))):
            yield asked(question, said if shows else 0)


def least_of(category, reference, row):
    """Fields of an item that a message type must have, each at its least; of the message type item the type's own."""
    if reference == "000":
        return reading.type_fields(category, row.number)
    return [field.least for field in told(tables.items(category)[reference].parts[0])]


# ---- what no item has, and records added

def others():
    """References and categories that have no such item."""
    for category in tables.CATEGORIES.values():
        known = set(tables.items(category))
        for reference in ("003", "045", "070", "090", "110", "350", "360", "361", "999", "1000", "65535", "65536", "4294967296"):
            if reference not in known:
                for question in ("read %d %s 00" % (category.number, reference), "write %d %s 9 0" % (category.number, reference)):
                    yield question, "refused 21 at 0"
    for number in (n for n in (0, 16, 19, 60, 61, 62, 63, 255) if n not in tables.CATEGORIES):
        for question in ("read %d 000 00" % number, "write %d 000 9 0" % number, "write %d 000 0 300" % number):
            yield question, "refused 21 at 0"


def numbers():
    """Numbers that no item and no buffer has, and lists longer than any item's."""
    for value in (2 ** 32, 2 ** 62, 2 ** 63 - 1, 2 ** 63, 2 ** 64 - 1, 2 ** 64, 10 ** 30):
        for written in (value, -value, -value - 1):
            yield "write 17 220 9 %d" % written, "refused 11 at 0"
            yield "write 17 045 9 0,%d" % written, "refused 11 at 0"
            yield "write 17 999 9 %d" % written, "refused 21 at 0"
    for written in (2 ** 63 - 1, 1 - 2 ** 63, 2 ** 63, 2 ** 64 - 2 ** 63, 2 ** 64, 10 ** 30):
        yield "write 18 008 9 0,0,0,0,0,%d" % written, "refused 11 at 0"
        yield "write 61 210 9 0,0,0,0,0,0,0,%d,x,x" % written, "refused 11 at 0"
        yield "write 61 130 9 %d,x,x,x,x,x,x,x,x" % written, "refused 11 at 0"
        yield "write 61 130 9 1,%d,x,x,x,x,x,x,x,x" % written, "refused 11 at 0"
        yield "write 61 240 9 x,%d,x,x,x,x,x,x,x,x,x" % written, "refused 11 at 0"
    for written in ("x", "-9223372036854775808"):
        yield "write 17 220 9 %s" % written, "refused 11 at 0"
        yield "write 17 045 9 0,%s" % written, "refused 11 at 0"
        yield "write 17 210 9 1,%s" % written, "refused 11 at 0"
        yield "write 18 019 9 1,%s" % written, "refused 11 at 0"
        yield "write 17 999 9 %s" % written, "refused 21 at 0"
        yield "write 18 008 9 0,0,0,0,0,%s" % written, "ok 1 00"
        yield "write 61 240 9 x,7,%s,x,x,x,x,x,x,x,x" % written, "ok 2 2007"
    for many in (256, 8191, 8192, 8193, 9000):
        yield "write 17 210 9 " + ",".join("0" * many), "refused 11 at 0"
        yield "write 17 211 9 " + ",".join("0" * many), "refused 21 at 0"
        yield "write 61 130 9 " + ",".join("0" * many), "refused 11 at 0"
        yield "write 61 130 9 " + ",".join("x" * many), "refused 11 at 0"
        yield "write 61 210 9 " + ",".join("x" * many), "refused 11 at 0"
    for room in (2, 3, 4, 1000, 65535, 65536, 2 ** 32, 2 ** 63, 2 ** 64, 10 ** 30):
        yield "write 17 220 %d 1193046" % room, "ok 3 123456" if room > 2 else "refused 16 at 0"
        yield "write 17 220 %d -1" % room, "refused 11 at 0"


def additions():
    """Records added to a block: the room it takes, and FRNs that a profile does not have."""
    items = "00010203144CA1B2"
    whole = "11000CE800010203144CA1B2"
    for room in (0, 2, 3, 11, 12, 13, 65535, 65536, 2 ** 64, 10 ** 30):
        short = "refused 16 at 0 " + ("old" if room < 3 else "new")
        yield "add 110003 %d 1,2,3,5 %s" % (room, items), "ok 12 " + whole if room > 11 else short
    for frns in ("5,3,2,1", "1,2,3,5,5,1", "01,002,0003,5"):
        yield "add 110003 99 %s %s" % (frns, items), "ok 12 " + whole
    for frn in (0, 16, 21, 22, 35, 36, 62, 63, 64, 65, 127, 128, 255, 256, 2 ** 32 + 1, 2 ** 64 + 1, 10 ** 30):
        yield "add 110003 99 1,2,3,5,%d %s" % (frn, items), "refused 8 at 0 new"
        yield "add 120003 99 %d -" % frn, "refused %d at 0 new" % (9 if frn in (16, 21, 22, 35) else 8)
    yield "add 110003 99 - " + items, "refused 7 at 0 new"
    yield "add 110003 99 - -", "refused 7 at 0 new"
    yield "add 110003 99 1,2,3,5 -", "refused 9 at 0 new"
    yield "add 110003 99 1,2,3,5 " + items + "00", "refused 18 at 8 new"
    yield "add 110003 99 1,2,5 000102034CA1B2", "refused 12 at 0 new"
    yield "add 110003 99 1,2,3,5 00010203FF4CA1B2", "refused 13 at 0 new"
    yield "add 110003 99 1,2,3 0001020314", "refused 14 at 0 new"
    yield "add 110003 99 1,2,3,5,15 " + items + "01", "refused 15 at 0 new"
    session, opened = "01021109384000", "3D000BE801021109384000"
    for room in (2, 3, 10, 11, 65536):
        short = "refused 16 at 0 " + ("old" if room < 3 else "new")
        yield "add 3D0003 %d 1,2,3,5 %s" % (room, session), "ok 11 " + opened if room > 10 else short
    for frn in (0, 23, 26, 27, 28, 29, 35, 36, 63, 64, 10 ** 30):
        yield "add 3D0003 99 1,2,3,5,%d %s" % (frn, session), "refused 8 at 0 new"
    yield "add %s 99 1,2,3,5 %s" % (opened, session), "ok 19 3D0013" + opened[6:] + opened[6:]
    yield "add 3D0003 99 1,3,5 010209384000", "refused 12 at 0 new"
    yield "add 3D0003 99 1,2,3,5 01021009384000", "refused 13 at 0 new"
    yield "add 3D0003 99 2 11", "refused 14 at 0 new"
    yield "add 3D0003 99 1,2,3,4,5 0102110901384000", "refused 15 at 0 new"
    yield "add - 99 1,2,3,5 " + items, "refused 1 at 0 old"
    yield "add 1100 99 1,2,3,5 " + items, "refused 1 at 0 old"
    yield "add 300003 99 1,2,3,5 " + items, "refused 2 at 0 old"
    yield "add 110004 99 1,2,3,5 " + items, "refused 3 at 0 old"
    yield "add 11000400 99 1,2,3,5 " + items, "refused 7 at 3 old"
    yield "add 11000400 3 1,2,3,5 " + items, "refused 16 at 0 old"
    yield "add %s 99 1,2,3,5 %s" % (whole, items), "ok 21 110015" + whole[6:] + whole[6:]


@functools.cache
def pairs():
    """Every question with its answer, once."""
    out = [pair for category in tables.CATEGORIES.values() for item in category.items for pair in cases(category, item)]
    out += [pair for category in tables.CATEGORIES.values() for item in category.items if item.form in ("extended", "compound")
            for pair in in_records(category, item)]
    for question, answer in [*others(), *numbers(), *additions()]:
        if reading.answer(question) != answer:
            raise SystemExit("%s: %s" % (question, reading.answer(question)))
        out.append((question, answer))
    return list(dict.fromkeys(out))


def questions():
    return "".join(question + "\n" for question, _ in pairs())


def answers():
    return "".join(answer + "\n" for _, answer in pairs())

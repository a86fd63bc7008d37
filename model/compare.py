"""Holds the tables of crates/rules/specs to those of tables.py, and tables.py to the vectors.

    python3 model/compare.py [QUESTIONS ANSWERS]..

From each CategoryNNN.antt it takes every layout, every row of the profile, every message type, the item
that is a record's time and the types without one, and the section, title, FRN and number of a subfield in the
comment beside each; the names of fields too (so that two of one width, exchanged, show), which stand beside each
or, in Category061.antt, in the comment on their item or subfield. From Catalogue.antt it takes the list of
categories. Then reading.py (of sheets by sheets.py) answers every question of tests/vectors, and of the pairs of
files named, but those about two logs, and its answers are held to those written there. Each difference is a
line; with one or more the exit status is 1.
"""

import pathlib
import re
import sys

import reading
import tables
from tables import FX, SIGNED, SPARE

ROOT = pathlib.Path(__file__).resolve().parents[1]
SPECS = ROOT / "crates" / "rules" / "specs"
VECTORS = ROOT / "tests" / "vectors"
MERGING = ("merge", "mergerun")  # questions about two logs: reading.py reads one

differences = []


def differ(sentence):
    differences.append(sentence)
    print(sentence)


def same(what, there, here):
    if there != here:
        differ("%s: the specs have %s, tables.py has %s" % (what, there, here))


# ---- the expressions that the specs use: names and numbers applied to others, and lists

def parsed(text):
    """A list for `a ∷ b ∷ []`, a tuple for an application, a number or a name."""
    tokens = re.findall(r"[()∷]|\[\]|[^\s()∷]+", text)

    def atom(token):
        if token == "[]":
            return []
        if re.fullmatch(r"0x[0-9A-Fa-f]+", token):
            return int(token, 16)
        return int(token.replace("_", "")) if re.fullmatch(r"[0-9_]+", token) else token

    def expression():
        parts = []
        while tokens and tokens[0] not in ")∷":
            token = tokens.pop(0)
            if token == "(":
                parts.append(expression())
                if tokens.pop(0) != ")":
                    raise ValueError(text)
            else:
                parts.append(atom(token))
        first = parts[0] if len(parts) == 1 else tuple(parts)
        if tokens and tokens[0] == "∷":
            tokens.pop(0)
            return [first] + expression()
        return first

    whole = expression()
    if tokens:
        raise ValueError(text)
    return whole


def bare(text):
    """The text without its comments."""
    return re.sub(r"--.*", "", text)


def field(term):
    """A field of the specs as (kind, width, least, greatest)."""
    form, width, *span = term
    if form == "spare":
        return SPARE, width, 0, 0
    if form == "any":
        return tables.UNSIGNED, width, 0, 2 ** width - 1
    if form == "within":
        return tables.UNSIGNED, width, span[0], span[1]
    if form == "twos":
        return SIGNED, width, -span[0], span[1]
    raise ValueError(term)


def fixed(octets, fields):
    return "fixed", octets, 1, 1, [[field(f) for f in fields]]


def listed(least, greatest, octets, fields):
    return "list", octets, least, greatest, [[field(f) for f in fields]]


def subfield(term):
    """A subfield of the specs, or None for a bit without one."""
    if term == "none":
        return None
    form, *rest = term
    return {"sub": fixed, "sub_list": lambda *parts: listed(0, 255, *parts)}[form](*rest)


def layout(term, groups):
    """A layout of the specs as (form, octets, least, greatest, fields of each part), a compound one as (form, subfields by primary
    octet); the groups that have a name are given."""
    form, *rest = term
    if form == "plain":
        return layout(rest[0], groups)
    if form == "item":
        return fixed(*rest)
    if form == "list":
        return listed(*rest)
    if form == "led":
        return "led", 1, rest[0], 254, [[field(("any", 8))]]
    if form == "extended":
        parts = [groups.get(part, part) if isinstance(part, str) else part for part in rest[0]]
        sizes = {size for _, size, _ in parts}
        return "extended", *sizes, 1, len(parts), [[field(f) for f in fields] for _, _, fields in parts]
    if form == "compound":
        return "compound", [[subfield(place) for place in row] for row in rest[0]]
    raise ValueError(term)


def ours(item):
    """An item of tables.py in the same form; an FX bit closes each part of an extended item."""
    if item.form == "compound":
        return "compound", [[some and ours(some) for some in row] for row in item.primaries]
    parts = []
    for part in item.parts:
        if item.form == "extended":
            if part[-1].kind != FX:
                differ("tables.py: I/%s has a part without FX" % item.reference)
            part = part[:-1]
        parts.append([(f.kind, f.width, f.least, f.greatest) for f in part])
    return item.form, item.octets, item.least, item.greatest, parts


def pieces(there, here):
    """Two layouts as what is compared of them: of two compound ones what stands at each bit, where they have as many."""
    if there[0] == here[0] == "compound" and list(map(len, there[1])) == list(map(len, here[1])):
        for octet, rows in enumerate(zip(there[1], here[1]), 1):
            for n, both in enumerate(zip(*rows)):
                yield ", primary octet %d, bit %d" % (octet, 8 - n), *both
    else:
        yield "", there, here


def named(item):
    """What stands beside each field of an item that has more than one: its name, of spare bits which they are."""
    fields = [f for part in item.parts for f in part if f.kind != FX]
    if len(fields) == 1:
        return []
    return [("bit %s" if f.width == 1 else "bits %s") % f.bits if f.kind == SPARE else f.name for f in fields]


def unsaid(item, comment):
    """The fields of an item or subfield that a comment doesn't name in order; `W1 to W4` names four, and characters go by their number alone."""
    def run(found):
        return ", ".join(found.group(1) + str(n) for n in range(int(found.group(2)), int(found.group(3)) + 1))

    said, at, missing = re.sub(r"\b([A-Z]+)(\d+) to \1(\d+)", run, comment.partition(":")[2] or comment), 0, []
    fields = [f for part in item.parts for f in part if f.kind not in (SPARE, FX) and not f.name.startswith("character")]
    for f in fields if len(fields) > 1 else []:
        found = re.compile(r"(?<!\w)%s(?!\w)" % re.escape(f.called)).search(said, at)
        missing += [] if found else [f.called]
        at = found.end() if found else at
    return missing


def compare_subfields(name, item, term):
    """The comments on the subfields of a compound item: the number of each, its title, unless its fields are named instead, and their names."""
    comments = re.findall(r"-- #(\d+) +(.*)", term)
    printed = {some.number: some for some in tables.subfields(item)}
    same(name + ", the numbers of its subfields", [int(number) for number, said in comments if said != "spare"], list(printed))
    for number, said in comments:
        some = printed.get(int(number))
        if some:
            title = some.title.lower().removesuffix(" selector")
            named = said.lower().startswith(title) or said.startswith(some.parts[0][0].called)
            same("%s #%s, its title" % (name, number), said if not named else title, title)
            same("%s #%s, fields that the comment doesn't name in order" % (name, number), [], unsaid(some, said))


# ---- one category

def compare(category):
    name = "Category%03d" % category.number
    if not (SPECS / (name + ".antt")).exists():
        return differ("%s: the specs have no such file" % name)
    text = (SPECS / (name + ".antt")).read_text(encoding="utf-8")
    prefix = "I%03d/" % category.number

    known = tables.items(category)
    groups = {defined: parsed(term) for defined, term in re.findall(r"^abbrev \w+ : Group\n(\w+) =(.*?)(?=^\S|\Z)", bare(text), re.M | re.S)}
    layouts = {}
    for reference, term in re.findall(r"^i(\d{3}) =(.*?)(?=^\S|\Z)", bare(text), re.M | re.S):
        layouts[reference] = layout(parsed(term), groups)
    same("%s, the items" % name, sorted(layouts), sorted(known))
    for reference in sorted(set(layouts) & set(known)):
        for where, there, here in pieces(layouts[reference], ours(known[reference])):
            same(prefix + reference + where, there, here)

    beside = {}
    for reference, term in re.findall(r"^i(\d{3}) =(.*?)(?=^\S|\Z)", re.sub(r"(?m)^--.*", "", text), re.M | re.S):
        beside[reference] = re.findall(r"(?:any|within|twos|spare)[ 0-9_]+?  -- (.*)", term)
        if reference in known and known[reference].form == "compound":
            compare_subfields(prefix + reference, known[reference], term)
        elif reference in known and beside[reference]:
            same("%s%s, the names of its fields" % (prefix, reference), beside[reference], named(known[reference]))

    comments = re.findall(r"^-- (5\.2\.\d+) +I(\d{3})/(\d{3}), (.*)\n(?:--.*\n)*abbrev pub i(\d{3}) : Layout$", text, re.M)
    same("%s, the comments on items" % name, len(comments), len(known))
    for section, number, reference, title, defined in comments:
        item = known.get(reference)
        same("%s, the comment on i%s" % (name, defined), (number, reference), ("%03d" % category.number, defined))
        if item:
            plain = re.split(r"[:(.]|, in ", title)[0].strip()
            same(prefix + reference + ", section and title", (section, plain), (item.section, item.title.split(" (")[0]))
            if item.form != "compound" and not beside.get(reference):
                same(prefix + reference + ", fields that the comment doesn't name in order", [], unsaid(item, title))

    body = text[text.index("= record {"):]
    profile = re.search(r"profile =(.*?);", bare(body), re.S).group(1)
    there = []
    for octet in parsed(profile):
        same("%s, the places of an FSPEC octet" % name, len(octet), 7)
        for place in octet:
            if place == "none":
                there.append(None)
            else:
                same("%s, the layout at %03d" % (name, place[1]), place[2], "i%03d" % place[1])
                there.append("%03d" % place[1])
    same("%s, the FSPEC octets" % name, len(there) // 7, category.octets)
    same("%s, the profile" % name, there, [place.reference for place in category.profile])
    frns = re.findall(r"(?:at (\d{3}) i\d{3}|none)  -- FRN (\d+)(?: +I(\d{3})/(\d{3})| +\S|$)", body, re.M)
    same("%s, the FRNs in comments" % name, [int(row[1]) for row in frns], [place.frn for place in category.profile])
    for reference, frn, number, said in frns:
        if reference:
            same("%s, the comment on FRN %s" % (name, frn), (number, said), ("%03d" % category.number, reference))

    messages = re.search(r"messages =(.*?);", bare(body), re.S).group(1)
    rows = parsed(messages)
    same("%s, the message types" % name, [row[1] for row in rows], [row.number for row in category.messages])
    for _, number, compulsory, optional in rows:
        row = tables.message(category, number)
        if row:
            for what, cells, listed in (("compulsory", compulsory, row.compulsory), ("optional", optional, row.optional)):
                same("%s, message %d, %s" % (name, number, what), ["%03d" % cell for cell in cells], listed.split())

    same("%s, CAT" % name, re.search(r"\bcat = (\d+);", body).group(1), str(category.number))
    time = re.search(r"\btime = (\d+);", body).group(1)
    same("%s, the item that is a record's time" % name, time if time in known else None, category.time)
    same("%s, the untimed message types" % name, parsed(re.search(r"\buntimed = (.*);", bare(body)).group(1)), category.untimed)
    formats = [some for item in category.items for some in tables.formats(item)]
    fields = sum(f.kind != FX for some in formats for part in some.parts for f in part)
    print("%s: %d items with %d fields and spare groups, %d FRNs, %d message types compared" % (
        name, len(known), fields, len(category.profile), len(category.messages)))


# ---- vectors

def run(questions, answers):
    asked = pathlib.Path(questions).read_text().splitlines()
    written = pathlib.Path(answers).read_text().splitlines()
    same("%s, lines" % pathlib.Path(questions).name, len(asked), len(written))
    agree = passed = 0
    for n, (question, answer) in enumerate(zip(asked, written), 1):
        if question.split(" ")[0] in MERGING:
            passed += 1
            continue
        mine = reading.answer(question)
        if mine == answer:
            agree += 1
        else:
            differ("%s:%d: %s: written is %s, reading.py has %s" % (pathlib.Path(questions).name, n, question, answer, mine))
    print("%s: %d of %d agree" % (pathlib.Path(questions).name, agree, len(asked) - passed)
          + (", %d about two logs not asked" % passed if passed else ""))


def main(arguments):
    if len(arguments) % 2:
        sys.exit(__doc__)
    for sentence in tables.faults():
        differ("tables.py: " + sentence)
    for category in tables.CATEGORIES.values():
        compare(category)
    catalogue = (SPECS / "Catalogue.antt").read_text(encoding="utf-8")
    listed = parsed(re.search(r"^categories = (.*)$", bare(catalogue), re.M).group(1))
    same("Catalogue, the categories", listed, ["category%03d" % number for number in tables.CATEGORIES])
    for questions in sorted(VECTORS.glob("*-questions.txt")):
        run(questions, str(questions).replace("-questions.txt", "-answers.txt"))
    for questions, answers in zip(arguments[::2], arguments[1::2]):
        run(questions, answers)
    print("%d differences" % len(differences))
    return 1 if differences else 0


if __name__ == "__main__":
    sys.exit(main(sys.argv[1:]))

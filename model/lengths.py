"""The vectors tests/vectors/lengths-questions.txt and -answers.txt, from tables.py: the least length of every value of
every FSPEC octet of every category, and of octets that no FSPEC has. Written by make.py; the answers are reading.py's.
"""

import functools

import reading
import tables

OCTETS = 9  # a set of 63 FRNs has no more


def asked():
    """Every question: category, the octet's place, its value."""
    for category in tables.CATEGORIES.values():
        for place in range(category.octets):
            yield from ((category.number, place, value) for value in range(256))
        for place in [*range(category.octets, OCTETS), 15, 16, 17, 255, 2 ** 32, 2 ** 60, 2 ** 64 - 1, 2 ** 64]:
            yield category.number, place, 0xFF
    for number in sorted({0, 1, 255, *(near for known in tables.CATEGORIES for near in (known - 1, known + 1, known + 128))} - set(tables.CATEGORIES)):
        yield number, 0, 0xFF
        yield number, 1, 0xFE


@functools.cache
def pairs():
    lines = ["least %d %d %02X" % question for question in asked()]
    return [(line, reading.answer(line)) for line in lines]


def questions():
    return "".join(question + "\n" for question, _ in pairs())


def answers():
    return "".join(answer + "\n" for _, answer in pairs())

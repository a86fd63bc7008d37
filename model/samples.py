"""The recording samples/messages.rec, which is the input of crates/asterix_check too, and the line that is
answered to it. Written by make.py.

It has the accepted block of every message type, one after the other, and then for each category one block
that holds the records of all of them. reading.py says how it is answered.
"""

import messages
import reading
import tables


def joined(parts):
    """One block with the records of blocks of one category."""
    records = b"".join(part[3:] for part in parts)
    return parts[0][:1] + (3 + len(records)).to_bytes(2, "big") + records


def recording():
    singles = [bytes.fromhex(question.split()[1]) for question, answer in messages.pairs() if answer.startswith("ok ")]
    several = [joined([block for block in singles if block[0] == number]) for number in tables.CATEGORIES]
    return b"".join(singles + several)


def line():
    return "accepted %d blocks %d records\n" % reading.read_recording(recording())

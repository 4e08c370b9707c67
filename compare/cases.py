"""A case in the test program's form and the answer to it, the frames of a stream of cases, and the file form of a stored list."""

import struct
from typing import NamedTuple

from script import Trouble

LONGEST = 8192  # no body of a case may be longer
TABLE = struct.Struct("<BB5I")
FRAME = struct.Struct("<I")
BAD_CASE = b"bad case\n"


class Case(NamedTuple):
    open: bool
    m: int
    key: bytes
    nonce: bytes
    data: bytes
    text: bytes
    tag: bytes

    def encoded(self):
        bodies = self[2:]
        return TABLE.pack(self.open, self.m, *map(len, bodies)) + b"".join(bodies)


def decoded(raw):
    """The case, or None where the test program writes `bad case`."""
    if len(raw) < TABLE.size:
        return None
    direction, m, *lengths = TABLE.unpack_from(raw)
    if direction > 1 or max(lengths) > LONGEST or len(raw) != TABLE.size + sum(lengths):
        return None
    bodies, place = [], TABLE.size
    for length in lengths:
        bodies.append(raw[place : place + length])
        place += length
    return Case(direction == 1, m, *bodies)


class Answer(NamedTuple):
    number: int
    calls: int
    text: bytes
    tag: bytes

    def written(self):
        return f"answer {self.number} calls {self.calls}\n{self.text.hex()}\n{self.tag.hex()}\n".encode()


def written(answer):
    """What the test program writes; None stands for a bad case."""
    return BAD_CASE if answer is None else answer.written()


def read_answer(output):
    """The answer that the test program wrote; None where it wrote `bad case`."""
    if output == BAD_CASE:
        return None
    first, text, tag, end = output.decode().split("\n")
    _, number, _, calls = first.split(" ")
    return Answer(int(number), int(calls), bytes.fromhex(text), bytes.fromhex(tag))


def framed(items):
    return b"".join(FRAME.pack(len(item)) + item for item in items)


def unframed(stream):
    """The whole items of a stream, and whether nothing is left behind them."""
    items, place = [], 0
    while place + FRAME.size <= len(stream):
        start = place + FRAME.size
        end = start + FRAME.unpack_from(stream, place)[0]
        if end > len(stream):
            break
        items.append(stream[start:end])
        place = end
    return items, place == len(stream)


# A list: the mark, how many entries it has, and the entries, whose parts are frames. The last part is what is stored of the answer: nothing for a bad case,
# else the number (one byte), the count of cipher calls (four, little-endian) and text and tag as they stand afterwards; spill.py has that of a spill file.
CASES = b"OCBLIST2"  # an entry: the case, the answer
CALLS = b"OCBSTAT1"  # an entry: 0 seal or 1 open, the state, nonce, data, text and tag, the answer
SPILL = b"OCBSPIL1"  # an entry: 0 read or 1 addition, the state, the buffer, the file's length, row, tenant, nonce, output or text, the answer
PARTS = {CASES: 2, CALLS: 7, SPILL: 9}
OUTCOME = struct.Struct("<BI")


def stored(answer):
    return b"" if answer is None else OUTCOME.pack(answer.number, answer.calls) + answer.text + answer.tag


def told(raw, bytes_stored):
    """The answer that is stored for a case; None stands for a bad one. Trouble where it does not fit the case."""
    case = decoded(raw)
    if case is None and not bytes_stored:
        return None
    if case is None or len(bytes_stored) != OUTCOME.size + len(case.text) + len(case.tag):
        raise Trouble("stores an answer that does not fit its case")
    text_end = OUTCOME.size + len(case.text)
    return Answer(*OUTCOME.unpack_from(bytes_stored), bytes_stored[OUTCOME.size : text_end], bytes_stored[text_end:])


def list_bytes(mark, entries):
    return mark + FRAME.pack(len(entries)) + b"".join(framed(entry) for entry in entries)


def list_entries(content):
    """The mark of a list and its entries, each a tuple of its parts. Trouble where the form is wrong."""
    mark, count = content[:8], content[8 : 8 + FRAME.size]
    if mark not in PARTS:
        raise Trouble(f"does not start with {' or '.join(mark.decode() for mark in PARTS)}")
    items, whole = unframed(content[8 + FRAME.size :])
    entries = list(zip(*[iter(items)] * PARTS[mark]))
    if not whole or len(items) != PARTS[mark] * len(entries) or count != FRAME.pack(len(entries)):
        raise Trouble("does not have the entries that it says it has")
    return mark, entries

"""A plain reader and writer of the spill file: what the library owes for each call of spill_read and spill_add. Written from the request for it (E4) and from
the order of numbers in include/ocb.h, not from the port. OpenSSL seals and opens; the table of refusals and the counts are the paper's (`paper.py`).

The file is the front of a lent buffer and has at most 65,536 bytes. Its numbers have their lowest byte first:

| bytes | what |
|---|---|
| 4 | n, how many rows there are, at most 256 |
| 24 for each row | nonce (12), tenant (4), where the body starts (4), how long it is (4) |
| the rest | the bodies in the order of the rows, back to back from place 4 + 24 n, each a ciphertext with its tag of 16 bytes behind it |

A body is sealed under the row's nonce, with the tenant's four bytes as associated data. The first number that applies is given, in these orders; a refusal
leaves all as it was, but for 7, which leaves zeros where the plaintext would stand. What lies behind the plaintext in the output, or behind the new file in the
buffer, never changes.
"""

import functools
import struct
from typing import NamedTuple

import model
import paper
from cases import Case
from model import BUFFER
from script import Trouble
from states import WRONG_SIZE

READ_NUMBERS = (WRONG_SIZE, 10, 11, 12, 14, 13, 9, 2, 5, 7)
ADD_NUMBERS = (WRONG_SIZE, 10, 11, 12, 17, 15, 16, 2, 3, 5)
MOST_BYTES = 65536
MOST_ROWS = 256
NONCE = 12
TAG = 16
NUMBER = struct.Struct("<I")
WIDE = struct.Struct("<Q")
ROW = struct.Struct("<12s3I")
ANSWER = struct.Struct("<BIQ")


class Row(NamedTuple):
    nonce: bytes
    tenant: int
    place: int
    length: int

    def end(self):
        return self.place + self.length


class Read(NamedTuple):
    state: bytes
    buffer: bytes
    file_length: int
    row: int
    tenant: int
    out: bytes

    def parts(self):
        """As they stand in a list."""
        return b"\0", self.state, self.buffer, WIDE.pack(self.file_length), WIDE.pack(self.row), NUMBER.pack(self.tenant), b"", self.out


class Add(NamedTuple):
    state: bytes
    buffer: bytes
    file_length: int
    nonce: bytes
    tenant: int
    text: bytes

    def parts(self):
        return b"\1", self.state, self.buffer, WIDE.pack(self.file_length), b"", NUMBER.pack(self.tenant), self.nonce, self.text


def read_call(parts):
    """The call of an entry's parts."""
    way, state, buffer, file_length, row, tenant, nonce, last = parts[:8]
    file = state, buffer, *WIDE.unpack(file_length)
    if way == b"\1":
        return Add(*file, nonce, *NUMBER.unpack(tenant), last)
    return Read(*file, *WIDE.unpack(row), *NUMBER.unpack(tenant), last)


class Answer(NamedTuple):
    number: int
    calls: int
    length: int  # how many bytes a read has written, or how many the file has after an addition
    after: bytes  # the output of a read, the buffer of an addition

    def stored(self):
        return ANSWER.pack(*self[:3]) + self.after


def owed(call, openssl):
    return (read if isinstance(call, Read) else add)(call, openssl)


def read(call, openssl):
    def refused(number):
        return Answer(number, 0, 0, call.out)

    number, rows = checked(call)
    if number:
        return refused(number)
    if call.row >= len(rows):
        return refused(14)
    row = rows[call.row]
    if row.tenant != call.tenant:
        return refused(13)
    body = call.buffer[row.place : row.end()]
    text, tag = body[:-TAG], body[-TAG:]
    if len(call.out) < len(text):
        return refused(9)
    key, m = held(call.state)
    case = Case(True, m, key, row.nonce, NUMBER.pack(row.tenant), text, tag)
    number = paper.refusal(case)
    if number:
        return refused(number)
    accepted, plain = openssl.open(*case[2:])
    if not accepted:
        number, plain = 7, bytes(len(text))
    return Answer(number, paper.calls(case), len(text), plain + call.out[len(text) :])


def add(call, openssl):
    def refused(number):
        return Answer(number, 0, call.file_length, call.buffer)

    number, rows = checked(call)
    if number:
        return refused(number)
    if call.tenant == 0:
        return refused(17)
    if call.nonce in [row.nonce for row in rows]:
        return refused(15)
    new_length = call.file_length + ROW.size + len(call.text) + TAG
    if len(rows) == MOST_ROWS or new_length > MOST_BYTES or new_length > len(call.buffer):
        return refused(16)
    key, m = held(call.state)
    case = Case(False, m, key, call.nonce, NUMBER.pack(call.tenant), call.text, bytes(TAG))
    # the mode takes other nonces too, the file does not: one of another length is refused as an empty one is
    number = paper.refusal(case if len(call.nonce) == NONCE else case._replace(nonce=b""))
    if number:
        return refused(number)
    body = b"".join(openssl.seal(*case[2:6], TAG))
    file = laid_out([*((row.nonce, row.tenant, call.buffer[row.place : row.end()]) for row in rows), (call.nonce, call.tenant, body)])
    return Answer(0, paper.calls(case), len(file), file + call.buffer[len(file) :])


def checked(call):
    """40, 10, 11 or 12, the first that applies, and no rows; or 0 and the rows of the file."""
    length = call.file_length
    if len(call.state) != BUFFER.size:
        return WRONG_SIZE, []
    if length > len(call.buffer) or length > MOST_BYTES or length < NUMBER.size:
        return 10, []
    (count,) = NUMBER.unpack_from(call.buffer)
    place = NUMBER.size + ROW.size * count
    if count > MOST_ROWS or place > length:
        return 10, []
    rows = [Row(*ROW.unpack_from(call.buffer, NUMBER.size + ROW.size * i)) for i in range(count)]
    for row in rows:
        if row.tenant == 0 or row.length < TAG or row.place != place or row.end() > length:
            return 11, []
        place = row.end()
    return (0, rows) if place == length else (12, [])


def laid_out(entries):
    """The file of these nonces, tenants and bodies."""
    place, rows = NUMBER.size + ROW.size * len(entries), []
    for nonce, tenant, body in entries:
        rows.append(ROW.pack(nonce, tenant, place, len(body)))
        place += len(body)
    return NUMBER.pack(len(entries)) + b"".join(rows) + b"".join(body for _, _, body in entries)


@functools.lru_cache(maxsize=None)
def held(state):
    """The key and m of a state that set-up made: its first round keys are the key itself. The zeros of a refused set-up have an m of 0."""
    round_keys, rounds, _, _, m, _ = BUFFER.unpack(state)
    if not any(state):
        return bytes(16), 0
    key = round_keys[: next((length for length, of_key in paper.ROUNDS.items() if of_key == rounds), 0)]
    if not key or not 1 <= m <= 26 or model.made(key, m).buffer() != state:
        raise Trouble("a state that no set-up makes is none that OpenSSL can be asked about")
    return key, m

"""Calls under states that set-up did not make, and what the port owes for them: the table of refusals (`paper.py`), the number for a buffer of a wrong size
(include/ocb.h), and else the model (`model.py`)."""

from typing import NamedTuple

import model
import paper
from cases import Answer, Case
from model import BUFFER, State

WRONG_SIZE = 40


class Call(NamedTuple):
    open: bool
    state: bytes
    nonce: bytes
    data: bytes
    text: bytes
    tag: bytes

    def parts(self):
        """As they stand in a list."""
        return (bytes([self.open]), *self[1:])


def read_call(parts):
    """The call of an entry's parts."""
    return Call(parts[0] == b"\1", *parts[1:6])


def refusal(call):
    """The number that refuses the call, or 0."""
    if len(call.state) != BUFFER.size:
        return WRONG_SIZE
    state = held(call)
    if state.rounds not in paper.ROUNDS.values():
        return 2
    return paper.refusal(Case(call.open, state.m, bytes(16), *call[2:]))


def held(call):
    """The state in the call's buffer."""
    return State(*BUFFER.unpack(call.state))


def owed(call):
    number = refusal(call)
    if number:
        return Answer(number, 0, call.text, call.tag)
    return model.answer(held(call), *call[:1], *call[2:])


class Maker:
    """Makes calls from a source of random bytes."""

    def __init__(self, random):
        self.random = random

    def seal(self, state, data, text, nonce=12, tag=16):
        return Call(False, state.buffer(), *map(self.random.randbytes, (nonce, data, text, tag)))

    def every_way(self, seal):
        """A seal, the open that accepts it, and one with a wrong tag."""
        sealed = owed(seal)
        good = seal._replace(open=True, text=sealed.text, tag=sealed.tag)
        yield seal
        yield good
        yield good._replace(tag=good.tag[:-1] + bytes([good.tag[-1] ^ 1]))

    def any_state(self, rounds, m):
        """Random bytes that no key makes."""
        return State(self.random.randbytes(240), rounds, *map(self.random.randbytes, (16, 16)), m, self.random.randbytes(432))

    def calls(self):
        for key_length, rounds in paper.ROUNDS.items():
            yield from self.arbitrary(rounds)
            yield from self.altered(key_length)
            yield from self.refused(rounds)
        yield from self.wrong_rounds()

    def arbitrary(self, rounds):
        for m in range(1, 27):
            most = min(paper.limit(m), 150)
            lengths = self.random.randrange(most + 1), self.random.randrange(most + 1)
            yield from self.every_way(self.seal(self.any_state(rounds, m), *lengths, 6 + m % 10, 1 + m % 16))
        for byte, m in ((b"\0", 1), (b"\0", 26), (b"\xff", 26)):
            yield from self.every_way(self.seal(State(240 * byte, rounds, 16 * byte, 16 * byte, m, 432 * byte), 20, 32))
        for m in range(1, 6):  # 2^m blocks use L_0 to L_m
            yield from self.every_way(self.seal(self.any_state(rounds, m), paper.limit(m), paper.limit(m)))
        yield from self.every_way(self.seal(self.any_state(rounds, 26), 1031, 1031))  # L_0 to L_6

    def altered(self, key_length):
        """A state of a key with one part changed. A round key or a row that no block uses makes no difference."""
        right = model.made(self.random.randbytes(key_length), 3)
        for part in ("star", "dollar"):
            yield from self.every_way(self.seal(right._replace(**{part: self.random.randbytes(16)}), 20, 20))
        for place in (0, right.rounds // 2, *range(right.rounds, 15)):  # of those that are used the first, the middle and the last, and all others
            yield from self.every_way(self.seal(right._replace(round_keys=self.with_row(right.round_keys, place)), 20, 20))
        for rounds in paper.ROUNDS.values():
            if rounds != right.rounds:  # zeros for round keys, or not all that the key made
                yield from self.every_way(self.seal(right._replace(rounds=rounds), 20, 20))
        for row in (0, 1, 2, 3, 4, 26):  # L_0 to L_3 are used by eight blocks
            yield from self.every_way(self.seal(right._replace(table=self.with_row(right.table, row)), 128, 128))
        yield from self.every_way(self.seal(right._replace(m=26), 260, 260))  # L_4 is a row of zeros

    def with_row(self, rows, place):
        """Rows of sixteen bytes with other bytes in one of them."""
        return rows[: 16 * place] + self.random.randbytes(16) + rows[16 * place + 16 :]

    def both(self, seal):
        yield seal
        yield seal._replace(open=True)

    def refused(self, rounds):
        state = self.any_state(rounds, 1)
        for m in (0, 27, 255, 256, 257, (1 << 32) + 1, 1 << 63, (1 << 64) - 1):
            yield from self.both(self.seal(state._replace(m=m), 3, 5))
        for data, text, nonce, tag in ((32, 32, 5, 16), (32, 32, 16, 16), (32, 32, 12, 0), (32, 32, 12, 17), (32, 33, 12, 16), (33, 32, 12, 16)):
            yield from self.both(self.seal(state, data, text, nonce, tag))
        right = self.seal(state, 3, 5)
        for buffer in (b"", right.state[:-16], right.state[:-1], right.state + b"\0"):  # nothing, without the last row, a byte less and more
            for call in (right, right._replace(nonce=b"")):
                yield from self.both(call._replace(state=buffer))

    def wrong_rounds(self):
        """Numbers next to the right ones, those of key words and key bytes, and such as are right when cut or turned; beside other faults; and the state that a
        refused set-up leaves."""
        for rounds in (0, 1, 4, 6, 8, 9, 11, 13, 15, 16, 24, 32, 255):
            yield from self.both(self.seal(self.any_state(rounds, 1), 3, 5))
        for right in paper.ROUNDS.values():
            for rounds in (right + (1 << 8), right + (1 << 32), right + (1 << 63), right << 56, (1 << 64) - right):
                yield from self.both(self.seal(self.any_state(rounds, 1), 3, 5))
        yield from self.both(self.seal(self.any_state((1 << 64) - 1, 27), 33, 33, 5, 0))
        short = self.seal(self.any_state(0, 1), 3, 5)
        yield from self.both(short._replace(state=short.state[:-1]))
        yield from self.both(short._replace(state=bytes(BUFFER.size)))

    def to_spoil(self):
        """Calls of each kind: a seal, an open that accepts, one that refuses the tag, a refusal of the sizes, a buffer of another size."""
        for rounds in paper.ROUNDS.values():
            seal = self.seal(self.any_state(rounds, 1), 1, 3, 6, 2)
            yield from self.every_way(seal)
            yield seal._replace(tag=b"")
            yield seal._replace(state=seal.state[:-1])

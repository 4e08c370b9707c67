"""Makes the cases of a comparison from a seed: first kinds that are gone through whole, then random ones. A good ciphertext is sealed by OpenSSL, never by
the port or the crate."""

import itertools
import random

import paper
from cases import LONGEST, TABLE, Case

BODIES = ("key", "nonce", "data", "text", "tag")
ADMITTED_M = range(1, 27)


def generators(seed, openssl):
    """One for each length of keys, from one source of random bytes."""
    source = random.Random(seed)
    return [Generator(source, openssl, length) for length in paper.KEY_LENGTHS]


def cases(seed, openssl, count):
    """`count` pairs of a kind's name and a case's bytes, for each length of keys in turn. A small count cuts the kinds short that are gone through whole."""
    streams = [made.cases() for made in generators(seed, openssl)]
    return itertools.islice(itertools.chain.from_iterable(zip(*streams)), count)


class Generator:
    """Makes cases with keys of one length, where nothing else is said of a kind."""

    def __init__(self, source, openssl, key_length):
        self.random = source
        self.openssl = openssl
        self.key_length = key_length

    def cases(self):
        for kind, make in self.whole_kinds():
            for raw in make():
                yield kind, raw
        while True:
            yield self.random_one()

    def whole_kinds(self):
        return (
            ("text of 0 to 100", self.text_lengths),
            ("data of 0 to 100", self.data_lengths),
            ("nonce and tag, 0 to 20", self.nonce_and_tag_lengths),
            ("key of 0 to 40", self.key_lengths),
            ("m of 0 to 30", self.tables),
            ("limits of m", self.limits),
            ("several faults at once", self.faults_together),
            ("last nonce byte", self.last_nonce_bytes),
            ("each bit of the tag", self.tag_bits),
            ("each bit of the rest", self.other_bits),
            ("one byte, each value", self.single_bytes),
            ("bad form", self.bad_forms),
        )

    # ---- single cases ----

    def fresh(self, m, data, text, nonce=12, tag=16, key=None):
        """A seal of random bytes of these lengths. The tag's place holds random bytes too, so that bytes left alone show."""
        key = self.key_length if key is None else key
        return Case(False, m, *map(self.random.randbytes, (key, nonce, data, text, tag)))

    def sealed(self, seal):
        """The open that accepts what `seal` gives, whatever m says. Where OpenSSL cannot seal with these sizes, the same bytes as an open."""
        if len(seal.key) not in paper.KEY_LENGTHS or not 1 <= len(seal.nonce) <= 15 or not 1 <= len(seal.tag) <= 16:
            return seal._replace(open=True)
        text, tag = self.openssl.seal(seal.key, seal.nonce, seal.data, seal.text, len(seal.tag))
        return seal._replace(open=True, text=text, tag=tag)

    def both_ways(self, seal):
        yield seal.encoded()
        yield self.sealed(seal).encoded()

    def fitting_m(self, length):
        return self.random.choice([m for m in ADMITTED_M if length <= paper.limit(m)])

    def flipped(self, body, bit=None):
        """One bit changed: this one, or any."""
        bit = self.random.randrange(8 * len(body)) if bit is None else bit
        changed = bytearray(body)
        changed[bit // 8] ^= 1 << bit % 8
        return bytes(changed)

    def keys_of_other_lengths(self, key):
        """The same key at each other length that is admitted: cut short, or with zeros behind it."""
        return [key[:length].ljust(length, b"\0") for length in paper.KEY_LENGTHS if length != len(key)]

    # ---- kinds gone through whole ----

    def text_lengths(self):
        for text in range(101):
            for nonce, tag in ((12, 16), (6, 1), (15, 8), (7, 15)):
                for data in (0, 1, 16, 33):
                    yield from self.both_ways(self.fresh(self.fitting_m(max(text, data)), data, text, nonce, tag))

    def data_lengths(self):
        for data in range(101):
            for text in (0, 5, 16, 40):
                yield from self.both_ways(self.fresh(self.fitting_m(max(text, data)), data, text))

    def nonce_and_tag_lengths(self):
        for nonce in range(21):
            for tag in range(21):
                yield from self.both_ways(self.fresh(3, self.random.randrange(40), self.random.randrange(40), nonce, tag))

    def key_lengths(self):
        for key in range(41):
            yield from self.both_ways(self.fresh(3, 20, 20, key=key))
        good = self.sealed(self.fresh(3, 20, 20))
        for key in self.keys_of_other_lengths(good.key):
            yield good._replace(key=key).encoded()

    def tables(self):
        for m in (*range(31), 255):
            for text in (0, 1, 15, 16, 17, 31, 32, 33):
                yield from self.both_ways(self.fresh(m, self.random.randrange(17), text))

    def limits(self):
        for m in range(1, 10):
            edge = paper.limit(m)
            lengths = [length for length in (0, edge - 1, edge, edge + 1) if length <= LONGEST]
            for text in lengths:
                for data in lengths:
                    seal = self.fresh(m, data, text)
                    yield from self.both_ways(seal)
                    good = self.sealed(seal)
                    yield good._replace(tag=self.flipped(good.tag)).encoded()

    def faults_together(self):
        """Every choice of wrong and right sizes, both ways: the smallest number is given. Text and data of a right size have exactly the limit."""
        for choice in range(64):
            wrong = [choice >> place & 1 for place in range(6)]
            m, key = 0 if wrong[1] else 1, self.key_length - wrong[0]
            yield from self.both_ways(self.fresh(m, 33 if wrong[5] else 32, 33 if wrong[4] else 32, 5 if wrong[2] else 6, 0 if wrong[3] else 1, key))

    def last_nonce_bytes(self):
        """Every value of the six bits that cut the first offset out of Stretch, and every nonce length."""
        for nonce in range(6, 16):
            for bottom in range(64):
                seal = self.fresh(2, 3, 20, nonce, self.random.randrange(1, 17))
                last = seal.nonce[-1] & 0xC0 | bottom
                yield from self.both_ways(seal._replace(nonce=seal.nonce[:-1] + bytes([last])))

    def tag_bits(self):
        for tag in range(1, 17):
            good = self.sealed(self.fresh(2, 17, 33, 12, tag))
            for bit in range(8 * tag):
                yield good._replace(tag=self.flipped(good.tag, bit)).encoded()

    def other_bits(self):
        good = self.sealed(self.fresh(2, 17, 33))
        for name in ("key", "nonce", "data", "text"):
            body = getattr(good, name)
            for bit in range(8 * len(body)):
                yield good._replace(**{name: self.flipped(body, bit)}).encoded()

    def single_bytes(self):
        """Every text of one byte both ways, all data of one byte, and every tag of one byte, of which an open accepts one."""
        seal = self.fresh(1, 1, 1, tag=1)
        good = self.sealed(seal)
        for value in range(256):
            byte = bytes([value])
            yield from self.both_ways(seal._replace(text=byte))
            yield seal._replace(data=byte).encoded()
            yield good._replace(tag=byte).encoded()

    def bad_forms(self):
        good = self.fresh(2, 5, 7).encoded()
        for first in range(2, 256):
            yield bytes([first]) + good[1:]
        for length in range(len(good)):
            yield good[:length]
        for more in range(1, 17):
            yield good + self.random.randbytes(more)
        case = self.fresh(26, 5, 7)
        for place, name in enumerate(BODIES):
            for length in (LONGEST, LONGEST + 1):
                yield case._replace(**{name: self.random.randbytes(length)}).encoded()
            for lie in (1 << 16, 1 << 24, 1 << 31, (1 << 32) - 1):
                lengths = [len(body) for body in case[2:]]
                lengths[place] = lengths[place] + lie & (1 << 32) - 1
                yield TABLE.pack(0, 26, *lengths) + case.encoded()[TABLE.size :]

    # ---- random kinds ----

    def random_one(self):
        share = self.random.random()
        if share < 0.45:
            return "random, right sizes", self.random.choice((Case.encoded, lambda seal: self.sealed(seal).encoded()))(self.random_seal())
        if share < 0.80:
            return "random, damaged", self.damaged(self.sealed(self.random_seal())).encoded()
        if share < 0.90:
            return "random, any sizes", self.any_sizes().encoded()
        return "random, spoiled form", self.spoiled(self.random_seal().encoded())

    def random_length(self, m):
        """A length around the places where the work changes: the blocks, and the limit of m."""
        share = self.random.random()
        if share < 0.5:
            return max(0, 16 * self.random.randrange(13) + self.random.choice((-1, 0, 1)))
        if share < 0.8:
            return self.random.randrange(130)
        if share < 0.97:
            return min(LONGEST, max(0, paper.limit(min(m, 6)) + self.random.choice((-33, -32, -17, -16, -15, -2, -1, 0, 1, 2, 16))))
        return self.random.randrange(LONGEST + 1)

    def random_seal(self):
        m = self.random.choice((1, 2, 3, 4, *ADMITTED_M))
        return self.fresh(m, self.random_length(m), self.random_length(m), self.random.randrange(6, 16), self.random.randrange(1, 17))

    def any_sizes(self):
        def size(right, *others):
            return right if self.random.random() < 0.7 else self.random.choice(others)

        m = size(self.random.choice(ADMITTED_M), 0, 27, 28, 60, self.random.randrange(256))
        seal = self.fresh(m, self.random.randrange(70), self.random.randrange(70),
                          nonce=size(self.random.randrange(6, 16), 0, 5, 16, self.random.randrange(300)),
                          tag=size(self.random.randrange(1, 17), 0, 17, self.random.randrange(300)),
                          key=size(self.key_length, 0, self.key_length - 1, self.key_length + 1, *paper.KEY_LENGTHS, self.random.randrange(300)))
        return self.sealed(seal) if self.random.random() < 0.5 else seal

    def damaged(self, good):
        """A copy of a good open with one thing wrong."""
        damages = [self.with_flipped_bit, self.with_other_length, self.with_other_key_length, self.with_zero_tag, self.with_other_m]
        if len(good.text) >= 32:
            damages.append(self.with_swapped_blocks)
        if good.text != good.data:
            damages.append(lambda case: case._replace(text=case.data, data=case.text))
        return self.random.choice(damages)(good)

    def with_flipped_bit(self, good):
        name = self.random.choice([name for name in BODIES if getattr(good, name)])
        return good._replace(**{name: self.flipped(getattr(good, name))})

    def with_other_length(self, good):
        name = self.random.choice(("data", "text", "nonce", "tag"))
        body, change = getattr(good, name), self.random.choice((1, 1, 2, 15, 16, 17))
        shorter = body[: max(0, len(body) - change)]
        return good._replace(**{name: self.random.choice((shorter, (body + bytes(change))[:LONGEST]))})

    def with_other_key_length(self, good):
        return good._replace(key=self.random.choice(self.keys_of_other_lengths(good.key)))

    def with_zero_tag(self, good):
        return good._replace(tag=bytes(len(good.tag)))

    def with_other_m(self, good):
        return good._replace(m=self.random.choice(ADMITTED_M))

    def with_swapped_blocks(self, good):
        return good._replace(text=good.text[16:32] + good.text[:16] + good.text[32:])

    def spoiled(self, raw):
        """The bytes of a case with its table changed, cut short or lengthened. Some are still good cases."""
        share = self.random.random()
        if share < 0.4:
            place = self.random.randrange(TABLE.size)
            return raw[:place] + self.random.randbytes(1) + raw[place + 1 :]
        if share < 0.7:
            return raw[: self.random.randrange(len(raw))]
        return raw + self.random.randbytes(self.random.choice((1, 1, 2, 3, 16, self.random.randrange(1, 300))))

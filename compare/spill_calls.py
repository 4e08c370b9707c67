"""Makes calls of spill_read and spill_add: at every edge, with several faults at once, and random ones on good and damaged files. Each comes with the number
that it is made to be answered with, or None where that is left to chance. A good body is sealed by OpenSSL, never by the port; only a run of additions goes on
with what the last one left."""

import itertools

from generate import ADMITTED_M
from model import BUFFER
from paper import KEY_LENGTHS, limit
from spill import ADD_NUMBERS, MOST_BYTES, MOST_ROWS, NONCE, NUMBER, READ_NUMBERS, ROW, TAG, Add, Read, Row, laid_out

TOP = 0xFFFFFFFF  # the most that four bytes hold
MOST = (1 << 64) - 1  # the most that a length or a row may be
EMPTY = laid_out([])
LEAST = ROW.size + TAG  # what a row with an empty text adds to a file
FIELDS = {"tenant": 12, "place": 16, "length": 20}  # where they stand in a row
# Counts n over 256. The first five have a table that fits, or none, if 24 n is cut to 32 bits, the sixth if it is cut to 16. (24 n is a multiple of 8, so
# adding 4 to it never wraps where it did not wrap itself.)
HUGE_COUNTS = (0x0AAAAAAB, 0x15555556, 1 << 29, 7 << 29, 0xEAAAAAAB, 0x2AAB, 257, 1 << 16, (1 << 16) + 1, 1 << 31, TOP)
HUGE_LENGTHS = ((1 << 16) + 4, (1 << 32) + 4, 1 << 63, MOST)


def with_number(file, place, number):
    return file[:place] + NUMBER.pack(number) + file[place + NUMBER.size :]


def field_of(row, name):
    """Where a field of a row stands in the file."""
    return NUMBER.size + ROW.size * row + FIELDS[name]


def rows_in(buffer):
    """As many rows as the count says, as far as the buffer has them."""
    count = NUMBER.unpack_from(buffer)[0] if len(buffer) >= NUMBER.size else 0
    return [Row(*ROW.unpack_from(buffer, NUMBER.size + ROW.size * i)) for i in range(min(count, MOST_ROWS, (len(buffer) - NUMBER.size) // ROW.size))]


def swapped(file, one, other, length):
    """The bytes at two places exchanged, as far as they do not overlap."""
    one, other = sorted((one, other))
    length = max(0, min(length, other - one, len(file) - other))
    return file[:one] + file[other : other + length] + file[one + length : other] + file[one : one + length] + file[other + length :]


def first_of(order, faults):
    return next((number for number in order if number in faults), 0)


def of_each_key_length(source, openssl, set_up):
    return [Maker(source, openssl, length, set_up) for length in KEY_LENGTHS]


class Maker:
    """Makes calls with one key of the length that is given; `set_up` makes the state of a key and m."""

    def __init__(self, source, openssl, key_length, set_up):
        self.random = source
        self.openssl = openssl
        self.key = source.randbytes(key_length)
        self.states = {m: set_up(self.key, m) for m in ADMITTED_M}
        self.strange = set_up(source.randbytes(key_length), 26)  # the state of another key

    def whole_kinds(self):
        """Kinds that are gone through whole: a name and all calls of it."""
        yield "lengths and counts", self.heads()
        yield "rows and bodies", self.rows()
        yield "reads at the edges", self.reads()
        yield "additions at the edges", self.additions()
        yield "full files", self.full()
        yield "several faults at once", self.faults(len(READ_NUMBERS))
        yield "each bit flipped", self.bits()
        yield "each length", self.lengths()
        yield "each m", self.every_m()

    # ---- parts of calls ----

    def tenant(self):
        return self.random.choice((1, 2, 1 << 24, TOP, self.random.randrange(1, 1 << 32)))

    def entry(self, length, tenant=None, nonce=None):
        """Nonce, tenant and body of a row with a random text of this length."""
        tenant = self.tenant() if tenant is None else tenant
        nonce = nonce or self.random.randbytes(NONCE)
        return nonce, tenant, b"".join(self.openssl.seal(self.key, nonce, NUMBER.pack(tenant), self.random.randbytes(length), TAG))

    def entries(self, *lengths):
        return [self.entry(length) for length in lengths]

    def flipped(self, body, bit=None):
        """One bit changed: this one, or any."""
        bit = self.random.randrange(8 * len(body)) if bit is None else bit
        return body[: bit // 8] + bytes([body[bit // 8] ^ 1 << bit % 8]) + body[bit // 8 + 1 :]

    def read(self, file, row, out, tenant=None, m=26, behind=3):
        """A read of a row by the tenant that stands in it, where nothing else is said. The buffer goes on behind the file."""
        if tenant is None:
            field = file[field_of(min(row, MOST_ROWS), "tenant") :][: NUMBER.size]
            tenant = NUMBER.unpack(field)[0] if len(field) == NUMBER.size else 1
        return Read(self.states[m], file + self.random.randbytes(behind), len(file), row, tenant, self.random.randbytes(out))

    def add(self, file, text, room=None, tenant=None, nonce=None, m=26, behind=3):
        """An addition of a text of this length, with room for it and some bytes more where nothing else is said."""
        room = LEAST + text + behind if room is None else room
        nonce = self.random.randbytes(NONCE) if nonce is None else nonce
        tenant = self.tenant() if tenant is None else tenant
        return Add(self.states[m], file + self.random.randbytes(room), len(file), nonce, tenant, self.random.randbytes(text))

    def either(self, number, file, row=0):
        """A read and an addition, at which nothing but the file is at fault."""
        yield number, self.read(file, row, 60)
        yield number, self.add(file, 5)

    def with_file_length(self, number, file, length):
        """The same with another length told of the file."""
        for number, call in self.either(number, file):
            yield number, call._replace(file_length=length)

    # ---- the edges ----

    def heads(self):
        """Number 10: lengths and counts."""
        for length in range(NUMBER.size):
            yield from self.either(10, bytes(length))
            yield from self.with_file_length(10, bytes(60), length)
        yield 14, self.read(EMPTY, 0, 3)
        good = laid_out(self.entries(5, 0, 20))
        for behind in (0, 3):
            yield 0, self.read(good, 0, 5, behind=behind)
            yield 10, self.read(good, 0, 5, behind=behind)._replace(file_length=len(good) + behind + 1)
            yield 10, self.add(good, 5, behind)._replace(file_length=len(good) + behind + 1)
        for length in HUGE_LENGTHS:
            yield from self.with_file_length(10, good, length)
            yield from self.with_file_length(10, EMPTY, length)
        for wrap in (1 << 16, 1 << 32, 1 << 63):
            yield from self.with_file_length(10, good, wrap + len(good))
        table = NUMBER.size + 3 * ROW.size
        yield from self.either(10, good[: table - 1])
        yield from self.either(11, good[:table])  # the table fits, and the first body is past the end
        yield from self.either(10, with_number(good, 0, 1 + (len(good) - NUMBER.size) // ROW.size))
        for count in HUGE_COUNTS:
            yield from self.either(10, with_number(good, 0, count))
            yield from self.either(10, NUMBER.pack(count))

    def rows(self):
        """Numbers 11 and 12: each field of each of three rows, and where the bodies end."""
        for row in range(3):
            yield from self.one_row(row)
        good = laid_out(self.entries(20, 20, 20))
        yield from self.with_file_length(11, good, len(good) - 1)  # the last body ends a byte behind the file, though within the buffer
        for behind in (1, TAG, ROW.size, 60):
            yield from self.either(12, good + self.random.randbytes(behind))
        yield from self.either(12, with_number(good, field_of(2, "length"), 35))
        yield from self.either(12, EMPTY + b"\0")

    def one_row(self, row):
        def file_with(entry):
            return laid_out([*self.entries(3, 17)[:row], entry, *self.entries(0, 5)[row:]])

        for tenant in (0, 1, TOP):
            yield from self.either(0 if tenant else 11, file_with(self.entry(20, tenant)), row)
        for length in (0, 1, TAG - 1, TAG):
            nonce, tenant, body = self.entry(0)
            yield from self.either(0 if length == TAG else 11, file_with((nonce, tenant, body[:length])), row)
        good = laid_out(self.entries(20, 20, 20))
        right = NUMBER.size + 3 * ROW.size + 36 * row
        for place in (0, right - 36, right - 1, right + 1, right + 36, right + (1 << 16), right + (1 << 31), TOP):
            yield from self.either(11, with_number(good, field_of(row, "place"), place), row)
        wrap = TOP + 1 - right  # a body of this length ends at 0 if the sum is cut to 32 bits
        for length in (0, TAG - 1, len(good) - right + 1, 1 << 16, 1 << 31, wrap, wrap + TAG, TOP):
            yield from self.either(11, with_number(good, field_of(row, "length"), length), row)
        if row < 2:  # all that follows starts and ends as it would have to then
            turned = with_number(good, field_of(row, "length"), wrap)
            turned = with_number(turned, field_of(row + 1, "place"), 0)
            yield from self.either(11, with_number(turned, field_of(row + 1, "length"), right + 72 if row == 0 else len(good)), row + 1)

    def reads(self):
        """The numbers of a read behind 12, and 40."""
        entries = self.entries(20, 0, 33)
        good, tenants = laid_out(entries), [tenant for _, tenant, _ in entries]
        for row, tenant in enumerate(tenants):
            yield 0, self.read(good, row, 40)
            highest_first = int.from_bytes(NUMBER.pack(tenant), "big")
            for other in (0, *(tenant ^ 1 << bit for bit in (0, 8, 16, 31)), highest_first, *tenants):
                if other != tenant:
                    yield 13, self.read(good, row, 40, other)
        for row in (3, 4, MOST_ROWS, 1 << 32, (1 << 32) + 1, 1 << 63, MOST):
            yield 14, self.read(good, row, 40, tenants[row % 3])
        for length in (0, 1, 15, 16, 17, 32, 33):
            file = laid_out(self.entries(7, length, 3))
            wrong_tag = self.flipped(file, 8 * (len(file) - 3 - TAG) - 1)
            for out in (length, length + 1, length + 40):
                yield 0, self.read(file, 1, out)
                yield 7, self.read(wrong_tag, 1, out)
            for out in sorted({0, length - 1}) if length else ():
                yield 9, self.read(file, 1, out)
        yield from self.sizes_of_texts(lambda length, m: self.read(laid_out(self.entries(7, length)), 1, length, m=m))
        yield from self.spoilt_bodies()
        twice = self.entry(20)
        yield 0, self.read(laid_out([twice, self.entry(17, nonce=twice[0])]), 0, 20)
        yield 0, self.read(laid_out([twice, self.entry(17, nonce=twice[0])]), 1, 20)
        yield from self.other_states(self.read(good, 2, 40))

    def spoilt_bodies(self):
        """Number 7: a bit changed in what the tag covers, in the tag, and bodies that are other rows'."""
        file = laid_out(self.entries(20, 20))
        row, body = NUMBER.size, NUMBER.size + 2 * ROW.size
        for place in (row, row + NONCE - 1, row + FIELDS["tenant"], row + FIELDS["tenant"] + 3, body, body + 15, body + 19, body + 20, body + 35):
            yield 7, self.read(self.flipped(file, 8 * place + place % 7), 0, 23)
        for length, places in ((NONCE, (row, row + ROW.size)), (36, (body, body + 36))):
            for asked in range(2):
                yield 7, self.read(swapped(file, *places, length), asked, 23)
        yield 7, self.read(file, 0, 23)._replace(state=self.strange)

    def sizes_of_texts(self, call):
        """Exactly what m admits, and a byte more."""
        for m in (1, 2, 7):
            yield 0, call(limit(m), m)
            yield 5, call(limit(m) + 1, m)
        yield 0, call(limit(1) + 1, 2)

    def other_states(self, call):
        yield 2, call._replace(state=bytes(BUFFER.size))
        for state in (b"", call.state[:-1], call.state + b"\0", bytes(BUFFER.size - 1)):
            yield 40, call._replace(state=state)

    def additions(self):
        """The numbers of an addition behind 12, and 40."""
        several = self.entries(20, 0, 33)
        good = laid_out(several)
        for file, lengths in ((EMPTY, (0, 1, 15, 16, 17, 32, 33)), (good, (0, 20))):
            for length in lengths:
                for room in (LEAST + length, LEAST + length + 40):
                    yield 0, self.add(file, length, room)
                for room in (LEAST + length - 1, 0):
                    yield 16, self.add(file, length, room)
        for tenant in (0, 1, TOP, several[0][1]):
            yield 0 if tenant else 17, self.add(good, 5, tenant=tenant)
        for nonce, tenant, _ in several:
            yield 15, self.add(good, 5, nonce=nonce)
            yield 15, self.add(good, 5, tenant=tenant, nonce=nonce)
            for other in (nonce[:11], nonce + b"\0", nonce[1:], nonce[:6]):
                yield 3, self.add(good, 5, nonce=other)
            for place in (0, 11):
                yield 0, self.add(good, 5, nonce=self.flipped(nonce, 8 * place))
        for length in range(17):
            yield 0 if length == NONCE else 3, self.add(good, 5, nonce=self.random.randbytes(length))
        yield 0, self.add(good, 5, nonce=bytes(NONCE))
        twice = self.entry(20)
        yield 0, self.add(laid_out([twice, self.entry(17, nonce=twice[0])]), 5)
        yield from self.sizes_of_texts(lambda length, m: self.add(laid_out(self.entries(7)), length, m=m))
        yield from self.other_states(self.add(good, 5))

    def full(self):
        """Files of 255 to 257 rows, and of up to 65,537 bytes."""
        rows = self.entries(*[0] * (MOST_ROWS + 1))
        most, one_less = laid_out(rows[:MOST_ROWS]), laid_out(rows[: MOST_ROWS - 1])
        yield 0, self.read(most, MOST_ROWS - 1, 3)
        yield 14, self.read(most, MOST_ROWS, 3)
        yield 16, self.add(most, 5)
        yield 15, self.add(most, 5, nonce=rows[MOST_ROWS - 1][0])
        yield from self.either(10, laid_out(rows))
        yield 0, self.add(one_less, 5)
        longest = self.entries(100, MOST_BYTES - len(EMPTY) - 2 * LEAST - 100)
        yield 0, self.read(laid_out(longest), 0, 103)
        yield from self.either(10, laid_out([longest[0], self.entry(len(longest[1][2]) - TAG + 1)]))
        nearly = laid_out(self.entries(100, MOST_BYTES - len(EMPTY) - 3 * LEAST - 150))
        yield 0, self.add(nearly, 50, LEAST + 50)
        yield 16, self.add(nearly, 51, LEAST + 100)
        whole = MOST_BYTES - len(EMPTY) - LEAST
        yield 0, self.add(EMPTY, whole, m=12, behind=0)
        yield 0, self.read(laid_out(self.entries(whole)), 0, whole, behind=0)

    def to_spoil(self):
        """Small calls of each kind: done, refused, a wrong tag, a state buffer of another size."""
        file = laid_out(self.entries(2))
        read, no_room = self.read(file, 0, 3), self.add(EMPTY, 1, 1)
        yield 0, read
        yield 0, self.add(EMPTY, 1, behind=1)
        yield 7, self.read(self.flipped(file, 8 * len(file) - 1), 0, 3)
        yield 13, read._replace(tenant=0)
        yield 16, no_room
        for call in (read, no_room):
            yield 40, call._replace(state=call.state[:-1])

    # ---- several faults at once ----

    def faults(self, most):
        """Every choice of up to so many numbers of either order: the first of the order is given. A nonce cannot be of another length and a row's at once."""
        for order, make in ((READ_NUMBERS, self.faulty_read), (ADD_NUMBERS, self.faulty_add)):
            for count in range(most + 1):
                for faults in itertools.combinations(order, count):
                    if not {15, 3} <= {*faults}:
                        yield first_of(order, faults), make(faults)

    def faulty_read(self, faults):
        length = 33 if 5 in faults else 32
        asked = self.random.randrange(3)
        entries = self.entries(*self.random.choices(range(34), k=3))
        nonce, tenant, body = self.entry(length)
        entries[asked] = nonce, tenant, self.flipped(body) if 7 in faults else body
        out = length - self.random.choice((1, length)) if 9 in faults else length + self.random.choice((0, 1, 20))
        row = self.random.choice((3, 4, (1 << 32) + asked)) if 14 in faults else asked
        call = self.read(self.faulty_file(entries, faults), row, out, self.other_tenant(tenant) if 13 in faults else tenant, 1, self.random.choice((0, 3)))
        return self.with_fault_around(call, faults)

    def faulty_add(self, faults):
        length = 33 if 5 in faults else 32
        entries = self.entries(*self.random.choices(range(34), k=3))
        nonce = self.random.randbytes(self.random.choice((0, 6, 11, 13)) if 3 in faults else NONCE)
        if 15 in faults:
            nonce = self.random.choice(entries)[0]
        room = LEAST + length - self.random.choice((1, 20)) if 16 in faults else LEAST + length + self.random.choice((0, 3))
        call = self.add(self.faulty_file(entries, faults), length, room, 0 if 17 in faults else None, nonce, 1)
        return self.with_fault_around(call, faults)

    def other_tenant(self, tenant):
        return self.random.choice((tenant ^ 1, tenant ^ 1 << 31, 0))

    def faulty_file(self, entries, faults):
        """Three rows with numbers 11 and 12."""
        entries, row = list(entries), self.random.randrange(3)
        nonce, tenant, body = entries[row]
        clause = self.random.choice(("tenant", "length", "place", "end")) if 11 in faults else None
        if clause == "tenant":
            entries[row] = self.entry(len(body) - TAG, 0, nonce)
        if clause == "length":
            entries[row] = nonce, tenant, body[: self.random.randrange(TAG)]
        file = laid_out(entries)
        if clause == "place":
            file = with_number(file, field_of(row, "place"), rows_in(file)[row].place + self.random.choice((-1, 1)))
        if clause == "end":
            file = with_number(file, field_of(2, "length"), rows_in(file)[2].length + 100)
        return file + self.random.randbytes(self.random.choice((1, TAG)) if 12 in faults else 0)

    def with_fault_around(self, call, faults):
        """Numbers 10, 2 and 40."""
        if 10 in faults and self.random.random() < 0.5:
            call = call._replace(buffer=with_number(call.buffer, 0, self.random.choice(HUGE_COUNTS)))
        elif 10 in faults:
            call = call._replace(file_length=self.random.choice((0, 3, len(call.buffer) + 1, (1 << 32) + call.file_length)))
        if 2 in faults:
            call = call._replace(state=bytes(BUFFER.size))
        if 40 in faults:
            call = call._replace(state=self.random.choice((call.state[:-1], call.state + b"\0")))
        return call

    # ---- every bit, every length ----

    def bits(self):
        """Each bit of a small file changed; then each row is read by the tenant that now stands in it, and a row is added."""
        good = laid_out(self.entries(3, 17))
        for bit in range(8 * len(good)):
            file = self.flipped(good, bit)
            for row in range(2):
                yield None, self.read(file, row, 20)
            yield None, self.add(file, 5)

    def lengths(self):
        """Each length told of a small file, in a buffer that has it whole and in one that ends there; outputs, texts and rooms of each length."""
        good = laid_out(self.entries(3, 17))
        for length in range(len(good) + 20):
            number = 0 if length == len(good) else None
            yield from self.with_file_length(number, good, length)
            yield from self.either(number, (good + bytes(20))[:length])
        for length in range(70):
            file = laid_out(self.entries(length, 2))
            for out in (length, length + 1):
                yield 0, self.read(file, 0, out)
            yield 0, self.add(file, length)
            yield 0 if length >= 40 else 9, self.read(laid_out(self.entries(2, 40)), 1, length)
            yield 0 if length >= LEAST + 5 else 16, self.add(file, 5, length)

    def every_m(self):
        for m in ADMITTED_M:
            for length in (limit(m), limit(m) + 1) if m < 12 else (33, 4096):
                number = 5 if length > limit(m) else 0
                yield number, self.read(laid_out(self.entries(7, length)), 1, length, m=m)
                yield number, self.add(laid_out(self.entries(7)), length, m=m)

    # ---- random ones ----

    def random_kind(self):
        """The name of a kind, and some calls of it."""
        share = self.random.random()
        if share < 0.1:
            return "random, built by the library", self.run()
        if share < 0.35:
            return "random, built by Python", self.random_calls(*self.random_buffer())
        if share < 0.85:
            return "random, damaged", self.random_calls(*self.damaged(*self.random_buffer()))
        return "random, several faults", self.random_faults()

    def random_faults(self):
        """Late numbers of the order rather than early ones, which go before all others."""
        for order, make in ((READ_NUMBERS, self.faulty_read), (ADD_NUMBERS, self.faulty_add)):
            faults = self.random.sample(order[self.random.randrange(len(order) - 1) :], 2)
            if not {15, 3} <= {*faults}:
                yield first_of(order, faults), make(faults)

    def run(self):
        """Additions to what the last one left, from an empty file on, then every row read by its tenant and by others."""
        room = self.random.choice((300, 1500, 1500, 4000, 12000, MOST_BYTES - len(EMPTY), MOST_BYTES + 60))
        buffer, length = EMPTY + self.random.randbytes(room), len(EMPTY)
        for _ in range(MOST_ROWS + 10 if self.random.random() < 0.01 else self.random.randrange(1, 16)):
            left = yield None, self.random_addition(buffer, length)
            buffer, length = left.after, left.length
        for row, found in enumerate(rows_in(buffer)):
            out = self.random.choice((found.length - TAG, found.length))
            for tenant in (found.tenant, self.other_tenant(found.tenant)):
                yield None, Read(self.states[26], buffer, length, row, tenant, self.random.randbytes(min(max(out, 0), MOST_BYTES)))
        yield None, self.random_read(buffer, length)

    def random_calls(self, buffer, length):
        """A few calls on one file."""
        for _ in range(3):
            yield None, self.random.choice((self.random_read, self.random_read, self.random_addition))(buffer, length)

    def random_length(self):
        share = self.random.random()
        if share < 0.6:
            return max(0, 16 * self.random.randrange(5) + self.random.choice((-1, 0, 1)))
        return self.random.randrange(70) if share < 0.95 else self.random.randrange(3000)

    def random_buffer(self):
        """A good file in a buffer, and the file's length: few rows mostly, now and then about as many, or as many bytes, as there may be."""
        share = self.random.random()
        count = self.random.randrange(7) if share < 0.98 else MOST_ROWS + self.random.choice((-1, 0, 1))
        entries = self.entries(*(self.random_length() for _ in range(count)))
        if share < 0.01:
            entries.append(self.entry(MOST_BYTES - len(laid_out(entries)) - LEAST - self.random.choice((-1, 0, 1, LEAST, 100))))
        file = laid_out(entries)
        return file + self.random.randbytes(self.random.choice((0, 1, LEAST, LEAST + 16, 100, 200, 4000))), len(file)

    def random_state(self):
        share = self.random.random()
        if share < 0.02:
            return self.random.choice((b"", self.states[26][:-1], self.states[26] + b"\0"))
        if share < 0.05:
            return bytes(BUFFER.size)
        return self.states[self.random.choice((1, 2, 26, *ADMITTED_M))]

    def random_read(self, buffer, length):
        rows = rows_in(buffer)
        row = self.random.randrange(len(rows)) if rows else 0
        found = rows[row] if rows else Row(b"", 1, 0, TAG)
        tenant = found.tenant if self.random.random() < 0.92 else self.random.choice((0, 1, TOP, found.tenant ^ 1, self.tenant()))
        plain = min(max(found.length - TAG, 0), MOST_BYTES)
        out = self.random.choice((plain, plain, plain + 1, plain + 20, max(plain - 1, 0), self.random.randrange(100)))
        if self.random.random() < 0.06:
            row = self.random.choice((len(rows), len(rows) + 1, 1 << 32, row + (1 << 32), MOST))
        return Read(self.random_state(), buffer, length, row, tenant, self.random.randbytes(out))

    def random_addition(self, buffer, length):
        rows, share = rows_in(buffer), self.random.random()
        nonce = self.random.randbytes(NONCE)
        if share < 0.08 and rows:
            nonce = self.random.choice(rows).nonce
        elif share < 0.12:
            nonce = (self.random.choice(rows).nonce if rows else nonce)[: self.random.randrange(NONCE)]
        elif share < 0.15:
            nonce += self.random.randbytes(self.random.randrange(1, 5))
        text, fits = self.random_length(), min(MOST_BYTES, len(buffer)) - length - LEAST
        if self.random.random() < 0.15:
            text = max(0, fits + self.random.choice((-1, 0, 0, 1)))
        tenant = 0 if self.random.random() < 0.04 else self.tenant()
        return Add(self.random_state(), buffer, length, nonce, tenant, self.random.randbytes(text))

    def damaged(self, buffer, length):
        """A buffer and a file's length with one to three things wrong, or changed without harm."""
        damages = (self.with_flipped_bit, self.with_flipped_bit, self.with_other_field, self.with_other_field, self.with_other_length, self.with_swapped_parts)
        for damage in self.random.choices(damages, k=self.random.choice((1, 1, 2, 3))):
            buffer, length = damage(buffer, length)
        return buffer, length

    def with_flipped_bit(self, buffer, length):
        return (self.flipped(buffer) if buffer else buffer), length

    def with_other_field(self, buffer, length):
        """A number of the table is another one."""
        rows = rows_in(buffer)
        place = field_of(self.random.randrange(len(rows)), self.random.choice((*FIELDS,))) if rows and self.random.random() < 0.8 else 0
        if place + NUMBER.size > len(buffer):
            return buffer, length
        (right,) = NUMBER.unpack_from(buffer, place)
        near = right + self.random.choice((-ROW.size, -TAG, -1, 1, TAG, ROW.size, 1 << 31))
        number = self.random.choice((near, near, near, 0, TAG - 1, TAG, MOST_ROWS, length, -right, TOP, self.random.choice(HUGE_COUNTS)))
        return with_number(buffer, place, number & TOP), length

    def with_other_length(self, buffer, length):
        share = self.random.random()
        if share < 0.3:
            return buffer[: self.random.randrange(len(buffer) + 1)], length
        if share < 0.6:
            return buffer, min(max(0, length + self.random.choice((-TAG, -1, 1, TAG))), MOST)
        if share < 0.8:
            return buffer, self.random.randrange(length + 1)
        return buffer, self.random.choice((len(buffer), len(buffer) + 1, (1 << 32) + len(buffer), *HUGE_LENGTHS))

    def with_swapped_parts(self, buffer, length):
        """Two rows exchanged, or their nonces, tenants or lengths, or their bodies as far as both go; or one row's nonce in both."""
        rows = rows_in(buffer)
        if len(rows) < 2:
            return buffer, length
        one, other = self.random.sample(range(len(rows)), 2)
        share = self.random.random()
        if share < 0.25:
            size = min(rows[one].length, rows[other].length)
            return swapped(buffer, rows[one].place, rows[other].place, size), length
        starts = [NUMBER.size + ROW.size * row for row in (one, other)]
        if share < 0.5:
            return buffer[: starts[1]] + rows[one].nonce + buffer[starts[1] + NONCE :], length
        offset, size = self.random.choice(((0, ROW.size), (0, NONCE), (FIELDS["tenant"], NUMBER.size), (FIELDS["length"], NUMBER.size)))
        return swapped(buffer, starts[0] + offset, starts[1] + offset, size), length

"""OCB3 over AES under a state that is given as it is: round keys, the number of rounds, L_*, L_$, m and the table of L values, whether a key made them or
not. Written from FIPS 197 and RFC 7253 alone, a block at a time; no table is taken from the port. Neither the crate nor OpenSSL can be asked about such
states, so what is here answers for them. `check` holds the cipher to FIPS 197's own examples; states that a key made can be held to OpenSSL."""

import struct
from typing import NamedTuple

from cases import Answer
from script import Trouble

# ---- FIPS 197


def times(a, b):
    """The product in GF(2^8)."""
    product = 0
    while b:
        product ^= a * (b & 1)
        a = a << 1 ^ (a >> 7) * 0x11B
        b >>= 1
    return product


def sbox_entry(value):
    """The inverse, which is the power 254, and the affine map behind it."""
    inverse = 1
    for _ in range(254):
        inverse = times(inverse, value)
    turned = 0x63
    for turn in range(5):
        turned ^= inverse << turn & 0xFF | inverse >> 8 - turn
    return turned


SBOX = bytes(map(sbox_entry, range(256)))
INVERSE_SBOX = bytes(map(SBOX.index, range(256)))
MIX = (2, 3, 1, 1)
INVERSE_MIX = (14, 11, 13, 9)
PRODUCTS = {factor: bytes(times(factor, value) for value in range(256)) for factor in {*MIX, *INVERSE_MIX}}


def split(round_keys):
    return [round_keys[i : i + 16] for i in range(0, len(round_keys), 16)]


def xor(a, b):
    return bytes(x ^ y for x, y in zip(a, b))


def shifted(block, way):
    """Row r of the state turned by r columns: left for 1, right for -1. Byte r + 4c stands in row r and column c."""
    return bytes(block[place % 4 + 4 * ((place // 4 + way * (place % 4)) % 4)] for place in range(16))


def mixed(block, factors):
    out = bytearray(16)
    for place in range(16):
        row, column = place % 4, place // 4 * 4
        for other in range(4):
            out[place] ^= PRODUCTS[factors[(other - row) % 4]][block[column + other]]
    return bytes(out)


def encipher(round_keys, block):
    """As many rounds as there are round keys behind the first."""
    first, *middle, last = split(round_keys)
    block = xor(block, first)
    for key in middle:
        block = xor(mixed(shifted(block.translate(SBOX), 1), MIX), key)
    return xor(shifted(block.translate(SBOX), 1), last)


def decipher(round_keys, block):
    first, *middle, last = split(round_keys)
    block = xor(block, last)
    for key in reversed(middle):
        block = mixed(xor(shifted(block, -1).translate(INVERSE_SBOX), key), INVERSE_MIX)
    return xor(shifted(block, -1).translate(INVERSE_SBOX), first)


def expanded(key):
    """The round keys of a key of 16, 24 or 32 bytes."""
    words, constant = [key[i : i + 4] for i in range(0, len(key), 4)], 1
    key_words = len(words)
    while len(words) < 4 * (key_words + 7):  # four for each of key_words + 6 rounds, and four more
        word = words[-1]
        if len(words) % key_words == 0:
            word = xor((word[1:] + word[:1]).translate(SBOX), bytes([constant, 0, 0, 0]))
            constant = times(constant, 2)
        elif key_words > 6 and len(words) % key_words == 4:
            word = word.translate(SBOX)
        words.append(xor(words[-key_words], word))
    return b"".join(words)


# appendix A.1 to A.3: a key and its last round key
LAST_ROUND_KEYS = (
    ("2b7e151628aed2a6abf7158809cf4f3c", "d014f9a8c9ee2589e13f0cc8b6630ca6"),
    ("8e73b0f7da0e6452c810f32b809079e562f8ead2522c6b7b", "e98ba06f448c773c8ecc720401002202"),
    ("603deb1015ca71be2b73aef0857d77811f352c073b6108d72d9810a30914dff4", "fe4890d1e6188d0b046df344706c631e"),
)
# appendix B and C.1 to C.3: key, plaintext and ciphertext of a block
BLOCKS = (
    ("2b7e151628aed2a6abf7158809cf4f3c", "3243f6a8885a308d313198a2e0370734", "3925841d02dc09fbdc118597196a0b32"),
    (bytes(range(16)).hex(), "00112233445566778899aabbccddeeff", "69c4e0d86a7b0430d8cdb78070b4c55a"),
    (bytes(range(24)).hex(), "00112233445566778899aabbccddeeff", "dda97ca4864cdfe06eaf70a0ec0d7191"),
    (bytes(range(32)).hex(), "00112233445566778899aabbccddeeff", "8ea2b7ca516745bfeafc49904b496089"),
)


def check():
    """Trouble where one of FIPS 197's examples comes out otherwise; the blocks go both ways."""
    right = all(expanded(bytes.fromhex(key))[-16:].hex() == last for key, last in LAST_ROUND_KEYS)
    for example in BLOCKS:
        key, plain, cipher = map(bytes.fromhex, example)
        right = right and encipher(expanded(key), plain) == cipher and decipher(expanded(key), cipher) == plain
    if not right:
        raise Trouble("the model's cipher does not give FIPS 197's examples")


# ---- RFC 7253


def double(block):
    number = int.from_bytes(block, "big") << 1
    return (number ^ (number >> 128) * (1 << 128 | 0x87)).to_bytes(16, "big")


BUFFER = struct.Struct(">240sQ16s16sQ432s")  # a state as it lies in the buffer that crate ocb_c takes


class State(NamedTuple):
    round_keys: bytes
    rounds: int
    star: bytes
    dollar: bytes
    m: int
    table: bytes

    def buffer(self):
        return BUFFER.pack(*self)

    def used_keys(self):
        """The round keys that so many rounds use."""
        return self.round_keys[: 16 * (self.rounds + 1)]

    def entry(self, i):
        """L at the number of trailing zeros of i."""
        place = (i & -i).bit_length() - 1
        return self.table[16 * place : 16 * place + 16]


def made(key, m):
    """The state that set-up makes of a key, with L_0 to L_m."""
    keys = expanded(key)
    star = encipher(keys, bytes(16))
    dollar = double(star)
    entries = [double(dollar)]
    while len(entries) <= m:
        entries.append(double(entries[-1]))
    return State(keys.ljust(240, b"\0"), len(keys) // 16 - 1, star, dollar, m, b"".join(entries).ljust(432, b"\0"))


def first_offset(state, nonce, tag_length):
    block = (8 * tag_length % 128 << 121 | 1 << 8 * len(nonce) | int.from_bytes(nonce, "big")).to_bytes(16, "big")
    bottom = block[15] & 63
    top = encipher(state.used_keys(), block[:15] + bytes([block[15] & 0xC0]))
    stretch = int.from_bytes(top + xor(top[:8], top[1:9]), "big")
    return (stretch >> 64 - bottom & (1 << 128) - 1).to_bytes(16, "big")


def padded(part):
    return (part + b"\x80").ljust(16, b"\0")


def blocks_of(text):
    """The whole blocks, counted from 1, and the rest."""
    whole = len(text) // 16
    return [(i + 1, text[16 * i : 16 * i + 16]) for i in range(whole)], text[16 * whole :]


def hashed(state, data):
    total, offset = bytes(16), bytes(16)
    blocks, rest = blocks_of(data)
    for i, block in blocks:
        offset = xor(offset, state.entry(i))
        total = xor(total, encipher(state.used_keys(), xor(block, offset)))
    if rest:
        offset = xor(offset, state.star)
        total = xor(total, encipher(state.used_keys(), xor(padded(rest), offset)))
    return total


def run(state, is_open, nonce, data, text, tag_length):
    """The text deciphered or enciphered, and the tag."""
    cipher = decipher if is_open else encipher
    offset, checksum, out = first_offset(state, nonce, tag_length), bytes(16), b""
    blocks, rest = blocks_of(text)
    for i, block in blocks:
        offset = xor(offset, state.entry(i))
        result = xor(cipher(state.used_keys(), xor(block, offset)), offset)
        checksum = xor(checksum, result if is_open else block)
        out += result
    if rest:
        offset = xor(offset, state.star)
        result = xor(rest, encipher(state.used_keys(), offset))
        checksum = xor(checksum, padded(result if is_open else rest))
        out += result
    last = encipher(state.used_keys(), xor(xor(checksum, offset), state.dollar))
    return out, xor(last, hashed(state, data))[:tag_length]


def answer(state, is_open, nonce, data, text, tag):
    """The answer to a call whose sizes are admitted."""
    calls = -(-len(text) // 16) + -(-len(data) // 16) + 2
    out, right = run(state, is_open, nonce, data, text, len(tag))
    if is_open and right != tag:
        return Answer(7, calls, bytes(len(text)), tag)
    return Answer(0, calls, out, tag if is_open else right)

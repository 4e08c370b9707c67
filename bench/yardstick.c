/* See yardstick.h. Words hold bytes as a little-endian machine has them, the first lowest. */
#include "yardstick.h"
#include <string.h>

#if __BYTE_ORDER__ != __ORDER_LITTLE_ENDIAN__
#error "the yardstick is written for little-endian machines"
#endif

/* ---- the tables, made once from the field */

static uint8_t sbox[256], inverse[256];
static uint32_t e0[256], e1[256], e2[256], e3[256]; /* SubBytes and MixColumns of a byte in row 0 to 3 */
static uint32_t d0[256], d1[256], d2[256], d3[256]; /* InvSubBytes and InvMixColumns */

static uint8_t times(uint8_t a, uint8_t b) {
    uint8_t product = 0;
    for (; b; b >>= 1, a = (uint8_t)(a << 1 ^ (a >> 7) * 0x1b))
        if (b & 1) product ^= a;
    return product;
}

static uint32_t turned(uint32_t w, int bits) { return w << bits | w >> (32 - bits); }

static uint32_t column(uint8_t a, uint8_t b, uint8_t c, uint8_t d) {
    return (uint32_t)a | (uint32_t)b << 8 | (uint32_t)c << 16 | (uint32_t)d << 24;
}

static void make_tables(void) {
    for (int x = 0; x < 256; x++) {
        uint8_t i = 1;
        for (int k = 0; k < 254; k++) i = times(i, (uint8_t)x); /* x to the power 254 is its inverse */
        sbox[x] = (uint8_t)(i ^ (i << 1 | i >> 7) ^ (i << 2 | i >> 6) ^ (i << 3 | i >> 5) ^ (i << 4 | i >> 4) ^ 0x63);
    }
    for (int x = 0; x < 256; x++) inverse[sbox[x]] = (uint8_t)x;
    for (int x = 0; x < 256; x++) {
        uint8_t s = sbox[x], i = inverse[x];
        e0[x] = column(times(s, 2), s, s, times(s, 3));
        d0[x] = column(times(i, 14), times(i, 9), times(i, 13), times(i, 11));
        e1[x] = turned(e0[x], 8), e2[x] = turned(e0[x], 16), e3[x] = turned(e0[x], 24);
        d1[x] = turned(d0[x], 8), d2[x] = turned(d0[x], 16), d3[x] = turned(d0[x], 24);
    }
}

/* ---- blocks: two words of 64 bits as they lie in memory */

typedef struct { uint64_t a, b; } block;

static block load(const void *p) { block x; memcpy(&x, p, 16); return x; }
static void store(void *p, block x) { memcpy(p, &x, 16); }
static block xor2(block x, block y) { return (block){x.a ^ y.a, x.b ^ y.b}; }

static uint32_t low(uint64_t x) { return (uint32_t)x; }
static uint32_t high(uint64_t x) { return (uint32_t)(x >> 32); }
static uint64_t joined(uint32_t low, uint32_t high) { return (uint64_t)high << 32 | low; }

static uint64_t load_be(const uint8_t *p) { uint64_t n = 0; for (int i = 0; i < 8; i++) n = n << 8 | p[i]; return n; }
static void store_be(uint8_t *p, uint64_t n) { for (int i = 7; i >= 0; i--, n >>= 8) p[i] = (uint8_t)n; }

/* ---- the cipher and its inverse */

#define ROUND(t0, t1, t2, t3, a, b, c, d, k) (t0[(a) & 255] ^ t1[(b) >> 8 & 255] ^ t2[(c) >> 16 & 255] ^ t3[(d) >> 24] ^ (k))
#define LAST_OF_WORDS(a, b, c, d, k) \
    ((e2[(a) & 255] & 0xff) ^ (e3[(b) >> 8 & 255] & 0xff00) ^ (e0[(c) >> 16 & 255] & 0xff0000) ^ (e1[(d) >> 24] & 0xff000000) ^ (k))
#define LAST(box, a, b, c, d, k) (column(box[(a) & 255], box[(b) >> 8 & 255], box[(c) >> 16 & 255], box[(d) >> 24]) ^ (k))

static block encipher(const uint32_t *k, block x) {
    uint32_t a = low(x.a) ^ k[0], b = high(x.a) ^ k[1], c = low(x.b) ^ k[2], d = high(x.b) ^ k[3];
    for (int r = 1; r < 10; r++) {
        k += 4;
        uint32_t s = ROUND(e0, e1, e2, e3, a, b, c, d, k[0]), t = ROUND(e0, e1, e2, e3, b, c, d, a, k[1]);
        uint32_t u = ROUND(e0, e1, e2, e3, c, d, a, b, k[2]), v = ROUND(e0, e1, e2, e3, d, a, b, c, k[3]);
        a = s, b = t, c = u, d = v;
    }
    return (block){joined(LAST_OF_WORDS(a, b, c, d, k[4]), LAST_OF_WORDS(b, c, d, a, k[5])),
                   joined(LAST_OF_WORDS(c, d, a, b, k[6]), LAST_OF_WORDS(d, a, b, c, k[7]))};
}

static block decipher(const uint32_t *k, block x) {
    uint32_t a = low(x.a) ^ k[40], b = high(x.a) ^ k[41], c = low(x.b) ^ k[42], d = high(x.b) ^ k[43];
    for (int r = 9; r > 0; r--) {
        const uint32_t *q = k + 4 * r;
        uint32_t s = ROUND(d0, d1, d2, d3, a, d, c, b, q[0]), t = ROUND(d0, d1, d2, d3, b, a, d, c, q[1]);
        uint32_t u = ROUND(d0, d1, d2, d3, c, b, a, d, q[2]), v = ROUND(d0, d1, d2, d3, d, c, b, a, q[3]);
        a = s, b = t, c = u, d = v;
    }
    return (block){joined(LAST(inverse, a, d, c, b, k[0]), LAST(inverse, b, a, d, c, k[1])),
                   joined(LAST(inverse, c, b, a, d, k[2]), LAST(inverse, d, c, b, a, k[3]))};
}

static void expand(struct yardstick *y, const uint8_t key[16]) {
    uint32_t *w = y->forward;
    uint8_t rcon = 1;
    memcpy(w, key, 16);
    for (int i = 4; i < 44; i++) {
        uint32_t t = w[i - 1];
        if (i % 4 == 0) {
            t = column(sbox[t >> 8 & 255], sbox[t >> 16 & 255], sbox[t >> 24], sbox[t & 255]) ^ rcon;
            rcon = times(rcon, 2);
        }
        w[i] = w[i - 4] ^ t;
    }
    for (int i = 0; i < 44; i++) {
        uint32_t v = w[i];
        int inner = 4 <= i && i < 40; /* the inner keys go through InvMixColumns */
        y->backward[i] = inner ? d0[sbox[v & 255]] ^ d1[sbox[v >> 8 & 255]] ^ d2[sbox[v >> 16 & 255]] ^ d3[sbox[v >> 24]] : v;
    }
}

/* ---- RFC 7253 */

static void doubled(const uint64_t from[2], uint64_t to[2]) {
    uint8_t p[16];
    memcpy(p, from, 16);
    uint64_t high = load_be(p), low = load_be(p + 8);
    store_be(p, high << 1 | low >> 63), store_be(p + 8, low << 1 ^ (high >> 63) * 0x87);
    memcpy(to, p, 16);
}

void yardstick_set_up(struct yardstick *y, const uint8_t key[16]) {
    if (!sbox[0]) make_tables();
    expand(y, key);
    store(y->star, encipher(y->forward, (block){0, 0}));
    doubled(y->star, y->dollar);
    doubled(y->dollar, y->l[0]);
    for (int i = 1; i < 32; i++) doubled(y->l[i - 1], y->l[i]);
}

static block first_offset(const struct yardstick *y, const uint8_t nonce[12]) {
    uint8_t p[16] = {0, 0, 0, 1};
    memcpy(p + 4, nonce, 12);
    int bottom = p[15] & 63;
    p[15] &= 192;
    store(p, encipher(y->forward, load(p)));
    uint64_t a = load_be(p), b = load_be(p + 8), c = a ^ (a << 8 | b >> 56);
    if (bottom) a = a << bottom | b >> (64 - bottom), b = b << bottom | c >> (64 - bottom);
    store_be(p, a), store_be(p + 8, b);
    return load(p);
}

static block padded(const uint8_t *p, size_t n) {
    uint8_t q[16] = {0};
    memcpy(q, p, n);
    q[n] = 0x80;
    return load(q);
}

static block next_l(const struct yardstick *y, size_t i) { return load(y->l[__builtin_ctzll(i)]); }

static block hash(const struct yardstick *y, const uint8_t *data, size_t length) {
    block offset = {0, 0}, sum = {0, 0};
    size_t n = length / 16;
    for (size_t i = 1; i <= n; i++, data += 16) {
        offset = xor2(offset, next_l(y, i));
        sum = xor2(sum, encipher(y->forward, xor2(load(data), offset)));
    }
    if (length % 16) sum = xor2(sum, encipher(y->forward, xor2(padded(data, length % 16), xor2(offset, load(y->star)))));
    return sum;
}

static block tag_of(const struct yardstick *y, block sum, block offset, const uint8_t *data, size_t length) {
    return xor2(encipher(y->forward, xor2(xor2(sum, offset), load(y->dollar))), hash(y, data, length));
}

/* the last part, in place; its pad comes from the forward cipher both ways */
static block part(const struct yardstick *y, block offset, uint8_t *text, size_t n) {
    uint8_t pad[16];
    offset = xor2(offset, load(y->star));
    store(pad, encipher(y->forward, offset));
    for (size_t i = 0; i < n; i++) text[i] ^= pad[i];
    return offset;
}

void yardstick_seal(const struct yardstick *y, const uint8_t nonce[12], const uint8_t *data, size_t data_length, uint8_t *text,
                    size_t text_length, uint8_t tag[16]) {
    block offset = first_offset(y, nonce), sum = {0, 0};
    size_t n = text_length / 16, i = 1;
    for (; i < n; i += 2, text += 32) { /* two at a time; the first of them, of an odd number, takes L_0 */
        block x = load(text), z = load(text + 16), o = xor2(offset, load(y->l[0]));
        offset = xor2(o, next_l(y, i + 1));
        sum = xor2(sum, xor2(x, z));
        store(text, xor2(o, encipher(y->forward, xor2(x, o))));
        store(text + 16, xor2(offset, encipher(y->forward, xor2(z, offset))));
    }
    if (i == n) {
        block x = load(text);
        offset = xor2(offset, next_l(y, n));
        sum = xor2(sum, x);
        store(text, xor2(offset, encipher(y->forward, xor2(x, offset))));
        text += 16;
    }
    if (text_length % 16) {
        sum = xor2(sum, padded(text, text_length % 16));
        offset = part(y, offset, text, text_length % 16);
    }
    store(tag, tag_of(y, sum, offset, data, data_length));
}

int yardstick_open(const struct yardstick *y, const uint8_t nonce[12], const uint8_t *data, size_t data_length, uint8_t *text,
                   size_t text_length, const uint8_t tag[16]) {
    block offset = first_offset(y, nonce), sum = {0, 0};
    uint8_t *at = text;
    size_t n = text_length / 16;
    for (size_t i = 1; i <= n; i++, at += 16) {
        offset = xor2(offset, next_l(y, i));
        block x = xor2(offset, decipher(y->backward, xor2(load(at), offset)));
        sum = xor2(sum, x);
        store(at, x);
    }
    if (text_length % 16) {
        offset = part(y, offset, at, text_length % 16);
        sum = xor2(sum, padded(at, text_length % 16));
    }
    block difference = xor2(tag_of(y, sum, offset, data, data_length), load(tag));
    if (!(difference.a | difference.b)) return 1;
    memset(text, 0, text_length);
    return 0;
}

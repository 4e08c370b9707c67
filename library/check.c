/* What only a caller from C can get wrong, or what only include/ocb.h adds: keys and state buffers of other lengths, states of any bytes, NULL for
 * nothing, the texts of the numbers; an answer known from elsewhere for each key length, for the most that m = 1 admits and for a spill file; the L
 * values that a state has for each m; and each number of a spill file's functions, in its order. Ends with status 1 at the first wrong answer. It is
 * C and C++, to be linked with the linker's --wrap=.. for each of the functions __wrap_.. below: every call of the archive then goes through them. */
#include <ocb.h>
#include <stdio.h>
#include <stdlib.h>
#include <string.h>

enum { STATE = OCB_STATE_SIZE, TEXT = 40 };
enum { ROUNDS = 240, M = 280 };     /* where a state has its rounds and its m, 8 bytes each, the highest byte first */
enum { DOLLAR = 264, TABLE = 288 }; /* and L_$ and its L values from L_0 on, 16 bytes each */

static void expect(int holds, const char *what) {
    if (holds) return;
    fprintf(stderr, "check: %s\n", what);
    exit(1);
}

/* Whether a NULL reaches the archive. */
#define SLICES \
    const uint8_t *state, size_t state_length, const uint8_t *nonce, size_t nonce_length, const uint8_t *data, size_t data_length, \
        uint8_t *text, size_t text_length
#define READING \
    const uint8_t *state, size_t state_length, const uint8_t *buffer, size_t buffer_length, size_t file_length, size_t row, uint32_t tenant, \
        uint8_t *out, size_t out_length, size_t *written, size_t *calls
#define ADDING \
    const uint8_t *state, size_t state_length, uint8_t *buffer, size_t buffer_length, size_t file_length, const uint8_t *nonce, \
        size_t nonce_length, uint32_t tenant, const uint8_t *text, size_t text_length, size_t *new_length, size_t *calls
#ifdef __cplusplus
extern "C" {
#endif
size_t __real_ocb_set_up(uint8_t *state, size_t state_length, const uint8_t *key, size_t key_length, size_t m);
size_t __real_ocb_seal(SLICES, uint8_t *tag, size_t tag_length, size_t *calls);
size_t __real_ocb_open(SLICES, const uint8_t *tag, size_t tag_length, size_t *calls);
size_t __real_spill_read(READING);
size_t __real_spill_add(ADDING);
size_t __wrap_ocb_set_up(uint8_t *state, size_t state_length, const uint8_t *key, size_t key_length, size_t m) {
    expect(state && key, "a NULL reached ocb_set_up");
    return __real_ocb_set_up(state, state_length, key, key_length, m);
}
size_t __wrap_ocb_seal(SLICES, uint8_t *tag, size_t tag_length, size_t *calls) {
    expect(state && nonce && data && text && tag, "a NULL reached ocb_seal");
    return __real_ocb_seal(state, state_length, nonce, nonce_length, data, data_length, text, text_length, tag, tag_length, calls);
}
size_t __wrap_ocb_open(SLICES, const uint8_t *tag, size_t tag_length, size_t *calls) {
    expect(state && nonce && data && text && tag, "a NULL reached ocb_open");
    return __real_ocb_open(state, state_length, nonce, nonce_length, data, data_length, text, text_length, tag, tag_length, calls);
}
size_t __wrap_spill_read(READING) {
    expect(state && buffer && out, "a NULL reached spill_read");
    return __real_spill_read(state, state_length, buffer, buffer_length, file_length, row, tenant, out, out_length, written, calls);
}
size_t __wrap_spill_add(ADDING) {
    expect(state && buffer && nonce && text, "a NULL reached spill_add");
    return __real_spill_add(state, state_length, buffer, buffer_length, file_length, nonce, nonce_length, tenant, text, text_length, new_length,
                            calls);
}
#ifdef __cplusplus
}
#endif

static uint32_t seed = 1;
static uint8_t any(void) { return (uint8_t)((seed = seed * 1664525u + 1013904223u) >> 24); }

static const uint8_t counting[TEXT] = {0,  1,  2,  3,  4,  5,  6,  7,  8,  9,  10, 11, 12, 13, 14, 15, 16, 17, 18, 19,
                                       20, 21, 22, 23, 24, 25, 26, 27, 28, 29, 30, 31, 32, 33, 34, 35, 36, 37, 38, 39};
static const uint8_t *const key = counting;
static const uint8_t nonce[12] = {0xbb, 0xaa, 0x99, 0x88, 0x77, 0x66, 0x55, 0x44, 0x33, 0x22, 0x11, 0x00};
static const uint8_t data[4] = {3};
static const uint8_t zeros[STATE] = {0};

/* 16, 24 and 32 bytes are taken; every other length is refused with 1, also where m is refused too. What is refused leaves zeros. */
static void lengths_of_the_key(void) {
    uint8_t longest[64], state[STATE];
    memset(longest, 6, sizeof longest);
    for (size_t n = 0; n <= sizeof longest; n++) {
        int taken = n == 16 || n == 24 || n == 32;
        size_t with_places = taken ? OCB_DONE : OCB_KEY_SIZE, without = taken ? OCB_PLACES : OCB_KEY_SIZE;
        memset(state, 5, sizeof state);
        expect(ocb_set_up(state, STATE, longest, n, 27) == without && !memcmp(state, zeros, STATE), "set up with m = 27 and a key of some length");
        memset(state, 5, sizeof state);
        expect(ocb_set_up(state, STATE, longest, n, 26) == with_places, "set up with a key of some length");
        expect(taken || !memcmp(state, zeros, STATE), "a key of another length left no zeros");
    }
}

/* Whether a text and its tag of 16 bytes are these in hexadecimal, the tag behind the text. */
static int are(const uint8_t *text, size_t length, const uint8_t *tag, const char *sealed) {
    char hex[2 * (TEXT + 16) + 1];
    for (size_t i = 0; i < length + 16; i++) snprintf(hex + 2 * i, 3, "%02x", i < length ? text[i] : tag[i - length]);
    return !strcmp(hex, sealed);
}

/* 40 bytes of text and of data under a key of each length, which count up from 0. The first answer is RFC 7253's, appendix A. It has no samples of
 * the longer keys: their answers are OpenSSL 3.0.19's (EVP_aes_192_ocb, EVP_aes_256_ocb), and libgcrypt 1.10.1 gives the same. */
static void an_answer_for_each_key_length(void) {
    const struct {
        size_t key_length;
        const char *sealed; /* the text, the tag behind it */
    } rows[] = {
        {16, "d5ca91748410c1751ff8a2f618255b68a0a12e093ff454606e59f9c1d0ddc54b65e8628e568bad7aed07ba06a4a69483a7035490c5769e60"},
        {24, "86b418c98b14be157cad07cf20189dc87a9e6fd19a07bec6d6acef811d9a860c9671666bf650dd2b6e9ca93fc80b9dcf1b25ae2fda9b2520"},
        {32, "4cf8f8f885db86893ff518086d149f0c1546ebef5cc9a1dec375ea2770754b1f595448474b661dd37e1a5a800d577bf389b87b957d316209"},
    };
    uint8_t state[STATE], text[TEXT], tag[16], sample[12];
    size_t calls;
    memcpy(sample, nonce, 12), sample[11] = 0x0d;
    for (size_t i = 0; i < sizeof rows / sizeof *rows; i++) {
        expect(ocb_set_up(state, STATE, key, rows[i].key_length, 26) == OCB_DONE, "set up refused");
        memcpy(text, counting, TEXT);
        expect(ocb_seal(state, STATE, sample, 12, counting, TEXT, text, TEXT, tag, 16, &calls) == OCB_DONE && calls == 8, "seal of 40 bytes");
        expect(are(text, TEXT, tag, rows[i].sealed), "seal of 40 bytes gave something else");
        expect(ocb_open(state, STATE, sample, 12, counting, TEXT, text, TEXT, tag, 16, &calls) == OCB_DONE && calls == 8, "open of 40 bytes");
        expect(!memcmp(text, counting, TEXT), "opening did not undo sealing");
    }
}

/* m = 1 admits 32 bytes of text and of data, whose second block uses L_1: the answer is RFC 7253's, appendix A. Of either 33 are refused. */
static void the_most_that_m_admits(void) {
    const struct {
        size_t text, data, number;
    } refused[] = {{33, 0, OCB_TEXT_SIZE}, {33, 33, OCB_TEXT_SIZE}, {32, 33, OCB_DATA_SIZE}, {0, 33, OCB_DATA_SIZE}};
    uint8_t state[STATE], text[TEXT], tag[16], sample[12];
    size_t calls;
    memcpy(sample, nonce, 12), sample[11] = 0x0a;
    memcpy(text, counting, TEXT);
    expect(ocb_set_up(state, STATE, key, 16, 1) == OCB_DONE, "set up refused");
    expect(ocb_seal(state, STATE, sample, 12, counting, 32, text, 32, tag, 16, &calls) == OCB_DONE && calls == 6, "m = 1: seal of 32 bytes");
    expect(are(text, 32, tag, "bd6f6c496201c69296c11efd138a467abd3c707924b964deaffc40319af5a48540fbba186c5553c68ad9f592a79a4240"),
           "m = 1: seal of 32 bytes gave something else");
    expect(ocb_open(state, STATE, sample, 12, counting, 32, text, 32, tag, 16, &calls) == OCB_DONE && calls == 6, "m = 1: open of 32 bytes");
    expect(!memcmp(text, counting, TEXT), "opening did not undo sealing");
    memset(tag, 6, sizeof tag);
    for (size_t i = 0; i < sizeof refused / sizeof *refused; i++) {
        size_t n = refused[i].text, d = refused[i].data, wanted = refused[i].number;
        calls = 9;
        expect(ocb_seal(state, STATE, sample, 12, counting, d, text, n, tag, 16, &calls) == wanted && calls == 0, "m = 1: seal of 33 bytes");
        calls = 9;
        expect(ocb_open(state, STATE, sample, 12, counting, d, text, n, tag, 16, &calls) == wanted && calls == 0, "m = 1: open of 33 bytes");
        expect(!memcmp(text, counting, TEXT) && tag[0] == 6 && tag[15] == 6, "a refusal changed something");
    }
}

/* double of RFC 7253, section 2, in place. */
static void doubled(uint8_t block[16]) {
    int carry = block[0] >> 7;
    for (size_t i = 0; i < 15; i++) block[i] = (uint8_t)(block[i] << 1 | block[i + 1] >> 7);
    block[15] = (uint8_t)(block[15] << 1 ^ carry * 0x87);
}

/* L_0 is L_$ doubled, and each up to L_m is the one before it doubled (RFC 7253, section 4.1); the later of the 27 places are zero. */
static void places_of_a_state(void) {
    uint8_t state[STATE], l[16];
    for (size_t m = 1; m <= 26; m++) {
        expect(ocb_set_up(state, STATE, key, 16, m) == OCB_DONE, "set up refused");
        memcpy(l, state + DOLLAR, 16);
        for (size_t i = 0; i < 27; i++) {
            doubled(l);
            expect(!memcmp(state + TABLE + 16 * i, i <= m ? l : zeros, 16), "a place of the table has something else");
        }
    }
}

static void lengths_of_the_state(void) {
    const size_t wrong[] = {0, 1, STATE - 1, STATE + 1};
    uint8_t state[STATE + 1], before[STATE + 1], text[TEXT], tag[16];
    size_t calls, length;

    expect(ocb_state_size() == STATE, "ocb_state_size is not the header's");
    for (size_t i = 0; i < sizeof state; i++) state[i] = any();
    memcpy(before, state, sizeof state);
    memset(text, 5, sizeof text), memset(tag, 6, sizeof tag);
    for (size_t i = 0; i < sizeof wrong / sizeof *wrong; i++) {
        size_t n = wrong[i];
        expect(ocb_set_up(state, n, key, 15, 0) == OCB_STATE_LENGTH, "set up took a state buffer of another length");
        calls = 9;
        expect(ocb_seal(state, n, nonce, 0, data, 4, text, TEXT, tag, 0, &calls) == OCB_STATE_LENGTH && calls == 0, "seal took it");
        calls = 9;
        expect(ocb_open(state, n, nonce, 0, data, 4, text, TEXT, tag, 0, &calls) == OCB_STATE_LENGTH && calls == 0, "open took it");
        calls = length = 9;
        expect(spill_read(state, n, tag, 16, 17, 0, 0, text, TEXT, &length, &calls) == OCB_STATE_LENGTH && calls == 0, "spill_read took it");
        expect(length == 0, "spill_read took it and wrote");
        calls = length = 9;
        expect(spill_add(state, n, tag, 16, 17, nonce, 0, 0, text, TEXT, &length, &calls) == OCB_STATE_LENGTH && calls == 0, "spill_add took it");
        expect(length == 17, "spill_add took it and gave another length");
    }
    expect(!memcmp(state, before, sizeof state) && text[0] == 5 && text[TEXT - 1] == 5 && tag[0] == 6 && tag[15] == 6, "a refusal changed something");

    expect(ocb_set_up(state, STATE, key, 15, 26) == OCB_KEY_SIZE && !memcmp(state, zeros, sizeof zeros), "number 1 left no zeros");
    expect(ocb_seal(state, STATE, nonce, 12, data, 4, text, TEXT, tag, 16, &calls) == OCB_PLACES, "a refused state was taken");
    expect(state[STATE] == before[STATE], "the byte behind the state was changed");
}

/* Every number of rounds below 16 and every m below 32, as they are and with a higher byte that is not zero. */
static void any_bytes_as_a_state(void) {
    uint8_t state[STATE], text[TEXT], tag[16];
    size_t calls;
    for (unsigned k = 0; k < 3 * 16 * 32; k++) {
        unsigned higher = k / (16 * 32), rounds = k / 32 % 16, m = k % 32;
        for (size_t i = 0; i < STATE; i++) state[i] = any();
        memset(state + ROUNDS, 0, 7), state[ROUNDS + 7] = (uint8_t)rounds;
        memset(state + M, 0, 7), state[M + 7] = (uint8_t)m;
        if (higher) state[(higher == 1 ? ROUNDS : M) + any() % 7] = 1;
        int taken = !higher && (rounds == 10 || rounds == 12 || rounds == 14) && 1 <= m && m <= 26;
        size_t wanted = !taken ? OCB_PLACES : TEXT <= 16 << m ? OCB_DONE : OCB_TEXT_SIZE;
        memset(text, 5, sizeof text);
        expect(ocb_seal(state, STATE, nonce, 12, data, 4, text, TEXT, tag, 16, &calls) == wanted, "seal with a state of any bytes");
        expect(ocb_open(state, STATE, nonce, 12, data, 4, text, TEXT, tag, 16, &calls) == wanted, "open with a state of any bytes");
        for (size_t i = 0; i < sizeof text; i++) expect(text[i] == 5, "opening did not undo sealing");
    }
}

/* A spill file of two rows, under the key 00 01 .. 0f: for tenant 7 the text 00 01 .. 20, under the nonce above, and for tenant 80000007 (in
 * hexadecimal) no text, under the second nonce. The bodies are OpenSSL 3.0.19's (EVP_aes_128_ocb), and a script in Python laid the file out. */
enum { FIRST = 33, SECOND_ROW = 28, FIRST_BODY = 52, FILE_LENGTH = 117, BUFFER = FILE_LENGTH + 80 };
static const uint8_t second_nonce[12] = {0xbb, 0xaa, 0x99, 0x88, 0x77, 0x66, 0x55, 0x44, 0x33, 0x22, 0x11, 0x01};
static const uint8_t two_rows[FILE_LENGTH] = {
    0x02, 0x00, 0x00, 0x00,
    0xbb, 0xaa, 0x99, 0x88, 0x77, 0x66, 0x55, 0x44, 0x33, 0x22, 0x11, 0x00, 0x07, 0x00, 0x00, 0x00, 0x34, 0x00, 0x00, 0x00, 0x31, 0x00, 0x00, 0x00,
    0xbb, 0xaa, 0x99, 0x88, 0x77, 0x66, 0x55, 0x44, 0x33, 0x22, 0x11, 0x01, 0x07, 0x00, 0x00, 0x80, 0x65, 0x00, 0x00, 0x00, 0x10, 0x00, 0x00, 0x00,
    0xa9, 0x92, 0x21, 0x4e, 0xde, 0x48, 0xf2, 0xc3, 0x3f, 0x8b, 0xe7, 0xf7, 0xe9, 0x85, 0xdf, 0x7e, 0xc9, 0xe6, 0x8e, 0xf0, 0xff, 0x18, 0x9f, 0xa7,
    0xba, 0x92, 0x0d, 0x67, 0x9b, 0xae, 0x9c, 0x33, 0xfb, 0xd0, 0x74, 0xca, 0x59, 0xf1, 0x44, 0x53, 0x07, 0x00, 0xe2, 0x56, 0xf4, 0x4e, 0xb1, 0x79,
    0x4d, 0xd0, 0x2c, 0x4a, 0xc5, 0xd0, 0x3a, 0x78, 0x7e, 0xdf, 0x7d, 0xd3, 0xff, 0xb5, 0xfa, 0x15, 0xba,
};

/* Whether the file in the buffer gives the row's text to the tenant, and nothing else is changed. */
static void reads(const uint8_t *state, const uint8_t *buffer, size_t file_length, size_t row, uint32_t tenant, size_t length, size_t blocks) {
    uint8_t out[TEXT], wanted[TEXT];
    size_t written, calls;
    memset(out, 5, TEXT), memset(wanted, 5, TEXT), memcpy(wanted, counting, length);
    expect(spill_read(state, STATE, buffer, BUFFER, file_length, row, tenant, out, TEXT, &written, &calls) == OCB_DONE, "a row was not read");
    expect(written == length && calls == blocks, "a row was read with another length or count");
    expect(!memcmp(out, wanted, TEXT), "a row gave another text, or bytes behind it were changed");
}

static void a_file_of_two_rows(void) {
    uint8_t state[STATE], buffer[BUFFER], wanted[BUFFER];
    size_t length, calls;
    expect(ocb_set_up(state, STATE, key, 16, 26) == OCB_DONE, "set up refused");
    memset(buffer, 5, BUFFER), memset(buffer, 0, 4);
    memset(wanted, 5, BUFFER), memcpy(wanted, two_rows, FILE_LENGTH);
    expect(spill_add(state, STATE, buffer, BUFFER, 4, nonce, 12, 7, counting, FIRST, &length, &calls) == OCB_DONE, "the first row was not added");
    expect(length == 4 + 40 + FIRST && calls == 6, "the first row was added with another length or count");
    expect(spill_add(state, STATE, buffer, BUFFER, length, second_nonce, 12, 0x80000007, counting, 0, &length, &calls) == OCB_DONE,
           "the second row was not added");
    expect(length == FILE_LENGTH && calls == 3, "the second row was added with another length or count");
    expect(!memcmp(buffer, wanted, BUFFER), "the file is another, or bytes behind it were changed");
    reads(state, buffer, FILE_LENGTH, 0, 7, FIRST, 6);
    reads(state, buffer, FILE_LENGTH, 1, 0x80000007, 0, 3);
    expect(!memcmp(buffer, wanted, BUFFER), "reading changed the file");
}

/* The states and the damaged file that the two below begin with. m = 1 is too little for the first row's text. */
struct lent {
    uint8_t whole[STATE], small[STATE], buffer[BUFFER];
};
static void lend(struct lent *lent) {
    expect(ocb_set_up(lent->whole, STATE, key, 16, 26) == OCB_DONE && ocb_set_up(lent->small, STATE, key, 16, 1) == OCB_DONE, "set up refused");
    memset(lent->buffer, 5, BUFFER);
    memcpy(lent->buffer, two_rows, FILE_LENGTH);
    memset(lent->buffer + SECOND_ROW + 12, 0, 4); /* 11 */
    lent->buffer[FIRST_BODY] ^= 1;                /* 7 */
}

struct reading {
    const uint8_t *state;
    size_t state_length, file_length, row;
    uint32_t tenant;
    size_t out_length;
};

/* Whether reading is answered so, with a text of 33 zeros where it is 7 and with nothing where it is another number. */
static void refuses(struct reading r, const struct lent *lent, size_t number) {
    uint8_t out[TEXT], wanted[TEXT], before[BUFFER];
    size_t written = 9, calls = 9, length = number == OCB_TAG_DIFFERS ? FIRST : 0;
    memset(out, 5, TEXT), memset(wanted, 5, TEXT), memset(wanted, 0, length);
    memcpy(before, lent->buffer, BUFFER);
    size_t given = spill_read(r.state, r.state_length, lent->buffer, BUFFER, r.file_length, r.row, r.tenant, out, r.out_length, &written, &calls);
    expect(given == number, "reading gave another number");
    expect(written == length && calls == (length ? 6 : 0), "a refused reading gave another length or count");
    expect(!memcmp(out, wanted, TEXT) && !memcmp(lent->buffer, before, BUFFER), "a refused reading left something else");
}

/* At first everything is wrong that can be, then one thing after the other is put right, so that a number out of its order is seen. The first length
 * and the first row would be right if they were cut to 32 bits, and the tenant number if it were cut to 31. */
static void numbers_of_reading(void) {
    const size_t cut = (size_t)1 << 32;
    struct lent lent;
    lend(&lent);
    struct reading r = {zeros, STATE - 1, cut + FILE_LENGTH + 1, cut, 0x80000007, FIRST - 1};
    refuses(r, &lent, OCB_STATE_LENGTH);
    r.state_length = STATE, refuses(r, &lent, OCB_FILE_SIZE);
    r.file_length = BUFFER + 1, refuses(r, &lent, OCB_FILE_SIZE);
    r.file_length = FILE_LENGTH + 1, refuses(r, &lent, OCB_BAD_ROW);
    memcpy(lent.buffer, two_rows, FIRST_BODY), refuses(r, &lent, OCB_TRAILING_BYTES);
    r.file_length = FILE_LENGTH, refuses(r, &lent, OCB_NO_ROW);
    r.row = 2, refuses(r, &lent, OCB_NO_ROW);
    r.row = 0, refuses(r, &lent, OCB_OTHER_TENANT);
    r.tenant = 7, refuses(r, &lent, OCB_OUTPUT_SIZE);
    r.out_length = FIRST, refuses(r, &lent, OCB_PLACES);
    r.state = lent.small, refuses(r, &lent, OCB_TEXT_SIZE);
    r.state = lent.whole, refuses(r, &lent, OCB_TAG_DIFFERS);
    lent.buffer[FIRST_BODY] ^= 1, reads(r.state, lent.buffer, r.file_length, r.row, r.tenant, FIRST, 6);
}

struct adding {
    const uint8_t *state;
    size_t state_length, buffer_length, file_length;
    const uint8_t *nonce;
    size_t nonce_length;
    uint32_t tenant;
};

/* What adding the first row's text once more is answered. */
static size_t add(struct adding a, struct lent *lent, size_t *length, size_t *calls) {
    return spill_add(a.state, a.state_length, lent->buffer, a.buffer_length, a.file_length, a.nonce, a.nonce_length, a.tenant, counting, FIRST,
                     length, calls);
}

/* Whether it is refused so, and nothing is changed. */
static void not_added(struct adding a, struct lent *lent, size_t number) {
    uint8_t before[BUFFER];
    size_t length = 9, calls = 9;
    memcpy(before, lent->buffer, BUFFER);
    expect(add(a, lent, &length, &calls) == number, "adding gave another number");
    expect(length == a.file_length && calls == 0, "a refused addition gave another length or count");
    expect(!memcmp(lent->buffer, before, BUFFER), "a refused addition changed the buffer");
}

/* As for reading. The nonce of 13 bytes begins with one that is in the file. */
static void numbers_of_adding(void) {
    const uint8_t longer[13] = {0xbb, 0xaa, 0x99, 0x88, 0x77, 0x66, 0x55, 0x44, 0x33, 0x22, 0x11, 0x01, 0x00};
    const size_t cut = (size_t)1 << 32, added = FILE_LENGTH + 40 + FIRST;
    size_t length, calls;
    struct lent lent;
    lend(&lent);
    struct adding a = {zeros, STATE - 1, added - 1, cut + FILE_LENGTH + 1, longer, 12, 0};
    not_added(a, &lent, OCB_STATE_LENGTH);
    a.state_length = STATE, not_added(a, &lent, OCB_FILE_SIZE);
    a.file_length = a.buffer_length + 1, not_added(a, &lent, OCB_FILE_SIZE);
    a.file_length = FILE_LENGTH + 1, not_added(a, &lent, OCB_BAD_ROW);
    memcpy(lent.buffer, two_rows, FIRST_BODY), not_added(a, &lent, OCB_TRAILING_BYTES);
    a.file_length = FILE_LENGTH, not_added(a, &lent, OCB_TENANT_ZERO);
    a.tenant = 0x80000000, not_added(a, &lent, OCB_NONCE_USED);
    a.nonce_length = 13, not_added(a, &lent, OCB_FILE_FULL);
    a.buffer_length = added, not_added(a, &lent, OCB_PLACES);
    a.state = lent.small, not_added(a, &lent, OCB_NONCE_SIZE);
    a.nonce += 1, a.nonce_length = 12, not_added(a, &lent, OCB_TEXT_SIZE);
    a.state = lent.whole;
    expect(add(a, &lent, &length, &calls) == OCB_DONE && length == added && calls == 6, "a third row was not added");
    expect(lent.buffer[added] == 5 && lent.buffer[BUFFER - 1] == 5, "bytes behind the new file were changed");
    reads(a.state, lent.buffer, length, 1, 0x80000007, 0, 3);
    reads(a.state, lent.buffer, length, 2, 0x80000000, FIRST, 6);
    struct reading damaged = {lent.whole, STATE, length, 0, 7, FIRST};
    refuses(damaged, &lent, OCB_TAG_DIFFERS); /* bodies are moved, not opened */
}

/* NULL with a length of 0, for each slice. The tag is that of RFC 7253, appendix A, first sample: no data, no text. */
static void null_for_nothing(void) {
    const uint8_t published[16] = {0x78, 0x54, 0x07, 0xbf, 0xff, 0xc8, 0xad, 0x9e, 0xdc, 0xc5, 0x52, 0x0a, 0xc9, 0x11, 0x1e, 0xe6};
    uint8_t state[STATE], tag[16], text[1] = {5}, buffer[BUFFER] = {0};
    size_t calls, length;

    expect(ocb_set_up(NULL, 0, key, 16, 26) == OCB_STATE_LENGTH, "no state buffer is not refused with 40");
    expect(ocb_set_up(state, STATE, NULL, 0, 26) == OCB_KEY_SIZE, "no key is not refused with 1");
    expect(ocb_set_up(state, STATE, key, 16, 26) == OCB_DONE, "set up refused");
    memset(tag, 0, sizeof tag);
    expect(ocb_seal(state, STATE, nonce, 12, NULL, 0, NULL, 0, tag, 16, &calls) == OCB_DONE && calls == 2, "seal of nothing");
    expect(!memcmp(tag, published, 16), "seal of nothing gave another tag than RFC 7253");
    expect(ocb_open(state, STATE, nonce, 12, NULL, 0, NULL, 0, tag, 16, &calls) == OCB_DONE && calls == 2, "open of nothing");
    tag[15] ^= 1;
    expect(ocb_open(state, STATE, nonce, 12, NULL, 0, NULL, 0, tag, 16, &calls) == OCB_TAG_DIFFERS, "open of nothing took a wrong tag");
    expect(ocb_seal(state, STATE, NULL, 0, NULL, 0, text, 1, tag, 16, &calls) == OCB_NONCE_SIZE, "seal: no nonce is not refused with 3");
    expect(ocb_open(state, STATE, NULL, 0, NULL, 0, text, 1, tag, 16, &calls) == OCB_NONCE_SIZE, "open: no nonce is not refused with 3");
    expect(ocb_seal(state, STATE, nonce, 12, NULL, 0, text, 1, NULL, 0, &calls) == OCB_TAG_SIZE, "seal: no tag is not refused with 4");
    expect(ocb_open(state, STATE, nonce, 12, NULL, 0, text, 1, NULL, 0, &calls) == OCB_TAG_SIZE, "open: no tag is not refused with 4");
    expect(ocb_seal(NULL, 0, nonce, 12, NULL, 0, text, 1, tag, 16, &calls) == OCB_STATE_LENGTH, "seal: no state is not refused with 40");
    expect(ocb_open(NULL, 0, nonce, 12, NULL, 0, text, 1, tag, 16, &calls) == OCB_STATE_LENGTH, "open: no state is not refused with 40");
    expect(text[0] == 5, "a refusal changed the text");
    expect(spill_read(NULL, 0, two_rows, FILE_LENGTH, FILE_LENGTH, 0, 7, text, 1, &length, &calls) == OCB_STATE_LENGTH,
           "spill_read: no state is not refused with 40");
    expect(spill_read(state, STATE, NULL, 0, 0, 0, 7, text, 1, &length, &calls) == OCB_FILE_SIZE, "spill_read: no buffer is not refused with 10");
    expect(spill_read(state, STATE, two_rows, FILE_LENGTH, FILE_LENGTH, 0, 7, NULL, 0, &length, &calls) == OCB_OUTPUT_SIZE,
           "spill_read: no output is not refused with 9");
    expect(spill_read(state, STATE, two_rows, FILE_LENGTH, FILE_LENGTH, 1, 0x80000007, NULL, 0, &length, &calls) == OCB_DONE && calls == 3,
           "no text was not read to no output");
    expect(spill_add(NULL, 0, buffer, BUFFER, 4, nonce, 12, 7, text, 1, &length, &calls) == OCB_STATE_LENGTH,
           "spill_add: no state is not refused with 40");
    expect(spill_add(state, STATE, NULL, 0, 0, nonce, 12, 7, text, 1, &length, &calls) == OCB_FILE_SIZE,
           "spill_add: no buffer is not refused with 10");
    expect(spill_add(state, STATE, buffer, BUFFER, 4, NULL, 0, 7, text, 1, &length, &calls) == OCB_NONCE_SIZE,
           "spill_add: no nonce is not refused with 3");
    expect(spill_add(state, STATE, buffer, BUFFER, 4, nonce, 12, 7, NULL, 0, &length, &calls) == OCB_DONE && length == 44, "no text was not added");
    expect((spill_add)(state, STATE, buffer, BUFFER, 44, second_nonce, 12, 7, text, 1, &length, &calls) == OCB_DONE && length == 85,
           "the archive's own function adds something else");
    expect((spill_read)(state, STATE, buffer, BUFFER, 85, 1, 7, tag, 16, &length, &calls) == OCB_DONE && length == 1 && tag[0] == 5,
           "the archive's own function reads something else");
    memset(tag, 0, sizeof tag);
    expect((ocb_seal)(state, STATE, nonce, 12, data, 0, text, 0, tag, 16, &calls) == OCB_DONE && !memcmp(tag, published, 16),
           "the archive's own function gave something else");
}

static void texts_of_the_numbers(void) {
    const struct {
        size_t number;
        const char *has;
    } rows[] = {{OCB_DONE, "done"}, {OCB_KEY_SIZE, "key"}, {OCB_PLACES, "m is"}, {OCB_NONCE_SIZE, "nonce"}, {OCB_TAG_SIZE, "tag is"},
                {OCB_TEXT_SIZE, "text is"}, {OCB_DATA_SIZE, "data"}, {OCB_TAG_DIFFERS, "tag differs"}, {8, "no number"}, {OCB_OUTPUT_SIZE, "output"},
                {OCB_FILE_SIZE, "table"}, {OCB_BAD_ROW, "out of place"}, {OCB_TRAILING_BYTES, "behind"}, {OCB_OTHER_TENANT, "another tenant"},
                {OCB_NO_ROW, "no such row"}, {OCB_NONCE_USED, "has this nonce"}, {OCB_FILE_FULL, "no room"}, {OCB_TENANT_ZERO, "tenant number is 0"},
                {18, "no number"}, {OCB_STATE_LENGTH, "state"}};
    for (size_t i = 0; i < sizeof rows / sizeof *rows; i++) expect(strstr(ocb_message(rows[i].number), rows[i].has) != NULL, "a number has another's text");
}

int main(void) {
    lengths_of_the_key();
    an_answer_for_each_key_length();
    the_most_that_m_admits();
    places_of_a_state();
    lengths_of_the_state();
    any_bytes_as_a_state();
    a_file_of_two_rows();
    numbers_of_reading();
    numbers_of_adding();
    null_for_nothing();
    texts_of_the_numbers();
    puts("check: each key length, m = 1 and a spill file give their known answers; other lengths, states of any bytes, wrong files and NULL are "
         "answered; each number has its text");
    return 0;
}

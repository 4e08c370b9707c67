/* OCB3 (RFC 7253) over AES (FIPS 197), in place and detached, and files of many tenants' sealed texts. The key's length chooses the cipher: 16 bytes
 * AES-128, 24 AES-192, 32 AES-256. Link with libocb_c.a, which library/build makes.
 *
 * A slice is a pointer and a length in bytes. Where the length is 0 the pointer may be NULL; else it must not be, and calls never. What a
 * function writes must not overlap anything else it is lent. Nothing is kept between calls but in the caller's buffers, so any number of
 * threads may work with one state at once, and read one file while nobody adds to it.
 *
 * Time: AES works by table look-ups at places that depend on the key and the text, so a program that shares the processor's caches with
 * this one may learn about both from timing. Where that is a threat, use an AES by processor instructions instead.
 *
 * Wiping: nothing wipes keys. When it is done with them, the caller should wipe its key, its state buffers and its plaintexts, in a way that the
 * compiler does not leave out (explicit_bzero). All functions that take a state work on copies of the round keys in their stack frames, which
 * stay there until something else is written over them. */
#ifndef OCB_H
#define OCB_H

#include <stddef.h>
#include <stdint.h>

#ifdef __cplusplus
extern "C" {
#endif

/* The bytes of a state buffer. ocb_state_size() gives the same number when the program runs. What lies where in it is nobody's business but
 * the library's and may change with its version, and so may the size: do not store states or send them, but set up anew from the key. */
#define OCB_STATE_SIZE 720
/* The most that m may be. The table of L values has a place for L_0 and m places behind it, for L_1 to L_m: it serves texts and data of at most
 * 2^(m + 4) bytes. */
#define OCB_MOST_PLACES 26
/* The most rows and the most bytes that a spill file may have. */
#define SPILL_MOST_ROWS 256
#define SPILL_MOST_BYTES 65536

/* What the functions return. 40 goes before all others. Of 1 to 7 ocb_set_up, ocb_seal and ocb_open give the smallest that applies, and 0 where
 * none does; in which order spill_read and spill_add test theirs stands with them. */
enum ocb_number {
    OCB_DONE = 0,            /* done */
    OCB_KEY_SIZE = 1,        /* set up: the key is not 16, 24 or 32 bytes; the state is all zero */
    OCB_PLACES = 2,          /* set up: m is not in 1..26; the state is all zero
                              * all others: the state's m is not in 1..26, or its rounds are not 10, 12 or 14; nothing is changed */
    OCB_NONCE_SIZE = 3,      /* seal and open: the nonce is not 6 to 15 bytes; spill_add: it is not 12 bytes; nothing is changed */
    OCB_TAG_SIZE = 4,        /* the tag is not 1 to 16 bytes; nothing is changed */
    OCB_TEXT_SIZE = 5,       /* the text has more than 2^(m + 4) bytes; nothing is changed */
    OCB_DATA_SIZE = 6,       /* the associated data have more than 2^(m + 4) bytes; nothing is changed */
    OCB_TAG_DIFFERS = 7,     /* open and spill_read: the tag is not the text's; every byte of the text, or of its place in the output, is zero */
    OCB_OUTPUT_SIZE = 9,     /* spill_read: the output is shorter than the text; nothing is changed */
    OCB_FILE_SIZE = 10,      /* the file is longer than its buffer or than 65,536 bytes, has more than 256 rows, or is too short for its table;
                              * nothing is changed */
    OCB_BAD_ROW = 11,        /* a row has the tenant number 0, a body under 16 bytes or past the file's end, or a place other than that at which its
                              * body has to start; nothing is changed */
    OCB_TRAILING_BYTES = 12, /* the file has bytes behind its last body; nothing is changed */
    OCB_OTHER_TENANT = 13,   /* spill_read: the row is another tenant's; nothing is changed */
    OCB_NO_ROW = 14,         /* spill_read: the file has no row of this number; nothing is changed */
    OCB_NONCE_USED = 15,     /* spill_add: a row of the file has this nonce; nothing is changed */
    OCB_FILE_FULL = 16,      /* spill_add: the file has 256 rows, or would be longer than its buffer or than 65,536 bytes; nothing is changed */
    OCB_TENANT_ZERO = 17,    /* spill_add: the tenant number is 0; nothing is changed */
    OCB_STATE_LENGTH = 40    /* the state buffer is not OCB_STATE_SIZE bytes; nothing is changed */
};

/* ---- The functions of the archive, which are proved */

/* The size of a state buffer: OCB_STATE_SIZE. */
size_t ocb_state_size(void);

/* Makes the state of a key of 16, 24 or 32 bytes in the buffer, for texts and data of at most 2^(m + 4) bytes (m from 1 to 26; 26 serves every
 * size admitted). Returns 0, 1, 2 or 40. The state holds the round keys: keep it as secret as the key. */
size_t ocb_set_up(uint8_t *state, size_t state_length, const uint8_t *key, size_t key_length, size_t m);

/* Seals the text where it lies and writes the tag, whose length is the tag place's. Never use a nonce twice under one key.
 * *calls takes the number of blocks handed to the cipher, 0 with a refusal. Returns 0, 2 to 6 or 40.
 * A state that ocb_set_up did not write is answered too: with 2, or by the same steps over the bytes it holds. */
size_t ocb_seal(const uint8_t *state, size_t state_length, const uint8_t *nonce, size_t nonce_length, const uint8_t *data,
                size_t data_length, uint8_t *text, size_t text_length, uint8_t *tag, size_t tag_length, size_t *calls);

/* Opens the text where it lies if the tag is the one that sealing it gives, and makes it all zero if not. A short tag is soon guessed: let the
 * tag's length be agreed beforehand, never what a message brings.
 * *calls takes the number of blocks handed to the cipher, with 0 and 7 alike. Returns 0, 2 to 7 or 40. */
size_t ocb_open(const uint8_t *state, size_t state_length, const uint8_t *nonce, size_t nonce_length, const uint8_t *data,
                size_t data_length, uint8_t *text, size_t text_length, const uint8_t *tag, size_t tag_length, size_t *calls);

/* A spill file holds the sealed texts of many tenants. It is the first file_length bytes of a buffer that the caller lends:
 *
 *   how many rows there are (4)
 *   the rows, 24 bytes each: nonce (12), tenant number (4, not 0), place of the body in the file (4), length of the body (4)
 *   the bodies, in the order of the rows and with nothing between or behind them: ciphertext, then its tag (16)
 *
 * Numbers have their lowest byte first. Four zero bytes are an empty file, with which one begins; a text then takes 40 bytes and its own length.
 * The associated data of a text are its tenant number's four bytes: its tag speaks for its tenant too.
 *
 * The bytes may come from anywhere: both functions first test whether they are a file at all (10, 11, 12). But a tag speaks for its row alone: who
 * can write to the file can take rows out, put them in another order or put back older ones. */

/* Opens the text of a row, counted from 0, and writes it to the front of out. The file is not changed. Neither another row's body nor what stands
 * behind the file has a part in the answer. With 0 and 7 *written takes the text's length and *calls the number of blocks handed to the cipher; with
 * any other number both take 0. With 7 the first *written bytes of out are zero; any other refusal leaves out as it was, and bytes of out behind the
 * text never change.
 * Returns the first that applies of 40, 10, 11, 12, 14, 13, 9, 2, 5 and 7, and 0 where none does. */
size_t spill_read(const uint8_t *state, size_t state_length, const uint8_t *buffer, size_t buffer_length, size_t file_length, size_t row,
                  uint32_t tenant, uint8_t *out, size_t out_length, size_t *written, size_t *calls);

/* Seals a text for a tenant and adds it to the file as its last row. The bodies that are there are moved, not opened: they may be under other keys,
 * and every row reads as before. *new_length takes the file's new length, or file_length with a refusal; *calls the number of blocks handed to the
 * cipher, 0 with a refusal. A refusal changes nothing at all; bytes of the buffer behind the new file never change.
 * The nonce has 12 bytes. Never use one twice under one key: 15 catches a nonce that is in this file, and none that was used for another file or by
 * ocb_seal, or whose row is no longer there.
 * Returns the first that applies of 40, 10, 11, 12, 17, 15, 16, 2, 3 and 5, and 0 where none does. */
size_t spill_add(const uint8_t *state, size_t state_length, uint8_t *buffer, size_t buffer_length, size_t file_length, const uint8_t *nonce,
                 size_t nonce_length, uint32_t tenant, const uint8_t *text, size_t text_length, size_t *new_length, size_t *calls);

/* ---- What this header adds to them */

/* What a number means, for a log. */
static inline const char *ocb_message(size_t number) {
    switch (number) {
    case OCB_DONE: return "done";
    case OCB_KEY_SIZE: return "the key is not 16, 24 or 32 bytes";
    case OCB_PLACES: return "m is not 1 to 26, or the state's rounds are not 10, 12 or 14";
    case OCB_NONCE_SIZE: return "the nonce is not 6 to 15 bytes, or for a spill file not 12";
    case OCB_TAG_SIZE: return "the tag is not 1 to 16 bytes";
    case OCB_TEXT_SIZE: return "the text is too long for the places";
    case OCB_DATA_SIZE: return "the associated data are too long for the places";
    case OCB_TAG_DIFFERS: return "the tag differs";
    case OCB_OUTPUT_SIZE: return "the output is shorter than the text";
    case OCB_FILE_SIZE: return "the file is too long, has too many rows, or is too short for its table";
    case OCB_BAD_ROW: return "a row has the tenant number 0, or its body is too short or out of place";
    case OCB_TRAILING_BYTES: return "the file has bytes behind its last body";
    case OCB_OTHER_TENANT: return "the row is another tenant's";
    case OCB_NO_ROW: return "the file has no such row";
    case OCB_NONCE_USED: return "a row of the file has this nonce";
    case OCB_FILE_FULL: return "the file has no room for another row";
    case OCB_TENANT_ZERO: return "the tenant number is 0";
    case OCB_STATE_LENGTH: return "the state buffer has another length";
    default: return "no number of this library";
    }
}

/* The archive's functions may not be lent NULL, but NULL with a length of 0 is how C says "nothing". So a call by name goes through an inline
 * function, which lends an empty slice of its own where a length is 0. (ocb_seal)(..) in brackets and a pointer to ocb_seal are the
 * archive's function itself. */
static inline size_t ocb_inline_set_up(uint8_t *state, size_t state_length, const uint8_t *key, size_t key_length, size_t m) {
    uint8_t nothing = 0;
    return ocb_set_up(state_length ? state : &nothing, state_length, key_length ? key : &nothing, key_length, m);
}
#define ocb_set_up(...) ocb_inline_set_up(__VA_ARGS__)

static inline size_t ocb_inline_seal(const uint8_t *state, size_t state_length, const uint8_t *nonce, size_t nonce_length,
                                     const uint8_t *data, size_t data_length, uint8_t *text, size_t text_length, uint8_t *tag,
                                     size_t tag_length, size_t *calls) {
    uint8_t nothing = 0;
    return ocb_seal(state_length ? state : &nothing, state_length, nonce_length ? nonce : &nothing, nonce_length,
                    data_length ? data : &nothing, data_length, text_length ? text : &nothing, text_length,
                    tag_length ? tag : &nothing, tag_length, calls);
}
#define ocb_seal(...) ocb_inline_seal(__VA_ARGS__)

static inline size_t ocb_inline_open(const uint8_t *state, size_t state_length, const uint8_t *nonce, size_t nonce_length,
                                     const uint8_t *data, size_t data_length, uint8_t *text, size_t text_length, const uint8_t *tag,
                                     size_t tag_length, size_t *calls) {
    uint8_t nothing = 0;
    return ocb_open(state_length ? state : &nothing, state_length, nonce_length ? nonce : &nothing, nonce_length,
                    data_length ? data : &nothing, data_length, text_length ? text : &nothing, text_length,
                    tag_length ? tag : &nothing, tag_length, calls);
}
#define ocb_open(...) ocb_inline_open(__VA_ARGS__)

static inline size_t spill_inline_read(const uint8_t *state, size_t state_length, const uint8_t *buffer, size_t buffer_length,
                                       size_t file_length, size_t row, uint32_t tenant, uint8_t *out, size_t out_length, size_t *written,
                                       size_t *calls) {
    uint8_t nothing = 0;
    return spill_read(state_length ? state : &nothing, state_length, buffer_length ? buffer : &nothing, buffer_length, file_length, row,
                      tenant, out_length ? out : &nothing, out_length, written, calls);
}
#define spill_read(...) spill_inline_read(__VA_ARGS__)

static inline size_t spill_inline_add(const uint8_t *state, size_t state_length, uint8_t *buffer, size_t buffer_length, size_t file_length,
                                      const uint8_t *nonce, size_t nonce_length, uint32_t tenant, const uint8_t *text, size_t text_length,
                                      size_t *new_length, size_t *calls) {
    uint8_t nothing = 0;
    return spill_add(state_length ? state : &nothing, state_length, buffer_length ? buffer : &nothing, buffer_length, file_length,
                     nonce_length ? nonce : &nothing, nonce_length, tenant, text_length ? text : &nothing, text_length, new_length, calls);
}
#define spill_add(...) spill_inline_add(__VA_ARGS__)

#ifdef __cplusplus
}
#endif

#endif

/* Times reading and adding rows of spill files, and for scale sealing and opening the same texts alone. bench/spill asks.
 * It reads lines "JOB NUMBER ROWS ROW TEXT BODIES BEHIND SPARE DIFFER COUNT" and answers each with the nanoseconds of processor time of COUNT calls.
 *   JOB     read, add, seal or open
 *   NUMBER  what every call has to answer: 0; read also 9 (the output is a byte short), 13 (another tenant asks), 14 (there is no such row);
 *           add also 16 (the lent buffer is a byte short), 17 (the tenant is 0)
 *   ROWS    rows of the file that is lent
 *   ROW     read: the place of the row that is read
 *   TEXT    bytes of the text that is read, added, sealed or opened
 *   BODIES  bytes of every other body in the file
 *   BEHIND  bytes of the lent buffer behind the file; add: behind the file with the row added
 *   SPARE   read: bytes of the output behind the text
 *   DIFFER  the first byte, counted from 0, in which the nonces of the other rows differ from that of the text
 * Files are laid here by bytes, and of their bodies only the text's is sealed, by ocb_seal: nobody opens another. A call that answers another number,
 * length or count of blocks than it has to ends the program, and so do other bytes than it has to leave, looked at after the last call. What a call
 * changes is laid anew before it, untimed. A job calls the function that it is about nowhere else, so that just those calls are counted. */
#include "clock.h"
#include <ocb.h>
#include <stdio.h>
#include <stdlib.h>
#include <string.h>

enum {
    MOST = 65536,  /* bytes of a file */
    NOWHERE = 256, /* the place of the text's row in a file without it */
    TENANT = 7,    /* of the text; the other rows have greater ones */
    OWN = 255,     /* the number in the nonce of the text; those of the other rows count up from 0 */
    FILL = 99,     /* what buffers hold besides */
    COPIES = 4     /* buffers: where a call changes its buffer, so many calls are made between two looks at the clock */
};

static const uint8_t key[16] = {0, 1, 2, 3, 4, 5, 6, 7, 8, 9, 10, 11, 12, 13, 14, 15}, data[4] = {TENANT}, nonce[12] = {[11] = OWN};
static uint8_t state[OCB_STATE_SIZE], text[MOST], body[MOST], out[2 * MOST], before[MOST], after[MOST];
static size_t wanted, rows, row, length, bodies, behind, spare, differ; /* what the line says */
static size_t file, lent;                                               /* bytes of the file and of the buffer */
static size_t told, calls;                                              /* what a call said: *written or *new_length, and *calls */

static void fail(const char *what) {
    fprintf(stderr, "spill: %s\n", what);
    exit(1);
}

/* ---- files */

static void put(uint8_t *at, size_t number) {
    for (int i = 0; i < 4; i++) at[i] = (uint8_t)(number >> 8 * i);
}

/* Lays a file of n rows, the text's at place own, and gives its length. */
static size_t lay(uint8_t *to, size_t n, size_t own) {
    size_t place = 4 + 24 * n;
    for (size_t i = 0; i < n; i++) {
        size_t other = i < own ? i : i - 1, size = i == own ? length + 16 : bodies;
        uint8_t *at = to + 4 + 24 * i;
        if (n > 256 || size > MOST - place) fail("the file would be too long");
        memcpy(at, nonce, 12);
        if (i == own) {
            memcpy(to + place, body, size);
        } else {
            at[11] = (uint8_t)other;
            if (differ < 11) at[differ] ^= 128;
            memset(to + place, (int)other, size);
        }
        put(at + 12, i == own ? TENANT : TENANT + 1 + other);
        put(at + 16, place);
        put(at + 20, size);
        place += size;
    }
    put(to, n);
    return place;
}

/* ---- calls */

static size_t read_row(uint8_t *buffer) {
    return (spill_read)(state, sizeof state, buffer, lent, file, wanted == 14 ? rows : row, wanted == 13 ? TENANT + 1 : TENANT, out,
                        length + spare - (wanted == 9), &told, &calls);
}
static size_t add_row(uint8_t *buffer) {
    return (spill_add)(state, sizeof state, buffer, lent, file, nonce, 12, wanted == 17 ? 0 : TENANT, text, length, &told, &calls);
}
static size_t seal_text(uint8_t *buffer) {
    told = length;
    return (ocb_seal)(state, sizeof state, nonce, 12, data, 4, buffer, length, buffer + length, 16, &calls);
}
static size_t open_text(uint8_t *buffer) {
    told = length;
    return (ocb_open)(state, sizeof state, nonce, 12, data, 4, buffer, length, buffer + length, 16, &calls);
}

/* ---- the jobs */

/* What two looks at the clock take by themselves. */
static uint64_t looks(void) {
    uint64_t least = UINT64_MAX;
    for (int i = 0; i < 1000; i++) {
        uint64_t began = now(), took = now() - began;
        if (took < least) least = took;
    }
    return least;
}

/* Whether n bytes are those wanted, and the others of all are as they were. */
static int holds(const uint8_t *bytes, const uint8_t *those, size_t n, size_t all) {
    if (memcmp(bytes, those, n)) return 0;
    for (; n < all; n++)
        if (bytes[n] != FILL) return 0;
    return 1;
}

int main(void) {
    char job[8];
    unsigned count;
    uint64_t looking = looks();
    if ((ocb_set_up)(state, sizeof state, key, sizeof key, OCB_MOST_PLACES)) fail("ocb_set_up refused");
    for (size_t i = 0; i < MOST; i++) text[i] = (uint8_t)(i * 37 + 11);
    while (scanf("%7s %zu %zu %zu %zu %zu %zu %zu %zu %u", job, &wanted, &rows, &row, &length, &bodies, &behind, &spare, &differ, &count) == 10) {
        int reads = !strcmp(job, "read"), adds = !strcmp(job, "add"), seals = !strcmp(job, "seal"), opens = !strcmp(job, "open");
        size_t (*call)(uint8_t *) = reads ? read_row : adds ? add_row : seals ? seal_text : open_text;
        if (reads + adds + seals + opens != 1 || !count || length > MOST - 16 || spare > MOST) fail("there is no such job");
        memcpy(body, text, length);
        if (!seals && seal_text(body)) fail("ocb_seal refused");
        size_t telling = length; /* what a call has to tell */
        if (reads) {
            file = lay(before, rows, row);
            lent = file + behind;
            if (wanted) telling = 0;
        } else if (adds) {
            size_t whole = lay(after, rows + 1, rows);
            file = lay(before, rows, NOWHERE);
            lent = whole + behind - (wanted == 16);
            telling = wanted ? file : whole;
        } else {
            file = lent = length + 16;
            memcpy(before, body, file);
        }
        uint8_t *buffers[COPIES];
        for (size_t k = 0; k < COPIES; k++) {
            if (posix_memalign((void **)&buffers[k], 64, lent)) fail("no memory");
            memset(buffers[k], FILL, lent);
        }
        memset(out, FILL, sizeof out);
        size_t blocks = wanted ? 0 : length / 16 + (length % 16 != 0) + 3; /* the text's, the nonce's, the tenant's and the tag's */
        unsigned together = reads ? count : COPIES;
        uint64_t took = 0;
        for (unsigned done = 0; done < count;) {
            for (size_t k = 0; k < COPIES; k++) memcpy(buffers[k], before, file);
            uint64_t began = now();
            for (unsigned k = 0; k < together && done < count; k++, done++) {
                told = calls = SIZE_MAX;
                if (call(buffers[k % COPIES]) != wanted) fail("a call answered another number");
                if (told != telling || calls != blocks) fail("a call told another length or count of blocks");
            }
            took += now() - began - looking;
        }
        uint8_t *left = buffers[(count - 1) % COPIES];
        if (seals && open_text(left)) fail("what was sealed does not open");
        if (!(reads  ? holds(out, text, wanted ? 0 : length, sizeof out)
              : adds ? holds(left, wanted ? before : after, telling, lent)
                     : holds(left, text, length, length)))
            fail("a call left other bytes");
        printf("%lld\n", (long long)took);
        fflush(stdout);
        for (size_t k = 0; k < COPIES; k++) free(buffers[k]);
    }
    return 0;
}

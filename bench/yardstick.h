/* OCB3 over AES-128 in plain C, by tables of 256 words: what the same algorithm can do without hardware and without proofs.
 * Nonces of 12 bytes and tags of 16 only. Run bench/run to see that it agrees with the others. */
#include <stddef.h>
#include <stdint.h>

struct yardstick {
    uint32_t forward[44], backward[44];      /* round keys as words, the first byte lowest; backward for the inverse cipher */
    uint64_t star[2], dollar[2], l[32][2];   /* L_*, L_$, L_i as blocks of two words */
};

void yardstick_set_up(struct yardstick *y, const uint8_t key[16]);
void yardstick_seal(const struct yardstick *y, const uint8_t nonce[12], const uint8_t *data, size_t data_length, uint8_t *text,
                    size_t text_length, uint8_t tag[16]);
/* 1 and the plaintext, or 0 and zeros */
int yardstick_open(const struct yardstick *y, const uint8_t nonce[12], const uint8_t *data, size_t data_length, uint8_t *text,
                   size_t text_length, const uint8_t tag[16]);

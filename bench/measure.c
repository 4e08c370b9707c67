/* Times one engine: measure ENGINE [KEY_LENGTH], with ENGINE one of rukensaz, yardstick, openssl, libgcrypt, libgcrypt-plain, and a key of 16, 24
 * or 32 bytes, 16 where nothing is said.
 * It reads lines "JOB M LENGTH COUNT" (JOB: set-up, set-up-and-seal, seal or open) and answers each with "NANOSECONDS DIGEST": the processor
 * time of COUNT jobs, and a digest of what the last one left, by which bench/run sees that all engines did the same work. Nonces of 12 bytes
 * that count up, associated data of 4, tags of 16. An open is timed with the copy of the sealed text that it works on.
 * Before a seal or an open the engine is set up once, untimed; before jobs that set up it is not, so that bench/count counts their set-ups
 * alone. A set-up has no text (its LENGTH is 0): 32 bytes are sealed after the last, untimed, for the digest.
 * M is the last argument of ocb_set_up. Only this project takes it; the set-ups of the others make a table of one size, whatever M is: the
 * yardstick one of 32 places, the crate, which has a worker of its own, one of 26. */
#include "clock.h"
#include "yardstick.h"
#include <ocb.h>
#include <stdio.h>
#include <stdlib.h>
#include <string.h>
#ifdef WITH_OPENSSL
#include <openssl/evp.h>
#endif
#ifdef WITH_LIBGCRYPT
#include <gcrypt.h>
#endif

static const uint8_t key[32] = {0,  1,  2,  3,  4,  5,  6,  7,  8,  9,  10, 11, 12, 13, 14, 15,
                                16, 17, 18, 19, 20, 21, 22, 23, 24, 25, 26, 27, 28, 29, 30, 31};
static const uint8_t data[4] = {7, 0, 0, 0};
static size_t key_length = 16;

struct engine {
    const char *name;
    void (*set_up)(size_t m);
    void (*seal)(const uint8_t nonce[12], uint8_t *text, size_t length, uint8_t tag[16]);
    int (*open)(const uint8_t nonce[12], uint8_t *text, size_t length, const uint8_t tag[16]); /* 1 where the tag is the text's */
};

static void fail(const char *what) {
    fprintf(stderr, "measure: %s\n", what);
    exit(1);
}

/* ---- this project */

static uint8_t state[OCB_STATE_SIZE];

static void own_set_up(size_t m) {
    if ((ocb_set_up)(state, sizeof state, key, key_length, m)) fail("ocb_set_up refused");
}
static void own_seal(const uint8_t nonce[12], uint8_t *text, size_t length, uint8_t tag[16]) {
    size_t calls;
    if ((ocb_seal)(state, sizeof state, nonce, 12, data, 4, text, length, tag, 16, &calls)) fail("ocb_seal refused");
}
static int own_open(const uint8_t nonce[12], uint8_t *text, size_t length, const uint8_t tag[16]) {
    size_t calls;
    return (ocb_open)(state, sizeof state, nonce, 12, data, 4, text, length, tag, 16, &calls) == OCB_DONE;
}

/* ---- the yardstick */

static struct yardstick yard;

static void yard_set_up(size_t m) {
    (void)m;
    if (key_length != 16) fail("the yardstick takes keys of 16 bytes only");
    yardstick_set_up(&yard, key);
}
static void yard_seal(const uint8_t nonce[12], uint8_t *text, size_t length, uint8_t tag[16]) {
    yardstick_seal(&yard, nonce, data, 4, text, length, tag);
}
static int yard_open(const uint8_t nonce[12], uint8_t *text, size_t length, const uint8_t tag[16]) {
    return yardstick_open(&yard, nonce, data, 4, text, length, tag);
}

/* ---- OpenSSL: the key stays in the context, the nonce is set anew */

#ifdef WITH_OPENSSL
static EVP_CIPHER_CTX *sealing, *opening;

static void ssl_set_up(size_t m) {
    (void)m;
    const EVP_CIPHER *cipher = key_length == 16 ? EVP_aes_128_ocb() : key_length == 24 ? EVP_aes_192_ocb() : EVP_aes_256_ocb();
    EVP_CIPHER_CTX_free(sealing);
    EVP_CIPHER_CTX_free(opening);
    sealing = EVP_CIPHER_CTX_new();
    opening = EVP_CIPHER_CTX_new();
    if (EVP_EncryptInit_ex(sealing, cipher, NULL, key, NULL) != 1 || EVP_DecryptInit_ex(opening, cipher, NULL, key, NULL) != 1)
        fail("OpenSSL has no AES-OCB");
}
static void ssl_seal(const uint8_t nonce[12], uint8_t *text, size_t length, uint8_t tag[16]) {
    int n, m;
    if (EVP_EncryptInit_ex(sealing, NULL, NULL, NULL, nonce) != 1 || EVP_EncryptUpdate(sealing, NULL, &n, data, 4) != 1 ||
        EVP_EncryptUpdate(sealing, text, &n, text, (int)length) != 1 || EVP_EncryptFinal_ex(sealing, text + n, &m) != 1 ||
        EVP_CIPHER_CTX_ctrl(sealing, EVP_CTRL_AEAD_GET_TAG, 16, tag) != 1)
        fail("OpenSSL refused to seal");
}
static int ssl_open(const uint8_t nonce[12], uint8_t *text, size_t length, const uint8_t tag[16]) {
    int n, m;
    if (EVP_DecryptInit_ex(opening, NULL, NULL, NULL, nonce) != 1 || EVP_DecryptUpdate(opening, NULL, &n, data, 4) != 1 ||
        EVP_CIPHER_CTX_ctrl(opening, EVP_CTRL_AEAD_SET_TAG, 16, (void *)tag) != 1 || EVP_DecryptUpdate(opening, text, &n, text, (int)length) != 1)
        fail("OpenSSL refused to open");
    return EVP_DecryptFinal_ex(opening, text + n, &m) == 1;
}
#endif

/* ---- libgcrypt */

#ifdef WITH_LIBGCRYPT
static gcry_cipher_hd_t handle;

static void gcrypt_set_up(size_t m) {
    (void)m;
    int cipher = key_length == 16 ? GCRY_CIPHER_AES128 : key_length == 24 ? GCRY_CIPHER_AES192 : GCRY_CIPHER_AES256;
    gcry_cipher_close(handle);
    if (gcry_cipher_open(&handle, cipher, GCRY_CIPHER_MODE_OCB, 0) || gcry_cipher_setkey(handle, key, key_length)) fail("libgcrypt has no AES-OCB");
}
static void gcrypt_start(const uint8_t nonce[12]) {
    if (gcry_cipher_setiv(handle, nonce, 12) || gcry_cipher_authenticate(handle, data, 4)) fail("libgcrypt refused the nonce");
    gcry_cipher_final(handle);
}
static void gcrypt_seal(const uint8_t nonce[12], uint8_t *text, size_t length, uint8_t tag[16]) {
    gcrypt_start(nonce);
    if (gcry_cipher_encrypt(handle, text, length, NULL, 0) || gcry_cipher_gettag(handle, tag, 16)) fail("libgcrypt refused to seal");
}
static int gcrypt_open(const uint8_t nonce[12], uint8_t *text, size_t length, const uint8_t tag[16]) {
    gcrypt_start(nonce);
    if (gcry_cipher_decrypt(handle, text, length, NULL, 0)) fail("libgcrypt refused to open");
    return gcry_cipher_checktag(handle, tag, 16) == 0;
}
#endif

static const struct engine engines[] = {
    {"rukensaz", own_set_up, own_seal, own_open},
    {"yardstick", yard_set_up, yard_seal, yard_open},
#ifdef WITH_OPENSSL
    {"openssl", ssl_set_up, ssl_seal, ssl_open},
#endif
#ifdef WITH_LIBGCRYPT
    {"libgcrypt", gcrypt_set_up, gcrypt_seal, gcrypt_open},
    {"libgcrypt-plain", gcrypt_set_up, gcrypt_seal, gcrypt_open},
#endif
};

/* ---- the jobs */

static uint64_t digest(uint64_t d, const uint8_t *bytes, size_t length) { /* FNV-1a */
    for (size_t i = 0; i < length; i++) d = (d ^ bytes[i]) * 0x100000001b3u;
    return d;
}

static void number(uint8_t nonce[12], unsigned i) {
    memset(nonce, 0, 12);
    nonce[8] = (uint8_t)(i >> 24), nonce[9] = (uint8_t)(i >> 16), nonce[10] = (uint8_t)(i >> 8), nonce[11] = (uint8_t)i;
}

int main(int argc, char **argv) {
    const struct engine *e = NULL;
    if (argc != 2 && argc != 3) fail("wants an engine, and a key length or none");
    for (size_t i = 0; i < sizeof engines / sizeof *engines; i++)
        if (!strcmp(engines[i].name, argv[1])) e = &engines[i];
    if (!e) fail("this engine was not built in");
    if (argc == 3) key_length = strtoul(argv[2], NULL, 10);
    if (key_length != 16 && key_length != 24 && key_length != 32) fail("the key length is not 16, 24 or 32");
#ifdef WITH_LIBGCRYPT
    if (!strcmp(e->name, "libgcrypt-plain")) gcry_control(GCRYCTL_DISABLE_HWF, "all", NULL);
    if (!strncmp(e->name, "libgcrypt", 9) && !gcry_check_version(NULL)) fail("libgcrypt does not start");
#endif
    char job[16];
    size_t m, length;
    unsigned count;
    while (scanf("%15s %zu %zu %u", job, &m, &length, &count) == 4) {
        int both = !strcmp(job, "set-up-and-seal"), only_set_up = !strcmp(job, "set-up"), opens = !strcmp(job, "open");
        int sets_up = both || only_set_up, seals = both || !strcmp(job, "seal");
        if (!sets_up && !seals && !opens) fail("there is no such job");
        if (only_set_up) length = 32; /* sealed after the last set-up: as much as m = 1 admits */
        uint8_t *text = calloc(length + 1, 1), *sealed = calloc(length + 1, 1), nonce[12], tag[16] = {0};
        if (!text || !sealed) fail("no memory");
        number(nonce, 1);
        if (!sets_up) e->set_up(m);
        if (opens) e->seal(nonce, sealed, length, tag);
        uint64_t began = now();
        for (unsigned i = 1; i <= count; i++) {
            if (sets_up) e->set_up(m);
            if (seals) {
                number(nonce, i);
                e->seal(nonce, text, length, tag);
            }
            if (opens) {
                memcpy(text, sealed, length);
                if (!e->open(nonce, text, length, tag)) fail("a good tag was refused");
            }
        }
        uint64_t took = now() - began;
        if (only_set_up) e->seal(nonce, text, length, tag);
        printf("%llu %016llx\n", (unsigned long long)took, (unsigned long long)digest(digest(0xcbf29ce484222325u, text, length), tag, 16));
        fflush(stdout);
        free(text), free(sealed);
    }
    return 0;
}

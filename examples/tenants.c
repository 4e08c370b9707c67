/* Seals an error page for one tenant, tries to open it as another, and opens it as the right one; then for a tenant with a longer key. Any
 * unexpected answer ends it with status 1. */
#include <ocb.h>
#include <stdio.h>
#include <stdlib.h>
#include <string.h>

static const uint8_t nonce[12] = {0, 0, 0, 0, 0, 0, 0, 0, 0, 0, 0, 1}; /* used once under each key */
static const char page[] = "503 Service Unavailable";
enum { LENGTH = sizeof page - 1 };

static void show(const char *what, const uint8_t *bytes, size_t length) {
    printf("  %s ", what);
    for (size_t i = 0; i < length; i++) printf("%02x", bytes[i]);
    printf("\n");
}

static void expect(size_t number, enum ocb_number wanted) {
    if (number == (size_t)wanted) return;
    fprintf(stderr, "tenants: answered %zu (%s), not %d\n", number, ocb_message(number), wanted);
    exit(1);
}

/* Seals the page, with the tenant's number as associated data. */
static void seal_for(uint8_t tenant, const uint8_t *state, uint8_t sealed[LENGTH], uint8_t tag[16]) {
    const uint8_t data[4] = {tenant, 0, 0, 0};
    size_t calls;
    memcpy(sealed, page, LENGTH);
    expect(ocb_seal(state, OCB_STATE_SIZE, nonce, sizeof nonce, data, sizeof data, sealed, LENGTH, tag, 16, &calls), OCB_DONE);
    printf("sealed %d bytes for tenant %d, %zu cipher calls\n", LENGTH, tenant, calls);
    show("text", sealed, LENGTH);
    show("tag ", tag, 16);
}

/* Opens a copy of the sealed page, with the tenant's number as associated data. */
static void open_as(uint8_t tenant, const uint8_t *state, const uint8_t sealed[LENGTH], const uint8_t tag[16], enum ocb_number wanted) {
    const uint8_t data[4] = {tenant, 0, 0, 0};
    uint8_t text[LENGTH];
    size_t calls;
    memcpy(text, sealed, LENGTH);
    size_t number = ocb_open(state, OCB_STATE_SIZE, nonce, sizeof nonce, data, sizeof data, text, LENGTH, tag, 16, &calls);
    expect(number, wanted);
    if (number == OCB_DONE) {
        printf("opened as tenant %d: done, %zu cipher calls\n  text %.*s\n", tenant, calls, LENGTH, (const char *)text);
    } else {
        printf("opened as tenant %d: refused with %zu (%s), %zu cipher calls\n", tenant, number, ocb_message(number), calls);
        show("text", text, LENGTH);
    }
}

int main(void) {
    const uint8_t shared_key[16] = {0, 1, 2, 3, 4, 5, 6, 7, 8, 9, 10, 11, 12, 13, 14, 15};
    const uint8_t own_key[32] = {0,  1,  2,  3,  4,  5,  6,  7,  8,  9,  10, 11, 12, 13, 14, 15,
                                 16, 17, 18, 19, 20, 21, 22, 23, 24, 25, 26, 27, 28, 29, 30, 31};
    uint8_t shared[OCB_STATE_SIZE], own[OCB_STATE_SIZE], sealed[LENGTH], tag[16];

    printf("tenants 7 and 8 share a key of 16 bytes, tenant 9 has one of 32\n");
    expect(ocb_set_up(shared, sizeof shared, shared_key, sizeof shared_key, OCB_MOST_PLACES), OCB_DONE);
    expect(ocb_set_up(own, sizeof own, own_key, sizeof own_key, OCB_MOST_PLACES), OCB_DONE);

    seal_for(7, shared, sealed, tag);
    open_as(8, shared, sealed, tag, OCB_TAG_DIFFERS);
    open_as(7, shared, sealed, tag, OCB_DONE);

    seal_for(9, own, sealed, tag);
    open_as(9, own, sealed, tag, OCB_DONE);
    return 0;
}

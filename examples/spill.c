/* Puts the error pages of three tenants into one spill file, shows its rows and bodies, reads one page back, and asks for it as another tenant.
 * Any unexpected answer ends it with status 1. */
#include <ocb.h>
#include <inttypes.h>
#include <stdio.h>
#include <stdlib.h>
#include <string.h>

enum { BUFFER = 1000, ROW = 24 };

static const struct {
    uint32_t tenant;
    const char *page;
} pages[] = {{7, "503 Service Unavailable"}, {8, "502 Bad Gateway"}, {9, "504 Gateway Timeout"}};

static void show(const char *what, const uint8_t *bytes, size_t length) {
    printf("  %s ", what);
    for (size_t i = 0; i < length; i++) printf("%02x", bytes[i]);
    printf("\n");
}

static void expect(size_t number, enum ocb_number wanted) {
    if (number == (size_t)wanted) return;
    fprintf(stderr, "spill: answered %zu (%s), not %d\n", number, ocb_message(number), wanted);
    exit(1);
}

/* A number of a file, the lowest byte first. */
static uint32_t number_at(const uint8_t *bytes) {
    return (uint32_t)bytes[0] | (uint32_t)bytes[1] << 8 | (uint32_t)bytes[2] << 16 | (uint32_t)bytes[3] << 24;
}

/* Shows a file that a function of the library accepted: places and lengths of another one may lead anywhere. */
static void show_file(const uint8_t *file, size_t length) {
    uint32_t rows = number_at(file);
    printf("the file has %" PRIu32 " rows and %zu bytes\n", rows, length);
    for (uint32_t i = 0; i < rows; i++) {
        const uint8_t *row = file + 4 + ROW * i;
        uint32_t tenant = number_at(row + 12), place = number_at(row + 16), body = number_at(row + 20);
        printf("row %" PRIu32 ": %" PRIu32 " bytes of text for tenant %" PRIu32 "\n", i, body - 16, tenant);
        show("row ", row, ROW);
        show("body", file + place, body);
    }
}

static void read_as(uint32_t tenant, const uint8_t *state, const uint8_t *buffer, size_t length, size_t row, enum ocb_number wanted) {
    uint8_t text[100];
    size_t written, calls;
    size_t number = spill_read(state, OCB_STATE_SIZE, buffer, BUFFER, length, row, tenant, text, sizeof text, &written, &calls);
    expect(number, wanted);
    if (number == OCB_DONE) {
        printf("row %zu read as tenant %" PRIu32 ": done, %zu cipher calls\n  text %.*s\n", row, tenant, calls, (int)written, (const char *)text);
    } else {
        printf("row %zu read as tenant %" PRIu32 ": refused with %zu (%s)\n", row, tenant, number, ocb_message(number));
    }
}

int main(void) {
    const uint8_t key[16] = {0, 1, 2, 3, 4, 5, 6, 7, 8, 9, 10, 11, 12, 13, 14, 15};
    uint8_t state[OCB_STATE_SIZE], buffer[BUFFER] = {0};
    size_t length = 4, calls; /* four zero bytes are an empty file */

    expect(ocb_set_up(state, sizeof state, key, sizeof key, OCB_MOST_PLACES), OCB_DONE);
    for (uint8_t i = 0; i < 3; i++) {
        const uint8_t nonce[12] = {0, 0, 0, 0, 0, 0, 0, 0, 0, 0, 0, (uint8_t)(i + 1)}; /* a new one for each page under the key */
        const char *page = pages[i].page;
        expect(spill_add(state, sizeof state, buffer, sizeof buffer, length, nonce, sizeof nonce, pages[i].tenant, (const uint8_t *)page, strlen(page),
                         &length, &calls),
               OCB_DONE);
        printf("added %zu bytes for tenant %" PRIu32 ", %zu cipher calls\n", strlen(page), pages[i].tenant, calls);
    }
    show_file(buffer, length);
    read_as(8, state, buffer, length, 1, OCB_DONE);
    read_as(7, state, buffer, length, 1, OCB_OTHER_TENANT);
    return 0;
}

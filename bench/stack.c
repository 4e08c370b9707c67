/* How many bytes of stack a call of the library takes, for each key length, texts of several lengths and spill files of several shapes: the call runs on
 * a stack that was filled with one byte, and what is no longer that byte afterwards, below the caller's frame, was used. What the end of a thread takes
 * by itself is told first. A call that is refused ends the program. */
#include <pthread.h>
#include <stdio.h>
#include <stdlib.h>
#include <string.h>
#include "ocb.h"

enum { ROOM = 1 << 20, FILL = 0xa5 };

static uint8_t state[OCB_STATE_SIZE], nonce[12], data[4], tag[16];
static uint8_t *text;
static size_t length, key_length;
static uint8_t file[65536];
static size_t rows, file_length;
static uint8_t *frame; /* where the caller's frame stands */
static size_t answer;  /* the call's */

static void *nothing(void *unused)
{
    frame = __builtin_frame_address(0);
    return unused;
}

static void *set_up(void *unused)
{
    static const uint8_t key[32];
    frame = __builtin_frame_address(0);
    answer = (ocb_set_up)(state, sizeof state, key, key_length, 26);
    return unused;
}

static void *seal(void *unused)
{
    size_t calls;
    frame = __builtin_frame_address(0);
    answer = (ocb_seal)(state, sizeof state, nonce, sizeof nonce, data, sizeof data, text, length, tag, sizeof tag, &calls);
    return unused;
}

static void *open_it(void *unused)
{
    size_t calls;
    frame = __builtin_frame_address(0);
    answer = (ocb_open)(state, sizeof state, nonce, sizeof nonce, data, sizeof data, text, length, tag, sizeof tag, &calls);
    return unused;
}

static void *add_row(void *unused)
{
    size_t calls;
    frame = __builtin_frame_address(0);
    answer = (spill_add)(state, sizeof state, file, sizeof file, file_length, nonce, sizeof nonce, 7, text, length, &file_length, &calls);
    return unused;
}

static void *read_row(void *unused)
{
    size_t written, calls;
    frame = __builtin_frame_address(0);
    answer = (spill_read)(state, sizeof state, file, sizeof file, file_length, rows - 1, 7, text, length, &written, &calls);
    return unused;
}

static void must_be_done(void)
{
    if (!answer) return;
    fprintf(stderr, "bench/stack: a call was refused with %zu\n", answer);
    exit(2);
}

static size_t used(void *(*work)(void *))
{
    uint8_t *stack;
    pthread_attr_t attributes;
    pthread_t thread;
    size_t untouched = 0;
    if (posix_memalign((void **)&stack, 4096, ROOM)) exit(2);
    memset(stack, FILL, ROOM);
    pthread_attr_init(&attributes);
    pthread_attr_setstack(&attributes, stack, ROOM);
    if (pthread_create(&thread, &attributes, work, NULL)) exit(2);
    pthread_join(thread, NULL);
    must_be_done();
    while (untouched < ROOM && stack[untouched] == FILL) untouched++;
    size_t depth = (size_t)(frame - (stack + untouched));
    free(stack);
    return depth;
}

static void lend_text(size_t of)
{
    length = of;
    free(text);
    if (!(text = calloc(1, length + 1))) exit(2);
}

int main(void)
{
    static const size_t lengths[] = {0, 11, 4096, 1 << 20};
    static const size_t files[][2] = {{1, 0}, {1, 64}, {1, 65492}, {16, 64}, {256, 0}, {256, 64}, {256, 200}}; /* rows, and bytes of each text */
    printf("no call: %zu bytes of stack\n", used(nothing));
    for (key_length = 16; key_length <= 32; key_length += 8) {
        printf("key of %zu bytes: set up %zu bytes of stack\n", key_length, used(set_up));
        for (size_t i = 0; i < sizeof lengths / sizeof *lengths; i++) {
            lend_text(lengths[i]);
            size_t sealing = used(seal), opening = used(open_it);
            printf("  %zu bytes of text: seal %zu, open %zu bytes of stack\n", length, sealing, opening);
        }
        for (size_t i = 0; i < sizeof files / sizeof *files; i++) {
            lend_text(files[i][1]);
            file_length = 4; /* an empty file */
            memset(file, 0, file_length);
            for (rows = 1; rows < files[i][0]; rows++) {
                nonce[0] = (uint8_t)rows;
                add_row(NULL);
                must_be_done();
            }
            nonce[0] = 0;
            size_t adding = used(add_row), reading = used(read_row);
            printf("  file of %zu rows and %zu bytes, %zu bytes of text: add %zu, read %zu bytes of stack\n", rows, file_length, length, adding, reading);
        }
    }
    return 0;
}

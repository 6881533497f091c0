/* Refuses each allocation of the C library in turn, for tests/parts/c_library.py. It is linked with
   --wrap=malloc,--wrap=realloc,--wrap=free. Nothing may leak, a call that is refused changes no handle, and only an
   allocation that was refused makes a call answer FIOLARGU_OUT_OF_MEMORY. */

#include <stdio.h>
#include <stdlib.h>
#include <string.h>

#include "fiolargu.h"

void *__real_malloc(size_t size);
void *__real_realloc(void *at, size_t size);
void __real_free(void *at);

/* How many allocations are left before one is refused, whether one was, and how many blocks are held. */
static long left, held;
static int refused;

static int refuses(void)
{
    if (left == 0) {
        refused = 1;
        return 1;
    }
    left--;
    return 0;
}

void *__wrap_malloc(size_t size)
{
    if (refuses()) {
        return NULL;
    }
    held++;
    return __real_malloc(size);
}

void *__wrap_realloc(void *at, size_t size)
{
    return refuses() ? NULL : __real_realloc(at, size);
}

void __wrap_free(void *at)
{
    held -= at != NULL;
    __real_free(at);
}

static int faults;

/* Only a call in which an allocation was refused answers that memory ran out. Answers whether it did. */
static int is_refused(int32_t status, const char *call)
{
    int was = refused;
    refused = 0;
    if (was != (status == FIOLARGU_OUT_OF_MEMORY) || (!was && status != FIOLARGU_OK)) {
        printf("%s: status %d, refused: %d\n", call, (int)status, was);
        faults++;
    }
    return was;
}

/* Refuses the first allocation of one call from number `from` on, until the call makes no more. */
#define EACH(call)                                                                                                     \
    do {                                                                                                               \
        long number = 0;                                                                                               \
        do {                                                                                                           \
            left = number++;                                                                                           \
        } while (is_refused(call, #call));                                                                             \
        refusals += number - 1;                                                                                        \
        left = -1;                                                                                                     \
    } while (0)

/* A feed in which nothing ends takes no memory, whatever the stream holds: all but the last byte of the longest literal
   there may be. */
static void feeds_without_memory(void)
{
    static uint8_t text[4095];
    const fiolargu_bytes longest = {text, sizeof text};
    fiolargu_plan plan = {NULL};
    fiolargu_stream stream = {NULL};
    fiolargu_hit hits[2];
    size_t fed, count, fault_at;
    memset(text, 'a', sizeof text);
    fiolargu_plan_new(&plan, &longest, 1, 0, NULL, 0, &fault_at);
    fiolargu_stream_open(&plan, &stream, 0);
    left = 0;
    int32_t status = fiolargu_stream_feed(&stream, text, sizeof text - 1, &fed, hits, 2, &count);
    left = -1;
    if (status != FIOLARGU_OK || refused || fed != sizeof text - 1 || count != 0) {
        printf("without memory: status %d, refused: %d, fed %zu, %zu hits\n", (int)status, refused, fed, count);
        faults++;
    }
    refused = 0;
    status = fiolargu_stream_feed(&stream, text, 1, &fed, hits, 2, &count);
    if (status != FIOLARGU_OK || fed != 1 || count != 1 || hits[0].literal != 0 || hits[0].end != sizeof text) {
        printf("the last byte of the longest literal: status %d, fed %zu, %zu hits\n", (int)status, fed, count);
        faults++;
    }
    fiolargu_stream_close(&stream);
    fiolargu_plan_free(&plan);
}

int main(void)
{
    static uint8_t text[4096], file[4096];
    static fiolargu_hit hits[8192];
    const fiolargu_bytes words[3] = {{(const uint8_t *)"abc", 3}, {(const uint8_t *)"bc", 2}, {(const uint8_t *)"Cab", 3}};
    fiolargu_plan plan = {NULL}, other = {NULL}, third = {NULL};
    fiolargu_stream stream = {NULL}, twin = {NULL};
    uint32_t literal_of[3];
    size_t place, count, fed, len, plans, fault_at;
    long refusals = 0;
    for (size_t i = 0; i < sizeof text; i++) {
        text[i] = (uint8_t) "abc"[i % 3];
    }
    left = -1;
    EACH(fiolargu_plan_new(&plan, words, 3, FIOLARGU_IGNORE_CASE, literal_of, 3, &fault_at));
    EACH(fiolargu_plan_of_lines(&other, (const uint8_t *)"abc\nde\n", 7, 0, &fault_at));
    EACH(fiolargu_plan_share(&plan, &other));
    EACH((place = 0, fiolargu_scan(&plan, text, sizeof text, &place, hits, 8192, &count)));
    if (place != sizeof text || count != 1365 + 1365 + 1364) {
        printf("%zu hits up to %zu\n", count, place);
        faults++;
    }
    EACH(fiolargu_plan_save(&plan, file, sizeof file, &len));
    EACH(fiolargu_plan_load(&third, file, len, 0, &fault_at));
    EACH(fiolargu_check(file, len, &plans, &fault_at));
    EACH(fiolargu_stream_open(&other, &stream, 7));
    EACH(fiolargu_stream_feed(&stream, text, 1000, &fed, hits, 8192, &count));
    EACH(fiolargu_stream_copy(&stream, &twin));
    EACH(fiolargu_stream_feed(&twin, text, 3000, &fed, hits, 8192, &count));
    fiolargu_plan_free(&plan);
    fiolargu_plan_free(&other);
    fiolargu_plan_free(&third);
    fiolargu_stream_close(&stream);
    fiolargu_stream_close(&twin);
    feeds_without_memory();
    if (held != 0) {
        printf("%ld blocks were not freed\n", held);
        faults++;
    }
    printf("%ld refusals, %d faults\n", refusals, faults);
    return faults > 0;
}

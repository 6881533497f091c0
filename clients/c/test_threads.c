/* Shares a plan with threads, for tests/parts/c_library.py: each has a handle of its own, scans, shares, streams and frees. */

#include <pthread.h>
#include <stdio.h>
#include <stdlib.h>

#include "fiolargu.h"

enum { THREADS = 4, TURNS = 20, ROOM = 2048 };

static uint8_t text[1 << 16];
static size_t wanted;

/* The number of hits of the text, or a number that no text has. */
static size_t hits_of(fiolargu_plan *plan)
{
    fiolargu_hit hits[ROOM];
    size_t place = 0, count, total = 0;
    while (place < sizeof text) {
        if (fiolargu_scan(plan, text, sizeof text, &place, hits, ROOM, &count) != FIOLARGU_OK) {
            return SIZE_MAX;
        }
        total += count;
    }
    return total;
}

static size_t hits_of_stream(fiolargu_plan *plan)
{
    fiolargu_stream stream = {NULL};
    fiolargu_hit hits[ROOM];
    size_t fed, count, total = 0;
    if (fiolargu_stream_open(plan, &stream, 0) != FIOLARGU_OK) {
        return SIZE_MAX;
    }
    fiolargu_plan_free(plan);
    for (size_t at = 0; at < sizeof text; at += fed) {
        size_t len = sizeof text - at < 1000 ? sizeof text - at : 1000;
        if (fiolargu_stream_feed(&stream, text + at, len, &fed, hits, ROOM, &count) != FIOLARGU_OK) {
            return SIZE_MAX;
        }
        total += count;
    }
    fiolargu_stream_close(&stream);
    return total;
}

static void *work(void *own)
{
    fiolargu_plan *plan = own;
    for (int turn = 0; turn < TURNS; turn++) {
        fiolargu_plan mine = {NULL};
        if (hits_of(plan) != wanted || fiolargu_plan_share(plan, &mine) != FIOLARGU_OK || hits_of_stream(&mine) != wanted) {
            abort();
        }
    }
    fiolargu_plan_free(plan);
    return NULL;
}

int main(void)
{
    const fiolargu_bytes words[3] = {{(const uint8_t *)"abc", 3}, {(const uint8_t *)"deab", 4}, {(const uint8_t *)"cd", 2}};
    fiolargu_plan plan = {NULL}, own[THREADS];
    pthread_t threads[THREADS];
    uint32_t none, state = 1;
    size_t fault_at;
    for (size_t i = 0; i < sizeof text; i++) {
        state = state * 1103515245u + 12345u;
        text[i] = (uint8_t) "abcde \n"[(state >> 16) % 7];
    }
    if (fiolargu_plan_new(&plan, words, 3, 0, &none, 0, &fault_at) != FIOLARGU_OK) {
        return 1;
    }
    wanted = hits_of(&plan);
    for (int i = 0; i < THREADS; i++) {
        own[i].at = NULL;
        if (fiolargu_plan_share(&plan, &own[i]) != FIOLARGU_OK || pthread_create(&threads[i], NULL, work, &own[i]) != 0) {
            return 1;
        }
    }
    fiolargu_plan_free(&plan);
    for (int i = 0; i < THREADS; i++) {
        pthread_join(threads[i], NULL);
    }
    printf("%d threads, %s\n", THREADS, wanted > 0 && wanted < SIZE_MAX ? "each found all hits" : "no hits");
    return 0;
}

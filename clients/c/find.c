/* Finds words in standard input: one line for each hit, `LITERAL START END`.

       cc -std=c99 -Wall -Wextra -o find clients/c/find.c $(pkg-config --cflags --libs fiolargu) && ./find cat dog < text

   Status 0, or 2 at an error, with a message. The literals are numbered by length, then by their bytes. */

#include <inttypes.h>
#include <stdio.h>
#include <stdlib.h>
#include <string.h>

#include "fiolargu.h"

enum { ROOM = 8192, PIECE = 65536 };

static fiolargu_hit hits[ROOM];
static uint8_t piece[PIECE];

static void fail(const char *what)
{
    fprintf(stderr, "find: %s\n", what);
    exit(2);
}

/* Ends at an error. */
static void expect_ok(int32_t status)
{
    if (status != FIOLARGU_OK) {
        fail(fiolargu_message(status));
    }
}

/* Feeds all of a piece and prints its hits. */
static void search(fiolargu_stream *stream, size_t len)
{
    size_t fed, count;
    for (size_t at = 0; at < len; at += fed) {
        expect_ok(fiolargu_stream_feed(stream, piece + at, len - at, &fed, hits, ROOM, &count));
        for (size_t i = 0; i < count; i++) {
            printf("%" PRIu32 " %" PRIu64 " %" PRIu64 "\n", hits[i].literal, hits[i].end - hits[i].length, hits[i].end);
        }
    }
}

int main(int argc, char **argv)
{
    static fiolargu_bytes words[4097];
    static uint32_t literal_of[4097];
    size_t count = argc > 4097 ? 4097 : (size_t)(argc - 1), fault_at, len;
    fiolargu_plan plan = {NULL};
    fiolargu_stream stream = {NULL};

    for (size_t i = 0; i < count; i++) {
        words[i].at = (const uint8_t *)argv[i + 1];
        words[i].len = strlen(argv[i + 1]);
    }
    expect_ok(fiolargu_plan_new(&plan, words, count, 0, literal_of, count, &fault_at));
    expect_ok(fiolargu_stream_open(&plan, &stream, 0));
    while ((len = fread(piece, 1, PIECE, stdin)) > 0) {
        search(&stream, len);
    }
    fiolargu_stream_close(&stream);
    fiolargu_plan_free(&plan);
    if (ferror(stdin)) {
        fail("standard input cannot be read");
    }
    if (fflush(stdout) != 0 || ferror(stdout)) {
        fail("standard output cannot be written");
    }
    return 0;
}

/* Reads texts of frames, and writes what scand.h makes of them, for tests/parts/c_header.py. A text of standard input is
   a byte `q` for requests or `p` for replies, its size in four bytes, and its bytes. A line is written for each frame,
   and one for the end of the text. Each request is also written anew, and into too little room. */

#include <inttypes.h>
#include <stdio.h>
#include <stdlib.h>

#include "scand.h"

static void check(int holds, const char *what)
{
    if (!holds) {
        fprintf(stderr, "test_frames: %s\n", what);
        exit(1);
    }
}

/* A copy with not a byte of room behind it, so that a sanitizer sees each read past it. */
static uint8_t *copied(const uint8_t *from, size_t size)
{
    uint8_t *copy = malloc(size > 0 ? size : 1);
    check(copy != NULL, "out of memory");
    if (size > 0) {
        memcpy(copy, from, size);
    }
    return copy;
}

static void print_bytes(struct scand_text text)
{
    putchar(' ');
    for (size_t place = 0; place < text.size; place++) {
        printf("%02x", text.at[place]);
    }
}

/* Writes a request anew into so much room. */
static size_t rewritten(const struct scand_frame *frame, uint8_t *to, size_t room)
{
    static struct scand_text literals[SCAND_PAYLOAD];
    struct scand_text left;
    size_t count, place = 0;
    switch (frame->kind) {
    case SCAND_PUBLISH:
        left = scand_literals(frame, &count);
        while (scand_next_literal(&left, &literals[place])) {
            place++;
        }
        check(place == count, "the number of literals");
        return scand_put_publish(to, room, frame->payload.at[0], literals, count);
    case SCAND_OPEN:
        return scand_put_open(to, room, frame->stream, scand_number(frame));
    case SCAND_FEED:
        return scand_put_feed(to, room, frame->stream, frame->payload);
    case SCAND_CLOSE:
        return scand_put_close(to, room, frame->stream);
    default:
        return scand_put_show_plan(to, room, frame->stream);
    }
}

static void check_rewritten(const struct scand_frame *frame, const uint8_t *from, size_t size)
{
    uint8_t *room = malloc(size);
    check(room != NULL, "out of memory");
    check(rewritten(frame, room, size) == size && memcmp(room, from, size) == 0, "a frame written anew");
    free(room);
    for (size_t less = size > 40 ? size - 40 : 0; less < size; less++) {
        uint8_t *narrow = copied(from, less);
        check(rewritten(frame, narrow, less) == 0, "a frame in too little room");
        check(memcmp(narrow, from, less) == 0, "bytes written in too little room");
        free(narrow);
    }
}

static int print_request(const struct scand_frame *frame)
{
    int cause = scand_cause_of(frame);
    if (cause == 0) {
        printf("%d %" PRIu32, frame->kind, frame->stream);
        if (frame->kind == SCAND_OPEN) {
            printf(" %" PRIu64, scand_number(frame));
        } else {
            print_bytes(frame->payload);
        }
        putchar('\n');
    }
    return cause;
}

static int print_reply(const struct scand_frame *frame)
{
    if (!scand_is_reply(frame)) {
        return SCAND_BAD_PAYLOAD;
    }
    printf("%d %" PRIu32, frame->kind, frame->stream);
    if (frame->kind == SCAND_PUBLISHED || frame->kind == SCAND_FED) {
        printf(" %" PRIu64, scand_number(frame));
    } else if (frame->kind == SCAND_HITS) {
        for (size_t place = 0; place < scand_hit_count(frame); place++) {
            struct scand_hit hit = scand_hit_at(frame, place);
            printf(" %u:%" PRIu64, (unsigned)hit.literal, hit.end);
        }
    } else if (frame->kind == SCAND_PLAN) {
        struct scand_shown shown = scand_shown_of(frame);
        printf(" %d %u %u %" PRIu64, shown.ignores_case, (unsigned)shown.buckets, (unsigned)shown.literals, shown.price);
        for (size_t place = 0; place < shown.runs; place++) {
            printf(" %u", (unsigned)scand_run_end(frame, place));
        }
    } else if (frame->kind == SCAND_REFUSED) {
        printf(" %u %u", (unsigned)scand_code(frame), (unsigned)scand_detail(frame));
    }
    putchar('\n');
    return 0;
}

/* Writes a line for each frame of a text up to its end or the first bad one, and one for the end. */
static void print_text(int side, const uint8_t *text, size_t size)
{
    size_t at = 0;
    for (;;) {
        struct scand_frame frame;
        size_t used = 0;
        uint8_t *rest = copied(text + at, size - at);
        enum scand_state state = scand_take((struct scand_text){rest, size - at}, &frame, &used);
        int cause = state == SCAND_WRONG ? SCAND_BAD_LENGTH : 0;
        if (state == SCAND_WHOLE) {
            cause = side == 'q' ? print_request(&frame) : print_reply(&frame);
        }
        if (state == SCAND_WHOLE && cause == 0 && side == 'q') {
            check_rewritten(&frame, rest, used);
        }
        free(rest);
        if (state != SCAND_WHOLE || cause != 0) {
            if (cause != 0) {
                printf("bad %d\n", cause);
            } else {
                puts(at == size ? "clean" : "truncated");
            }
            return;
        }
        at += used;
    }
}

/* Payloads that fill a frame, and ones that have a byte more. */
static void check_limits(void)
{
    enum { ROOM = SCAND_FRAME + 100 };
    static uint8_t room[ROOM], text[ROOM];
    struct scand_text full = {text, SCAND_PAYLOAD}, more = {text, SCAND_PAYLOAD + 1};
    check(scand_put_feed(room, ROOM, 1, full) == SCAND_FRAME, "a full Feed");
    check(scand_put_feed(room, ROOM, 1, more) == 0, "a Feed with a byte more");
    check(scand_put_head(room, ROOM, SCAND_FEED, 1, full.size) == SCAND_HEAD, "the head of a full Feed");
    check(scand_put_head(room, ROOM, SCAND_FEED, 1, more.size) == 0, "the head of a Feed with a byte more");
    check(scand_put_head(room, SCAND_HEAD - 1, SCAND_FEED, 1, 0) == 0, "a head in too little room");
    struct scand_text literals[2] = {{text, 10}, {text, SCAND_PAYLOAD - 3 - 2 - 10 - 2}};
    check(scand_put_publish(room, ROOM, 0, literals, 2) == SCAND_FRAME, "a full Publish");
    literals[1].size++;
    check(scand_put_publish(room, ROOM, 0, literals, 2) == 0, "a Publish with a byte more");
    literals[0].size = SIZE_MAX;
    check(scand_put_publish(room, ROOM, 0, literals, 2) == 0, "a Publish of the longest literal");
    literals[0].size = literals[1].size = 10;
    check(scand_put_publish(room, ROOM, SCAND_FLAGS_ALL, literals, 2) > 0, "a Publish with both flags");
    check(scand_put_publish(room, ROOM, SCAND_FLAGS_ALL + 1, literals, 2) == 0, "a Publish with an unknown flag");
}

int main(void)
{
    int side;
    check_limits();
    while ((side = getchar()) != EOF) {
        uint8_t head[4];
        check(fread(head, 1, 4, stdin) == 4, "a text without a size");
        size_t size = (size_t)scand_get(head, 4);
        uint8_t *text = malloc(size + 1);
        check(text != NULL && fread(text, 1, size, stdin) == size, "a text that is cut");
        print_text(side, text, size);
        free(text);
    }
    return 0;
}

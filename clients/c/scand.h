/* The frames of scand, written and read: one header of C99, without allocation or system calls. docs/FORMATS.md
   describes them.

   Writing: `scand_put_..` writes one frame to `to`, which has room for `room` bytes, and returns the frame's length. It
   returns 0, and writes nothing, if the frame does not fit or would be wrong. Each frame fits SCAND_FRAME bytes.

   Reading: `scand_take` finds the first frame in the bytes that have come so far. The frame points into these bytes.
   Read a reply only if `scand_is_reply` returns 1, and a request only if `scand_cause_of` returns 0: then the readers
   below touch nothing but the payload. */

#ifndef SCAND_H
#define SCAND_H

#include <stddef.h>
#include <stdint.h>
#include <string.h>

/* Bytes of a frame before its payload, of the largest payload and frame; the most hits of one Hits. */
enum { SCAND_HEAD = 9, SCAND_PAYLOAD = 65536, SCAND_FRAME = 65545, SCAND_HITS_MOST = 4096 };

enum scand_kind {
    SCAND_PUBLISH = 0x01,
    SCAND_OPEN = 0x02,
    SCAND_FEED = 0x03,
    SCAND_CLOSE = 0x04,
    SCAND_SHOW_PLAN = 0x05,
    SCAND_PUBLISHED = 0x11,
    SCAND_OPENED = 0x12,
    SCAND_HITS = 0x13,
    SCAND_FED = 0x14,
    SCAND_CLOSED = 0x15,
    SCAND_PLAN = 0x16,
    SCAND_REFUSED = 0x17
};

/* Codes of a Refused. */
enum scand_refusal {
    SCAND_TOO_MANY_PATTERNS = 2,
    SCAND_LITERAL_TOO_LONG = 3,
    SCAND_EMPTY_LITERAL = 4,
    SCAND_NO_LITERALS = 5,
    SCAND_TOO_MANY_LITERALS = 6, /* not answered any more */
    SCAND_BAD_FRAME = 11,
    SCAND_STREAM_IN_USE = 12,
    SCAND_NO_SUCH_STREAM = 13,
    SCAND_NO_SUCH_PLAN = 14,
    SCAND_PLAN_QUOTA = 15,
    SCAND_STREAM_QUOTA = 16,
    SCAND_STREAM_TOO_LONG = 20
};

/* Flags of a Publish and of a Plan: ASCII case is ignored; the plan may have sixteen buckets, not eight. */
enum scand_flags { SCAND_IGNORES_CASE = 1, SCAND_SIXTEEN_BUCKETS = 2, SCAND_FLAGS_ALL = 3 };

/* What is wrong with a frame. */
enum scand_cause { SCAND_BAD_LENGTH = 1, SCAND_BAD_KIND = 2, SCAND_BAD_STREAM = 3, SCAND_BAD_PAYLOAD = 4 };

/* Whether a frame has come: not yet; yes; or never, since its length is wrong. */
enum scand_state { SCAND_WAITS = 0, SCAND_WHOLE = 1, SCAND_WRONG = 2 };

struct scand_text {
    const uint8_t *at;
    size_t size;
};

struct scand_frame {
    uint8_t kind;
    uint32_t stream;
    struct scand_text payload;
};

struct scand_hit {
    uint16_t literal;
    uint64_t end;
};

/* A Plan, without the ends of its runs. It may have `buckets` runs: 8 or 16. */
struct scand_shown {
    int ignores_case;
    uint16_t literals;
    uint64_t price;
    uint8_t runs;
    uint8_t buckets;
};

/* Numbers of some bytes, big-endian. */

static inline uint64_t scand_get(const uint8_t *from, size_t bytes)
{
    uint64_t number = 0;
    for (size_t place = 0; place < bytes; place++) {
        number = number << 8 | from[place];
    }
    return number;
}

static inline void scand_put(uint8_t *to, size_t bytes, uint64_t number)
{
    for (size_t place = bytes; place > 0; place--) {
        to[place - 1] = (uint8_t)(number & 0xff);
        number >>= 8;
    }
}

/* Writing. */

/* The head of a frame with `size` bytes of payload, which the caller sends after it. */
static inline size_t scand_put_head(uint8_t *to, size_t room, uint8_t kind, uint32_t stream, size_t size)
{
    if (size > SCAND_PAYLOAD || room < SCAND_HEAD) {
        return 0;
    }
    scand_put(to, 4, 5 + size);
    to[4] = kind;
    scand_put(to + 5, 4, stream);
    return SCAND_HEAD;
}

static inline size_t scand_put_frame(uint8_t *to, size_t room, uint8_t kind, uint32_t stream, struct scand_text payload)
{
    if (payload.size > SCAND_PAYLOAD || room < SCAND_HEAD + payload.size) {
        return 0;
    }
    if (payload.size > 0) {
        memcpy(to + SCAND_HEAD, payload.at, payload.size);
    }
    return scand_put_head(to, room, kind, stream, payload.size) + payload.size;
}

/* A Publish of these literals, with flags or 0. A literal of more than 65,531 bytes does not fit. */
static inline size_t scand_put_publish(uint8_t *to, size_t room, unsigned flags, const struct scand_text *literals, size_t count)
{
    size_t size = 3;
    if (flags > SCAND_FLAGS_ALL) {
        return 0;
    }
    for (size_t place = 0; place < count; place++) {
        if (literals[place].size > SCAND_PAYLOAD - 2 || size > SCAND_PAYLOAD - 2 - literals[place].size) {
            return 0;
        }
        size += 2 + literals[place].size;
    }
    if (room < SCAND_HEAD + size) {
        return 0;
    }
    (void)scand_put_head(to, room, SCAND_PUBLISH, 0, size);
    to[SCAND_HEAD] = (uint8_t)flags;
    scand_put(to + SCAND_HEAD + 1, 2, count);
    uint8_t *at = to + SCAND_HEAD + 3;
    for (size_t place = 0; place < count; place++) {
        scand_put(at, 2, literals[place].size);
        if (literals[place].size > 0) {
            memcpy(at + 2, literals[place].at, literals[place].size);
        }
        at += 2 + literals[place].size;
    }
    return SCAND_HEAD + size;
}

static inline size_t scand_put_open(uint8_t *to, size_t room, uint32_t stream, uint64_t plan)
{
    uint8_t number[8];
    scand_put(number, 8, plan);
    return scand_put_frame(to, room, SCAND_OPEN, stream, (struct scand_text){number, 8});
}

static inline size_t scand_put_feed(uint8_t *to, size_t room, uint32_t stream, struct scand_text piece)
{
    return scand_put_frame(to, room, SCAND_FEED, stream, piece);
}

static inline size_t scand_put_close(uint8_t *to, size_t room, uint32_t stream)
{
    return scand_put_frame(to, room, SCAND_CLOSE, stream, (struct scand_text){NULL, 0});
}

static inline size_t scand_put_show_plan(uint8_t *to, size_t room, uint32_t stream)
{
    return scand_put_frame(to, room, SCAND_SHOW_PLAN, stream, (struct scand_text){NULL, 0});
}

/* Reading. */

/* The first frame in some bytes. Where it is whole, `used` says how many of them it has. */
static inline enum scand_state scand_take(struct scand_text from, struct scand_frame *frame, size_t *used)
{
    if (from.size < 4) {
        return SCAND_WAITS;
    }
    size_t length = (size_t)scand_get(from.at, 4);
    if (length < 5 || length > SCAND_PAYLOAD + 5) {
        return SCAND_WRONG;
    }
    if (from.size < 4 + length) {
        return SCAND_WAITS;
    }
    frame->kind = from.at[4];
    frame->stream = (uint32_t)scand_get(from.at + 5, 4);
    frame->payload = (struct scand_text){from.at + SCAND_HEAD, length - 5};
    *used = 4 + length;
    return SCAND_WHOLE;
}

/* Cuts the next literal off the rest of a Publish's literals. 0 if it is not whole. */
static inline int scand_next_literal(struct scand_text *left, struct scand_text *literal)
{
    if (left->size < 2) {
        return 0;
    }
    size_t size = (size_t)scand_get(left->at, 2);
    if (left->size - 2 < size) {
        return 0;
    }
    *literal = (struct scand_text){left->at + 2, size};
    *left = (struct scand_text){left->at + 2 + size, left->size - 2 - size};
    return 1;
}

/* The bytes of a Publish that hold its literals, and how many there are. */
static inline struct scand_text scand_literals(const struct scand_frame *frame, size_t *count)
{
    *count = (size_t)scand_get(frame->payload.at + 1, 2);
    return (struct scand_text){frame->payload.at + 3, frame->payload.size - 3};
}

static inline int scand_is_publish(const struct scand_frame *frame)
{
    if (frame->payload.size < 3 || frame->payload.at[0] > SCAND_FLAGS_ALL) {
        return 0;
    }
    size_t count;
    struct scand_text left = scand_literals(frame, &count), literal;
    while (count > 0 && scand_next_literal(&left, &literal)) {
        count--;
    }
    return count == 0 && left.size == 0;
}

/* What is wrong with a whole frame as a request, or 0. */
static inline int scand_cause_of(const struct scand_frame *frame)
{
    int is_right = 0;
    switch (frame->kind) {
    case SCAND_PUBLISH:
        if (frame->stream != 0) {
            return SCAND_BAD_STREAM;
        }
        is_right = scand_is_publish(frame);
        break;
    case SCAND_OPEN:
        is_right = frame->payload.size == 8;
        break;
    case SCAND_FEED:
        is_right = 1;
        break;
    case SCAND_CLOSE:
    case SCAND_SHOW_PLAN:
        is_right = frame->payload.size == 0;
        break;
    default:
        return SCAND_BAD_KIND;
    }
    return is_right ? 0 : SCAND_BAD_PAYLOAD;
}

/* Whether a whole frame is a reply: of a known kind, with a payload of that kind. */
static inline int scand_is_reply(const struct scand_frame *frame)
{
    struct scand_text payload = frame->payload;
    size_t count;
    switch (frame->kind) {
    case SCAND_PUBLISHED:
        return frame->stream == 0 && payload.size == 8;
    case SCAND_OPENED:
    case SCAND_CLOSED:
        return payload.size == 0;
    case SCAND_HITS:
        count = payload.size < 2 ? 0 : (size_t)scand_get(payload.at, 2);
        return count >= 1 && count <= SCAND_HITS_MOST && payload.size == 2 + 10 * count;
    case SCAND_FED:
        return payload.size == 8;
    case SCAND_PLAN:
        return payload.size >= 12 && payload.at[0] <= SCAND_FLAGS_ALL && payload.size == 12 + 2 * (size_t)payload.at[11];
    case SCAND_REFUSED:
        return payload.size == 3;
    default:
        return 0;
    }
}

/* The number that a Published, a Fed or an Open holds: a plan's, the place in the stream, a plan's. */
static inline uint64_t scand_number(const struct scand_frame *frame)
{
    return scand_get(frame->payload.at, 8);
}

static inline size_t scand_hit_count(const struct scand_frame *frame)
{
    return (size_t)scand_get(frame->payload.at, 2);
}

/* A hit of a Hits, from 0. */
static inline struct scand_hit scand_hit_at(const struct scand_frame *frame, size_t place)
{
    const uint8_t *at = frame->payload.at + 2 + 10 * place;
    return (struct scand_hit){(uint16_t)scand_get(at, 2), scand_get(at + 2, 8)};
}

static inline struct scand_shown scand_shown_of(const struct scand_frame *frame)
{
    const uint8_t *at = frame->payload.at;
    int ignores_case = (at[0] & SCAND_IGNORES_CASE) != 0;
    uint8_t buckets = (at[0] & SCAND_SIXTEEN_BUCKETS) != 0 ? 16 : 8;
    return (struct scand_shown){ignores_case, (uint16_t)scand_get(at + 1, 2), scand_get(at + 3, 8), at[11], buckets};
}

/* Where a run of a Plan ends, from 0. */
static inline uint16_t scand_run_end(const struct scand_frame *frame, size_t place)
{
    return (uint16_t)scand_get(frame->payload.at + 12 + 2 * place, 2);
}

static inline uint8_t scand_code(const struct scand_frame *frame)
{
    return frame->payload.at[0];
}

/* The detail of a Refused: a place, the cause of a bad frame, or 0. */
static inline uint16_t scand_detail(const struct scand_frame *frame)
{
    return (uint16_t)scand_get(frame->payload.at + 1, 2);
}

#endif

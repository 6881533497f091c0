/* Fiolargu: search for many literals at once, from C99 and C++. Link with -lfiolargu.

   A plan holds a list of literals, ready to search. `fiolargu_scan` searches a text that is in memory, and a stream
   searches a text that comes in pieces. Both report every hit once, in order of its end, and of its literal where ends
   are equal.

       fiolargu_bytes words[2] = {{(const uint8_t *)"cat", 3}, {(const uint8_t *)"dog", 3}};
       fiolargu_plan plan = {0};
       uint32_t literal_of[2];
       size_t fault_at, place = 0, count;
       fiolargu_hit hits[256];
       int32_t status = fiolargu_plan_new(&plan, words, 2, 0, literal_of, 2, &fault_at);
       while (status == FIOLARGU_OK && place < len) {
           status = fiolargu_scan(&plan, text, len, &place, hits, 256, &count);
           for (size_t i = 0; i < count; i++)
               use(text + hits[i].end - hits[i].length, hits[i].length);
       }
       fiolargu_plan_free(&plan);

   Rules that the caller keeps. The library cannot check them:

   1. A handle (`fiolargu_plan`, `fiolargu_stream`) is all zero before its first use. Only the calls below write it. It is
      never copied by assignment: `fiolargu_plan_share` and `fiolargu_stream_copy` make a second one. It may be moved
      while no call uses it, if the old variable is not used again.
   2. One call at a time uses a handle, even where it only reads. Each thread takes a handle of its own by
      `fiolargu_plan_share`, which copies no literal. A handle may go to another thread under a lock, by the start or the
      end of a thread, or by a sequentially consistent atomic.
   3. No pointer is NULL, not even if the length that goes with it is 0: pass the address of any object then. A pointer is
      aligned for its type, and leads to as many initialised objects as its length says, below 2^63 bytes.
   4. What a call writes (handles, counts, buffers) overlaps nothing else that is passed to the call. No other thread
      writes what a call reads, or uses what it writes, while it runs.
   5. No call comes from a signal handler, or from a forked child of a process that had several threads.
   6. A thread that calls has 256 KiB of stack left.

   A call needs no set-up and no clean-up, keeps no pointer but those in its handles, prints nothing, sets no `errno` and
   never ends the process. It allocates by `malloc`, `realloc` and `free`.

   If a call answers a status other than FIOLARGU_OK, each handle holds what it held before, `*place` is as it was, and
   `*count` and `*fed` are 0. */

#ifndef FIOLARGU_H
#define FIOLARGU_H

#include <stddef.h>
#include <stdint.h>

#ifdef __cplusplus
extern "C" {
#endif

/* The version of this header: 1,000,000 times the first number, 1,000 times the second, and the third. */
#define FIOLARGU_VERSION 2000

/* What a call answers. The programs name refusals by the same numbers (docs/FORMATS.md). */
enum fiolargu_status {
    FIOLARGU_OK = 0,
    FIOLARGU_OUT_OF_MEMORY = 1,      /* an allocation was refused */
    FIOLARGU_TOO_MANY_PATTERNS = 2,  /* more than 4,096 patterns */
    FIOLARGU_LITERAL_TOO_LONG = 3,   /* a pattern has more than 4,095 bytes */
    FIOLARGU_NO_LITERALS = 5,        /* no pattern, or empty patterns only */
    FIOLARGU_LIST_TOO_LARGE = 7,     /* more than 1,048,576 pattern bytes, or a text of more than 1,052,672 bytes */
    FIOLARGU_BAD_PLAN_FILE = 10,     /* the bytes are no plan file, or a plan in it is not certified */
    FIOLARGU_NO_SUCH_PLAN = 14,      /* the plan file has no plan of this number */
    FIOLARGU_STREAM_TOO_LONG = 20,   /* the position in the stream would pass 2^64 - 1 */
    FIOLARGU_NULL_HANDLE = 21,       /* the handle is null: all zero, freed or closed */
    FIOLARGU_SMALL_BUFFER = 22,      /* the buffer is too small; each call says how much it needs */
    FIOLARGU_OUT_OF_RANGE = 23       /* a position after the end of the text, a literal that the plan does not have, or an
                                        unknown flag */
};

/* Flags of a plan, as in plan files and in frames: ASCII case is ignored; up to sixteen buckets instead of eight. */
enum fiolargu_flags { FIOLARGU_IGNORE_CASE = 1, FIOLARGU_SIXTEEN_BUCKETS = 2 };

/* In `literal_of`: the pattern is empty, so it has no literal. */
#define FIOLARGU_NO_LITERAL UINT32_MAX

/* Handles. `at` is the library's own; NULL is the null handle. */
typedef struct fiolargu_plan {
    void *at;
} fiolargu_plan;

typedef struct fiolargu_stream {
    void *at;
} fiolargu_stream;

/* Bytes of the caller, of any value. */
typedef struct fiolargu_bytes {
    const uint8_t *at;
    size_t len;
} fiolargu_bytes;

/* A literal that ends in a text: its number in the plan, and its length in bytes. It covers the bytes from `end - length`
   up to, but not including, `end`, counted from the start of the text, or from the base of the stream. */
typedef struct fiolargu_hit {
    uint64_t end;
    uint32_t literal;
    uint32_t length;
} fiolargu_hit;

/* What a plan has: the number of its literals, the length of the longest of them in bytes, the cost of its certificate,
   the flags that it was made with, and the number of its runs, which are the buckets that it uses. */
typedef struct fiolargu_info {
    uint64_t literals;
    uint64_t longest;
    uint64_t cost;
    uint32_t flags;
    uint32_t runs;
} fiolargu_info;

/* The version of the library, as FIOLARGU_VERSION counts. */
uint32_t fiolargu_version(void);

/* ---- Plans */

/* Makes a plan of `count` patterns. Its literals are the patterns that are not empty, each once, ordered by length and then
   by bytes; under FIOLARGU_IGNORE_CASE with `A` to `Z` as `a` to `z`. A plan that the handle held before is freed.

   `literal_of` has room for `literal_of_len` numbers: 0, if they are not wanted, or at least `count`. It gets for each
   pattern the number of its literal, or FIOLARGU_NO_LITERAL. `*fault_at` gets the position of the pattern on
   FIOLARGU_LITERAL_TOO_LONG, counted from 0, and 0 on any other status.

   Status: OUT_OF_RANGE (unknown flag), SMALL_BUFFER (`literal_of_len` is neither 0 nor as much as `count`),
   TOO_MANY_PATTERNS, LITERAL_TOO_LONG, LIST_TOO_LARGE, NO_LITERALS, OUT_OF_MEMORY. */
int32_t fiolargu_plan_new(fiolargu_plan *plan, const fiolargu_bytes *patterns, size_t count, uint32_t flags,
                          uint32_t *literal_of, size_t literal_of_len, size_t *fault_at);

/* Makes a plan of the lines of a text, as of a pattern file. A newline ends each pattern; a last line needs none.

   `*fault_at` and the status are as those of `fiolargu_plan_new`, without SMALL_BUFFER. */
int32_t fiolargu_plan_of_lines(fiolargu_plan *plan, const uint8_t *text, size_t len, uint32_t flags, size_t *fault_at);

/* Reads a plan file, checks all of its certificates, and takes the plan of number `which` from it, counted from 0. A plan
   that the handle held before is freed. `*fault_at` gets the offset of the first faulty field on FIOLARGU_BAD_PLAN_FILE,
   and 0 on any other status.

   Status: BAD_PLAN_FILE, NO_SUCH_PLAN, OUT_OF_MEMORY. */
int32_t fiolargu_plan_load(fiolargu_plan *plan, const uint8_t *file, size_t len, size_t which, size_t *fault_at);

/* Writes a plan file with this plan, and its length to `*len`. Where the buffer has less room, `*len` is the room that is
   needed, and the buffer is as it was. On any other status `*len` is 0.

   Status: NULL_HANDLE, SMALL_BUFFER, OUT_OF_MEMORY. */
int32_t fiolargu_plan_save(fiolargu_plan *plan, uint8_t *buffer, size_t room, size_t *len);

/* Makes `other` a second handle of the same plan, for another thread. What `other` held before is freed.

   Status: NULL_HANDLE (`plan` is null), OUT_OF_MEMORY. */
int32_t fiolargu_plan_share(fiolargu_plan *plan, fiolargu_plan *other);

/* Writes what the plan has to `*info`. On another status `*info` is as it was.

   Status: NULL_HANDLE. */
int32_t fiolargu_plan_info(fiolargu_plan *plan, fiolargu_info *info);

/* Writes the bytes of the literal of number `literal`, and their number to `*len`. Where the buffer has less room, `*len` is
   the room that is needed, and the buffer is as it was. On any other status `*len` is 0.

   Status: NULL_HANDLE, OUT_OF_RANGE (the plan has no such literal), SMALL_BUFFER. */
int32_t fiolargu_plan_literal(fiolargu_plan *plan, size_t literal, uint8_t *buffer, size_t room, size_t *len);

/* Frees the plan and makes the handle null. A null handle stays null. */
void fiolargu_plan_free(fiolargu_plan *plan);

/* ---- Texts in memory */

/* Writes the hits that end after `*place`, up to a position that `*place` then gets, and their number to `*count`. That
   position is the end of the text, or the end of a hit by which the buffer was nearly full: call again until
   `*place == len`. The buffer needs room for one hit more than the plan has literals; a larger one saves calls.

   Status: NULL_HANDLE, SMALL_BUFFER, OUT_OF_RANGE (`*place` is above `len`), OUT_OF_MEMORY. */
int32_t fiolargu_scan(fiolargu_plan *plan, const uint8_t *text, size_t len, size_t *place, fiolargu_hit *hits,
                      size_t room, size_t *count);

/* Writes to `*end` the first position after `from` at which a literal ends, or 0 if there is none. On another status `*end`
   is 0.

   Status: NULL_HANDLE, OUT_OF_RANGE (`from` is above `len`). */
int32_t fiolargu_next(fiolargu_plan *plan, const uint8_t *text, size_t len, size_t from, size_t *end);

/* ---- Streams */

/* Opens a stream, which counts positions from `base`. It keeps a share of the plan: the plan's handle may be freed before it.
   A stream that the handle held before is closed.

   Status: NULL_HANDLE (`plan` is null), OUT_OF_MEMORY. */
int32_t fiolargu_stream_open(fiolargu_plan *plan, fiolargu_stream *stream, uint64_t base);

/* Takes the next bytes of the stream, writes the hits that end in them, and writes their number to `*count`. `*fed` gets how
   many bytes of the piece were taken: all, or those up to the end of a hit by which the buffer was nearly full. Pass the
   rest of the piece then. The stream keeps what it needs of the piece. The buffer needs room for one hit more than the plan
   has literals.

   Status: NULL_HANDLE, SMALL_BUFFER, STREAM_TOO_LONG, OUT_OF_MEMORY. */
int32_t fiolargu_stream_feed(fiolargu_stream *stream, const uint8_t *piece, size_t len, size_t *fed, fiolargu_hit *hits,
                             size_t room, size_t *count);

/* Writes the position of the stream to `*place`: its base, and the number of bytes that were taken. On another status
   `*place` is as it was.

   Status: NULL_HANDLE. */
int32_t fiolargu_stream_place(fiolargu_stream *stream, uint64_t *place);

/* Makes `other` a stream at the same position, after the same bytes, with the same plan. What `other` held before is closed.

   Status: NULL_HANDLE (`stream` is null), OUT_OF_MEMORY. */
int32_t fiolargu_stream_copy(fiolargu_stream *stream, fiolargu_stream *other);

/* Begins a new stream with the same plan, which counts positions from `base`. It allocates nothing.

   Status: NULL_HANDLE. */
int32_t fiolargu_stream_reset(fiolargu_stream *stream, uint64_t base);

/* Closes the stream and makes the handle null. A null handle stays null. */
void fiolargu_stream_close(fiolargu_stream *stream);

/* ---- Plan files */

/* Reads a plan file and checks all of its certificates. `*plans` gets the number of its plans, and `*fault_at` 0. On
   FIOLARGU_BAD_PLAN_FILE `*fault_at` gets the offset of the first faulty field, and `*plans` 0; on OUT_OF_MEMORY both get 0.

   Status: BAD_PLAN_FILE, OUT_OF_MEMORY. */
int32_t fiolargu_check(const uint8_t *file, size_t len, size_t *plans, size_t *fault_at);

/* The meaning of a status in English. The text is static. */
static inline const char *fiolargu_message(int32_t status)
{
    switch (status) {
    case FIOLARGU_OK:
        return "no error";
    case FIOLARGU_OUT_OF_MEMORY:
        return "out of memory";
    case FIOLARGU_TOO_MANY_PATTERNS:
        return "more than 4,096 patterns";
    case FIOLARGU_LITERAL_TOO_LONG:
        return "a pattern of more than 4,095 bytes";
    case FIOLARGU_NO_LITERALS:
        return "no literals";
    case FIOLARGU_LIST_TOO_LARGE:
        return "too many pattern bytes";
    case FIOLARGU_BAD_PLAN_FILE:
        return "not a plan file";
    case FIOLARGU_NO_SUCH_PLAN:
        return "no such plan";
    case FIOLARGU_STREAM_TOO_LONG:
        return "the stream is too long";
    case FIOLARGU_NULL_HANDLE:
        return "null handle";
    case FIOLARGU_SMALL_BUFFER:
        return "the buffer is too small";
    case FIOLARGU_OUT_OF_RANGE:
        return "an argument is out of range";
    default:
        return "unknown status";
    }
}

#ifdef __cplusplus
}
#endif

#endif

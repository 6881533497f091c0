/* Tests of the C library, for tests/parts/c_library.py: test_library SEED COUNT

   Each function and each status, null handles, buffers of every size from 0, and COUNT random lists and texts beside a
   plain search, as one text, as a text in parts, and as a stream in random pieces. It prints what fails, and its status
   is 1 then. */

#include <stdio.h>
#include <stdlib.h>
#include <string.h>

#include "fiolargu.h"

enum { MOST = 64, TEXT = 400, ROOM = TEXT * MOST, FILE_ROOM = 65536 };

static int faults;
static uint64_t state;

static void check(int holds, const char *what, int line)
{
    if (!holds) {
        faults++;
        printf("test_library.c:%d: %s\n", line, what);
    }
}

#define CHECK(holds) check((holds) ? 1 : 0, #holds, __LINE__)

/* A number below a bound (splitmix64). */
static uint32_t below(uint32_t bound)
{
    uint64_t z = state += UINT64_C(0x9E3779B97F4A7C15);
    z = (z ^ (z >> 30)) * UINT64_C(0xBF58476D1CE4E5B9);
    z = (z ^ (z >> 27)) * UINT64_C(0x94D049BB133111EB);
    return (uint32_t)((z ^ (z >> 31)) % bound);
}

/* A copy with not a byte of room behind it, so that a sanitizer sees each access past it. */
static void *copied(const void *from, size_t size)
{
    void *copy = malloc(size > 0 ? size : 1);
    if (copy == NULL) {
        exit(3);
    }
    if (size > 0) {
        memcpy(copy, from, size);
    }
    return copy;
}

static fiolargu_bytes bytes_of(const char *text)
{
    fiolargu_bytes bytes;
    bytes.at = (const uint8_t *)text;
    bytes.len = strlen(text);
    return bytes;
}

static fiolargu_plan plan_of(const char *const *words, size_t count, uint32_t flags)
{
    fiolargu_plan plan = {NULL};
    fiolargu_bytes list[MOST];
    uint32_t none;
    size_t fault_at = 9;
    for (size_t i = 0; i < count; i++) {
        list[i] = bytes_of(words[i]);
    }
    CHECK(fiolargu_plan_new(&plan, list, count, flags, &none, 0, &fault_at) == FIOLARGU_OK);
    CHECK(fault_at == 0 && plan.at != NULL);
    return plan;
}

static int same(const fiolargu_hit *one, const fiolargu_hit *other, size_t count)
{
    for (size_t i = 0; i < count; i++) {
        if (one[i].end != other[i].end || one[i].literal != other[i].literal || one[i].length != other[i].length) {
            return 0;
        }
    }
    return 1;
}

/* ---- Each call on null handles */

static void null_handles(void)
{
    fiolargu_plan plan = {NULL}, other = {NULL};
    fiolargu_stream stream = {NULL}, twin = {NULL};
    fiolargu_info info = {7, 7, 7, 7, 7};
    fiolargu_hit hit;
    uint8_t byte = 0;
    size_t place = 3, count = 9, len = 9, fed = 9, end = 9;
    uint64_t at = 5;
    fiolargu_plan_free(&plan);
    fiolargu_stream_close(&stream);
    CHECK(fiolargu_plan_save(&plan, &byte, 1, &len) == FIOLARGU_NULL_HANDLE && len == 0);
    CHECK(fiolargu_plan_share(&plan, &other) == FIOLARGU_NULL_HANDLE && other.at == NULL);
    CHECK(fiolargu_plan_info(&plan, &info) == FIOLARGU_NULL_HANDLE && info.literals == 7);
    CHECK(fiolargu_plan_literal(&plan, 0, &byte, 1, &len) == FIOLARGU_NULL_HANDLE && len == 0);
    CHECK(fiolargu_scan(&plan, &byte, 1, &place, &hit, 1, &count) == FIOLARGU_NULL_HANDLE && place == 3 && count == 0);
    CHECK(fiolargu_next(&plan, &byte, 1, 0, &end) == FIOLARGU_NULL_HANDLE && end == 0);
    CHECK(fiolargu_stream_open(&plan, &stream, 1) == FIOLARGU_NULL_HANDLE && stream.at == NULL);
    CHECK(fiolargu_stream_feed(&stream, &byte, 1, &fed, &hit, 1, &count) == FIOLARGU_NULL_HANDLE && fed == 0 && count == 0);
    CHECK(fiolargu_stream_place(&stream, &at) == FIOLARGU_NULL_HANDLE && at == 5);
    CHECK(fiolargu_stream_copy(&stream, &twin) == FIOLARGU_NULL_HANDLE && twin.at == NULL);
    CHECK(fiolargu_stream_reset(&stream, 1) == FIOLARGU_NULL_HANDLE && stream.at == NULL);
}

/* ---- Plans */

static void plans(void)
{
    const char *words[4] = {"Dog", "", "cat", "dog"};
    fiolargu_bytes list[4];
    uint32_t literal_of[4] = {9, 9, 9, 9};
    size_t fault_at = 9, len = 0;
    fiolargu_plan plan = {NULL}, other = {NULL};
    fiolargu_info info;
    uint8_t text[3];
    for (size_t i = 0; i < 4; i++) {
        list[i] = bytes_of(words[i]);
    }
    CHECK(fiolargu_plan_new(&plan, list, 4, 4, literal_of, 4, &fault_at) == FIOLARGU_OUT_OF_RANGE && plan.at == NULL);
    CHECK(fiolargu_plan_new(&plan, list, 4, 0, literal_of, 3, &fault_at) == FIOLARGU_SMALL_BUFFER && plan.at == NULL);
    CHECK(fiolargu_plan_new(&plan, list, 4, FIOLARGU_IGNORE_CASE, literal_of, 4, &fault_at) == FIOLARGU_OK);
    CHECK(literal_of[0] == 1 && literal_of[1] == FIOLARGU_NO_LITERAL && literal_of[2] == 0 && literal_of[3] == 1);
    CHECK(fiolargu_plan_info(&plan, &info) == FIOLARGU_OK);
    CHECK(info.literals == 2 && info.longest == 3 && info.cost == 702 && info.flags == 1 && info.runs == 2);
    CHECK(fiolargu_plan_literal(&plan, 1, text, 3, &len) == FIOLARGU_OK && len == 3 && memcmp(text, "dog", 3) == 0);
    CHECK(fiolargu_plan_literal(&plan, 1, text, 2, &len) == FIOLARGU_SMALL_BUFFER && len == 3);
    CHECK(fiolargu_plan_literal(&plan, 2, text, 3, &len) == FIOLARGU_OUT_OF_RANGE && len == 0);
    CHECK(fiolargu_plan_share(&plan, &other) == FIOLARGU_OK && other.at != NULL && other.at != plan.at);
    fiolargu_plan_free(&plan);
    CHECK(plan.at == NULL);
    CHECK(fiolargu_plan_info(&other, &info) == FIOLARGU_OK && info.literals == 2);
    /* A refused call leaves the handle as it was. */
    CHECK(fiolargu_plan_new(&other, list + 1, 1, 0, literal_of, 4, &fault_at) == FIOLARGU_NO_LITERALS);
    CHECK(fiolargu_plan_info(&other, &info) == FIOLARGU_OK && info.literals == 2);
    fiolargu_plan_free(&other);
    fiolargu_plan_free(&other);
    CHECK(fiolargu_version() == FIOLARGU_VERSION);
}

static void lists_refused(void)
{
    static uint8_t long_text[1052673];
    static fiolargu_bytes many[4097];
    fiolargu_bytes two[2];
    fiolargu_plan plan = {NULL};
    uint32_t none;
    size_t fault_at = 9;
    memset(long_text, 'a', sizeof long_text);
    for (size_t i = 0; i < 4097; i++) {
        many[i].at = long_text;
        many[i].len = 1;
    }
    CHECK(fiolargu_plan_new(&plan, many, 4097, 0, &none, 0, &fault_at) == FIOLARGU_TOO_MANY_PATTERNS && fault_at == 0);
    CHECK(fiolargu_plan_new(&plan, many, 4096, 0, &none, 0, &fault_at) == FIOLARGU_OK);
    two[0] = many[0];
    two[1].at = long_text;
    two[1].len = 4096;
    CHECK(fiolargu_plan_new(&plan, two, 2, 0, &none, 0, &fault_at) == FIOLARGU_LITERAL_TOO_LONG && fault_at == 1);
    two[1].len = 4095;
    CHECK(fiolargu_plan_new(&plan, two, 2, 0, &none, 0, &fault_at) == FIOLARGU_OK && fault_at == 0);
    for (size_t i = 0; i < 300; i++) {
        many[i].len = 4000;
    }
    CHECK(fiolargu_plan_new(&plan, many, 300, 0, &none, 0, &fault_at) == FIOLARGU_LIST_TOO_LARGE && fault_at == 0);
    CHECK(fiolargu_plan_new(&plan, many, 0, 0, &none, 0, &fault_at) == FIOLARGU_NO_LITERALS);
    CHECK(fiolargu_plan_of_lines(&plan, long_text, sizeof long_text, 0, &fault_at) == FIOLARGU_LIST_TOO_LARGE);
    CHECK(fiolargu_plan_of_lines(&plan, long_text, 4096, 0, &fault_at) == FIOLARGU_LITERAL_TOO_LONG && fault_at == 0);
    long_text[0] = long_text[3] = '\n';
    CHECK(fiolargu_plan_of_lines(&plan, long_text, 4100, 0, &fault_at) == FIOLARGU_LITERAL_TOO_LONG && fault_at == 2);
    CHECK(fiolargu_plan_of_lines(&plan, long_text, 1, 0, &fault_at) == FIOLARGU_NO_LITERALS && fault_at == 0);
    CHECK(fiolargu_plan_of_lines(&plan, long_text, 0, 0, &fault_at) == FIOLARGU_NO_LITERALS);
    CHECK(fiolargu_plan_of_lines(&plan, long_text, 9, 8, &fault_at) == FIOLARGU_OUT_OF_RANGE);
    CHECK(fiolargu_plan_of_lines(&plan, long_text, 9, 2, &fault_at) == FIOLARGU_OK);
    fiolargu_plan_free(&plan);
}

static void files(void)
{
    const char *words[3] = {"cat", "dog", "horse"};
    static uint8_t file[FILE_ROOM], again[FILE_ROOM];
    fiolargu_plan plan = plan_of(words, 3, FIOLARGU_SIXTEEN_BUCKETS), other = {NULL};
    fiolargu_info info;
    size_t len = 0, plans = 9, fault_at = 9, need = 0;
    CHECK(fiolargu_plan_save(&plan, file, 0, &need) == FIOLARGU_SMALL_BUFFER && need > 0);
    for (size_t room = 1; room < need; room++) {
        CHECK(fiolargu_plan_save(&plan, file, room, &len) == FIOLARGU_SMALL_BUFFER && len == need && file[0] == 0);
    }
    CHECK(fiolargu_plan_save(&plan, file, need, &len) == FIOLARGU_OK && len == need);
    CHECK(fiolargu_check(file, len, &plans, &fault_at) == FIOLARGU_OK && plans == 1 && fault_at == 0);
    CHECK(fiolargu_plan_load(&other, file, len, 1, &fault_at) == FIOLARGU_NO_SUCH_PLAN && other.at == NULL);
    CHECK(fiolargu_plan_load(&other, file, len, 0, &fault_at) == FIOLARGU_OK && fault_at == 0);
    CHECK(fiolargu_plan_info(&other, &info) == FIOLARGU_OK && info.literals == 3 && info.flags == 2);
    CHECK(fiolargu_plan_save(&other, again, FILE_ROOM, &len) == FIOLARGU_OK && len == need);
    CHECK(memcmp(file, again, len) == 0);
    for (size_t cut = 0; cut < len; cut++) {
        uint8_t *part = copied(file, cut);
        CHECK(fiolargu_check(part, cut, &plans, &fault_at) == FIOLARGU_BAD_PLAN_FILE && plans == 0 && fault_at <= cut);
        CHECK(fiolargu_plan_load(&other, part, cut, 0, &need) == FIOLARGU_BAD_PLAN_FILE && need == fault_at);
        free(part);
    }
    CHECK(fiolargu_check(file, len + 1, &plans, &fault_at) == FIOLARGU_BAD_PLAN_FILE && fault_at == len);
    CHECK(fiolargu_plan_info(&other, &info) == FIOLARGU_OK && info.literals == 3);
    fiolargu_plan_free(&plan);
    fiolargu_plan_free(&other);
}

/* ---- Texts and streams */

static void positions(void)
{
    const char *words[3] = {"he", "she", "hers"};
    fiolargu_plan plan = plan_of(words, 3, 0);
    fiolargu_stream stream = {NULL}, twin = {NULL};
    const uint8_t *text = (const uint8_t *)"ushers";
    fiolargu_hit hits[4];
    size_t place = 7, count = 9, end = 9, fed = 9;
    uint64_t at = 0;
    CHECK(fiolargu_scan(&plan, text, 6, &place, hits, 4, &count) == FIOLARGU_OUT_OF_RANGE && place == 7 && count == 0);
    place = 6;
    CHECK(fiolargu_scan(&plan, text, 6, &place, hits, 4, &count) == FIOLARGU_OK && place == 6 && count == 0);
    CHECK(fiolargu_next(&plan, text, 6, 7, &end) == FIOLARGU_OUT_OF_RANGE && end == 0);
    CHECK(fiolargu_next(&plan, text, 6, 0, &end) == FIOLARGU_OK && end == 4);
    CHECK(fiolargu_next(&plan, text, 6, 4, &end) == FIOLARGU_OK && end == 6);
    CHECK(fiolargu_next(&plan, text, 6, 6, &end) == FIOLARGU_OK && end == 0);
    CHECK(fiolargu_stream_open(&plan, &stream, 1000) == FIOLARGU_OK);
    fiolargu_plan_free(&plan);
    CHECK(fiolargu_stream_feed(&stream, text, 3, &fed, hits, 3, &count) == FIOLARGU_SMALL_BUFFER && fed == 0);
    CHECK(fiolargu_stream_feed(&stream, text, 3, &fed, hits, 4, &count) == FIOLARGU_OK && fed == 3 && count == 0);
    CHECK(fiolargu_stream_place(&stream, &at) == FIOLARGU_OK && at == 1003);
    CHECK(fiolargu_stream_copy(&stream, &twin) == FIOLARGU_OK && twin.at != stream.at);
    CHECK(fiolargu_stream_feed(&stream, text + 3, 3, &fed, hits, 4, &count) == FIOLARGU_OK && fed == 1 && count == 2);
    CHECK(hits[0].literal == 0 && hits[0].end == 1004 && hits[0].length == 2);
    CHECK(hits[1].literal == 1 && hits[1].end == 1004 && hits[1].length == 3);
    CHECK(fiolargu_stream_place(&twin, &at) == FIOLARGU_OK && at == 1003);
    CHECK(fiolargu_stream_reset(&stream, UINT64_MAX - 2) == FIOLARGU_OK);
    CHECK(fiolargu_stream_feed(&stream, text, 3, &fed, hits, 4, &count) == FIOLARGU_STREAM_TOO_LONG && fed == 0);
    CHECK(fiolargu_stream_feed(&stream, text, 2, &fed, hits, 4, &count) == FIOLARGU_OK && fed == 2 && count == 0);
    CHECK(fiolargu_stream_place(&stream, &at) == FIOLARGU_OK && at == UINT64_MAX);
    fiolargu_stream_close(&stream);
    CHECK(stream.at == NULL);
    CHECK(fiolargu_stream_feed(&twin, text + 3, 1, &fed, hits, 4, &count) == FIOLARGU_OK && count == 2);
    fiolargu_stream_close(&twin);
    fiolargu_stream_close(&twin);
}

/* ---- Random lists and texts beside a plain search */

struct drawn {
    fiolargu_bytes list[MOST];
    uint8_t words[MOST][8], text[TEXT], folded[TEXT];
    size_t count, len;
    uint32_t flags;
};

static uint8_t fold(uint8_t byte, uint32_t flags)
{
    return flags % 2 == 1 && byte >= 'A' && byte <= 'Z' ? (uint8_t)(byte + 32) : byte;
}

static void draw(struct drawn *d)
{
    static const char letters[] = "abABc\nz.";
    uint32_t kinds = 1 + below(8);
    d->count = 1 + below(MOST);
    d->flags = below(4);
    d->len = below(TEXT + 1);
    for (size_t i = 0; i < d->count; i++) {
        d->list[i].at = d->words[i];
        d->list[i].len = below(6) == 0 ? 1 : below(9);
        for (size_t j = 0; j < d->list[i].len; j++) {
            d->words[i][j] = (uint8_t)letters[below(kinds)];
        }
    }
    for (size_t i = 0; i < d->len; i++) {
        d->text[i] = (uint8_t)letters[below(kinds)];
        d->folded[i] = fold(d->text[i], d->flags);
    }
}

/* The hits of a text, by comparing every literal at every end. The plan says which literals it has. */
static size_t plain_hits(const struct drawn *d, fiolargu_plan *plan, size_t literals, fiolargu_hit *hits)
{
    static uint8_t texts[MOST][8];
    size_t lens[MOST], count = 0;
    for (size_t i = 0; i < literals; i++) {
        CHECK(fiolargu_plan_literal(plan, i, texts[i], 8, &lens[i]) == FIOLARGU_OK);
        CHECK(i == 0 || lens[i - 1] < lens[i] || (lens[i - 1] == lens[i] && memcmp(texts[i - 1], texts[i], lens[i]) < 0));
    }
    for (size_t end = 1; end <= d->len; end++) {
        for (size_t i = 0; i < literals; i++) {
            if (lens[i] <= end && memcmp(d->folded + end - lens[i], texts[i], lens[i]) == 0) {
                hits[count].end = end;
                hits[count].literal = (uint32_t)i;
                hits[count++].length = (uint32_t)lens[i];
            }
        }
    }
    return count;
}

/* Each pattern has its literal, and each literal a pattern. */
static void compare_list(const struct drawn *d, fiolargu_plan *plan, const uint32_t *literal_of, size_t literals)
{
    uint8_t text[8], met[MOST] = {0};
    size_t len, seen = 0;
    for (size_t i = 0; i < d->count; i++) {
        CHECK((literal_of[i] == FIOLARGU_NO_LITERAL) == (d->list[i].len == 0));
        if (literal_of[i] != FIOLARGU_NO_LITERAL) {
            CHECK(fiolargu_plan_literal(plan, literal_of[i], text, 8, &len) == FIOLARGU_OK && len == d->list[i].len);
            for (size_t j = 0; j < len; j++) {
                CHECK(text[j] == fold(d->words[i][j], d->flags));
            }
            seen += !met[literal_of[i]];
            met[literal_of[i]] = 1;
        }
    }
    CHECK(seen == literals);
}

/* Scans by a buffer with so much room, which a sanitizer guards. */
static void scan_parts(const struct drawn *d, fiolargu_plan *plan, size_t literals, size_t room, const fiolargu_hit *want, size_t wanted)
{
    fiolargu_hit *hits = copied(want, 0);
    size_t place = 0, count = 0, total = 0;
    int32_t status;
    free(hits);
    hits = malloc((room > 0 ? room : 1) * sizeof *hits);
    do {
        size_t before = place;
        status = fiolargu_scan(plan, d->text, d->len, &place, hits, room, &count);
        if (room <= literals) {
            CHECK(status == FIOLARGU_SMALL_BUFFER && place == before && count == 0);
            break;
        }
        CHECK(status == FIOLARGU_OK && count <= room && total + count <= wanted && same(hits, want + total, count));
        CHECK(place == d->len || place > before);
        total += count;
    } while (place < d->len && status == FIOLARGU_OK && total <= wanted);
    CHECK(room <= literals || total == wanted);
    free(hits);
}

/* Feeds random pieces, and now and then goes on by a copy of the stream. */
static void feed_pieces(const struct drawn *d, fiolargu_plan *plan, size_t room, const fiolargu_hit *want, size_t wanted)
{
    fiolargu_stream stream = {NULL}, twin = {NULL};
    fiolargu_hit *hits = malloc(room * sizeof *hits);
    uint64_t base = below(2) ? 0 : UINT64_C(1) << 40, at = 0;
    size_t total = 0, fed, count;
    CHECK(fiolargu_stream_open(plan, &stream, base) == FIOLARGU_OK);
    for (size_t from = 0; from < d->len;) {
        size_t len = 1 + below(below(4) == 0 ? TEXT : 5);
        len = len < d->len - from ? len : d->len - from;
        uint8_t *piece = copied(d->text + from, len);
        CHECK(fiolargu_stream_feed(&stream, piece, len, &fed, hits, room, &count) == FIOLARGU_OK);
        free(piece);
        for (size_t i = 0; i < count; i++) {
            hits[i].end -= base;
        }
        CHECK(fed <= len && total + count <= wanted && same(hits, want + total, count));
        total += count;
        from += fed;
        CHECK(fiolargu_stream_place(&stream, &at) == FIOLARGU_OK && at == base + from);
        if (below(8) == 0) {
            CHECK(fiolargu_stream_copy(&stream, &twin) == FIOLARGU_OK);
            fiolargu_stream_close(&stream);
            stream = twin;
            twin.at = NULL;
        }
    }
    CHECK(total == wanted);
    fiolargu_stream_close(&stream);
    free(hits);
}

static void compare(const struct drawn *d)
{
    static fiolargu_hit want[ROOM];
    static uint8_t file[FILE_ROOM];
    fiolargu_plan plan = {NULL}, loaded = {NULL};
    fiolargu_info info;
    uint32_t literal_of[MOST];
    size_t fault_at, len, end, wanted, met = 0;
    int32_t status = fiolargu_plan_new(&plan, d->list, d->count, d->flags, literal_of, MOST, &fault_at);
    if (status == FIOLARGU_NO_LITERALS) {
        for (size_t i = 0; i < d->count; i++) {
            CHECK(d->list[i].len == 0);
        }
        return;
    }
    CHECK(status == FIOLARGU_OK && fiolargu_plan_info(&plan, &info) == FIOLARGU_OK && info.literals <= d->count);
    compare_list(d, &plan, literal_of, (size_t)info.literals);
    wanted = plain_hits(d, &plan, (size_t)info.literals, want);
    scan_parts(d, &plan, (size_t)info.literals, below((uint32_t)info.literals + 3), want, wanted);
    scan_parts(d, &plan, (size_t)info.literals, (size_t)info.literals + 1 + below(40), want, wanted);
    scan_parts(d, &plan, (size_t)info.literals, ROOM, want, wanted);
    feed_pieces(d, &plan, (size_t)info.literals + 1 + below(40), want, wanted);
    CHECK(fiolargu_plan_save(&plan, file, FILE_ROOM, &len) == FIOLARGU_OK);
    CHECK(fiolargu_plan_load(&loaded, file, len, 0, &fault_at) == FIOLARGU_OK);
    fiolargu_plan_free(&plan);
    scan_parts(d, &loaded, (size_t)info.literals, (size_t)info.literals + 1, want, wanted);
    for (size_t from = 0; fiolargu_next(&loaded, d->text, d->len, from, &end) == FIOLARGU_OK && end > 0; from = end) {
        while (met < wanted && want[met].end < end) {
            met++;
        }
        CHECK(met < wanted && want[met].end == end && (met == 0 || want[met - 1].end <= from));
    }
    CHECK(wanted == 0 || (met < wanted && want[met].end == want[wanted - 1].end));
    fiolargu_plan_free(&loaded);
}

static void random_lists(unsigned long count)
{
    static struct drawn d;
    for (unsigned long i = 0; i < count && faults < 20; i++) {
        draw(&d);
        compare(&d);
    }
}

/* Every size of a buffer, for a text with many hits at each end. */
static void every_room(void)
{
    static struct drawn d;
    static fiolargu_hit want[ROOM];
    fiolargu_plan plan;
    const char *words[5] = {"a", "aa", "aaa", "ab", "b"};
    d.len = 60;
    for (size_t i = 0; i < d.len; i++) {
        d.text[i] = d.folded[i] = i % 5 == 4 ? 'b' : 'a';
    }
    plan = plan_of(words, 5, 0);
    size_t wanted = plain_hits(&d, &plan, 5, want);
    for (size_t room = 0; room <= wanted + 8; room++) {
        scan_parts(&d, &plan, 5, room, want, wanted);
    }
    fiolargu_plan_free(&plan);
}

int main(int argc, char **argv)
{
    state = argc > 1 ? strtoul(argv[1], NULL, 10) : 1;
    null_handles();
    plans();
    lists_refused();
    files();
    positions();
    every_room();
    random_lists(argc > 2 ? strtoul(argv[2], NULL, 10) : 100);
    printf("%d faults\n", faults);
    return faults > 0;
}

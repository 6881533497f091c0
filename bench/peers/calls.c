// Times calls of a search library on pieces of a text: those of libfiolargu, or with -DHYPERSCAN those of Hyperscan.
//
//   calls TEXT LITERALS block|stream SIZE SECONDS
//
// Each call takes the next SIZE bytes of the text, as a text of its own or as a piece of one stream, and counts the hits. It goes
// over the text for so many seconds at least, after a first time that is not measured, and prints the nanoseconds of a call, the least
// over all times over the text, and the number of hits in one of them.
#include <stdint.h>
#include <stdio.h>
#include <stdlib.h>
#include <string.h>
#include <time.h>

static unsigned char *read_file(const char *name, size_t *length) {
    FILE *file = fopen(name, "rb");
    if (!file) { perror(name); exit(2); }
    fseek(file, 0, SEEK_END);
    *length = (size_t)ftell(file);
    rewind(file);
    unsigned char *bytes = malloc(*length + 1);
    if (!bytes || fread(bytes, 1, *length, file) != *length) { perror(name); exit(2); }
    bytes[*length] = '\n';
    fclose(file);
    return bytes;
}

static void must(int is_right, const char *what) {
    if (!is_right) { fprintf(stderr, "calls: %s\n", what); exit(2); }
}

#ifdef HYPERSCAN
#include <hs/hs.h>

static hs_database_t *database;
static hs_scratch_t *scratch;
static hs_stream_t *stream;

static int count_hit(unsigned id, unsigned long long from, unsigned long long to, unsigned flags, void *hits) {
    (void)id; (void)from; (void)to; (void)flags;
    ++*(uint64_t *)hits;
    return 0;
}

static void plan(const unsigned char *lines, size_t length, int is_stream) {
    const char *texts[4096];
    size_t lengths[4096];
    unsigned flags[4096] = { 0 }, ids[4096], count = 0;
    for (size_t at = 0; at < length;) {
        const unsigned char *end = memchr(lines + at, '\n', length + 1 - at);
        if (end > lines + at && count < 4096) {
            texts[count] = (const char *)lines + at;
            lengths[count] = (size_t)(end - lines) - at;
            ids[count] = count;
            count++;
        }
        at = (size_t)(end - lines) + 1;
    }
    hs_compile_error_t *fault;
    must(hs_compile_lit_multi(texts, flags, ids, lengths, count, is_stream ? HS_MODE_STREAM : HS_MODE_BLOCK, NULL, &database, &fault)
         == HS_SUCCESS, "hs_compile_lit_multi");
    must(hs_alloc_scratch(database, &scratch) == HS_SUCCESS, "hs_alloc_scratch");
}

static void begin(void) { must(hs_open_stream(database, 0, &stream) == HS_SUCCESS, "hs_open_stream"); }

static void end(uint64_t *hits) { hs_close_stream(stream, scratch, count_hit, hits); }

static void scan(const unsigned char *text, size_t length, uint64_t *hits) {
    must(hs_scan(database, (const char *)text, (unsigned)length, 0, scratch, count_hit, hits) == HS_SUCCESS, "hs_scan");
}

static void feed(const unsigned char *piece, size_t length, uint64_t *hits) {
    must(hs_scan_stream(stream, (const char *)piece, (unsigned)length, 0, scratch, count_hit, hits) == HS_SUCCESS, "hs_scan_stream");
}
#else
#include <fiolargu.h>

enum { ROOM = 8192 };

static fiolargu_plan handle;
static fiolargu_stream stream;
static fiolargu_hit found[ROOM];

static void plan(const unsigned char *lines, size_t length, int is_stream) {
    size_t fault_at;
    (void)is_stream;
    must(fiolargu_plan_of_lines(&handle, lines, length, 0, &fault_at) == FIOLARGU_OK, "fiolargu_plan_of_lines");
    must(fiolargu_stream_open(&handle, &stream, 0) == FIOLARGU_OK, "fiolargu_stream_open");
}

static void begin(void) { must(fiolargu_stream_reset(&stream, 0) == FIOLARGU_OK, "fiolargu_stream_reset"); }

static void end(uint64_t *hits) { (void)hits; }

static void scan(const unsigned char *text, size_t length, uint64_t *hits) {
    size_t place = 0, count;
    do {
        must(fiolargu_scan(&handle, text, length, &place, found, ROOM, &count) == FIOLARGU_OK, "fiolargu_scan");
        *hits += count;
    } while (place < length);
}

static void feed(const unsigned char *piece, size_t length, uint64_t *hits) {
    size_t fed, count;
    do {
        must(fiolargu_stream_feed(&stream, piece, length, &fed, found, ROOM, &count) == FIOLARGU_OK, "fiolargu_stream_feed");
        *hits += count;
        piece += fed;
        length -= fed;
    } while (length > 0);
}
#endif

static double seconds(void) {
    struct timespec now;
    clock_gettime(CLOCK_MONOTONIC, &now);
    return (double)now.tv_sec + 1e-9 * (double)now.tv_nsec;
}

int main(int count, char **words) {
    must(count == 6, "usage: calls TEXT LITERALS block|stream SIZE SECONDS");
    size_t length, lines, size = strtoull(words[4], NULL, 10);
    unsigned char *text = read_file(words[1], &length), *literals = read_file(words[2], &lines);
    int is_stream = strcmp(words[3], "stream") == 0;
    must(size > 0 && length >= size, "the text is shorter than a piece");
    plan(literals, lines, is_stream);
    size_t calls = length / size;
    double least = 1e300, until = seconds() + atof(words[5]);
    uint64_t hits;
    for (int turn = 0; turn < 2 || seconds() < until; turn++) {
        hits = 0;
        if (is_stream) begin();
        double from = seconds();
        for (size_t call = 0; call < calls; call++) {
            if (is_stream) feed(text + call * size, size, &hits);
            else scan(text + call * size, size, &hits);
        }
        double took = seconds() - from;
        if (is_stream) end(&hits);
        if (turn > 0 && took < least) least = took;
    }
    printf("%.1f %llu\n", least * 1e9 / (double)calls, (unsigned long long)hits);
    return 0;
}

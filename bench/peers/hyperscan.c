// Times Hyperscan on a text: all occurrences of the literals of a file, one a line.
//
//   hyperscan TEXT LITERALS block|stream|block-kept|stream-kept|WORKERS TURNS
//
// A stream comes in pieces of 64 KiB, or of so many bytes, as in stream:1000 and stream-kept:1000. So many workers, at most 16, are
// threads that share the text; a hit that two parts share is lost. Hits are counted, or kept in
// an array that grows: those of the text, or of one piece of a stream after the other. It prints the median seconds of a scan and the
// number of hits.
#include <hs/hs.h>
#include <pthread.h>
#include <stdio.h>
#include <stdlib.h>
#include <string.h>
#include <time.h>

enum { WORKERS = 16 };

struct part { const char *bytes; size_t length; hs_scratch_t *scratch; unsigned long long hits; };

static hs_database_t *database;

// How many bytes a piece of a stream has.
static size_t piece = 65536;

static char *read_file(const char *name, size_t *length) {
    FILE *file = fopen(name, "rb");
    if (!file) { perror(name); exit(2); }
    fseek(file, 0, SEEK_END);
    *length = ftell(file);
    rewind(file);
    char *bytes = malloc(*length + 1);
    if (fread(bytes, 1, *length, file) != *length) { perror(name); exit(2); }
    bytes[*length] = 0;
    fclose(file);
    return bytes;
}

static int count_hit(unsigned id, unsigned long long from, unsigned long long to, unsigned flags, void *hits) {
    (void)id; (void)from; (void)to; (void)flags;
    ++*(unsigned long long *)hits;
    return 0;
}

struct hit { unsigned short literal; unsigned long long end; };

struct kept { struct hit *hits; size_t length, room; };

static int keep_hit(unsigned id, unsigned long long from, unsigned long long to, unsigned flags, void *context) {
    (void)from; (void)flags;
    struct kept *kept = context;
    if (kept->length == kept->room) {
        kept->room = kept->room ? 2 * kept->room : 4;
        kept->hits = realloc(kept->hits, kept->room * sizeof *kept->hits);
        if (!kept->hits) { perror("hits"); exit(2); }
    }
    kept->hits[kept->length++] = (struct hit){ .literal = id, .end = to };
    return 0;
}

// Scans a text, at once or in pieces, and keeps the hits of the text or of a piece; the answer is how many there were.
static unsigned long long scan_keeping(const char *text, size_t length, int streams, hs_scratch_t *scratch) {
    struct kept kept = { 0 };
    unsigned long long hits = 0;
    if (streams) {
        hs_stream_t *stream;
        hs_open_stream(database, 0, &stream);
        for (size_t at = 0; at < length; at += piece) {
            hs_scan_stream(stream, text + at, length - at < piece ? length - at : piece, 0, scratch, keep_hit, &kept);
            hits += kept.length;
            kept.length = 0;
        }
        hs_close_stream(stream, scratch, keep_hit, &kept);
    } else {
        hs_scan(database, text, length, 0, scratch, keep_hit, &kept);
    }
    hits += kept.length;
    free(kept.hits);
    return hits;
}

static double now(void) {
    struct timespec at;
    clock_gettime(CLOCK_MONOTONIC, &at);
    return at.tv_sec + at.tv_nsec * 1e-9;
}

static int by_size(const void *a, const void *b) {
    double x = *(const double *)a, y = *(const double *)b;
    return (x > y) - (x < y);
}

static void *scan_part(void *context) {
    struct part *part = context;
    part->hits = 0;
    hs_scan(database, part->bytes, part->length, 0, part->scratch, count_hit, &part->hits);
    return NULL;
}

static unsigned long long scan_parts(struct part *parts, int workers) {
    pthread_t threads[WORKERS];
    for (int i = 1; i < workers; i++) pthread_create(&threads[i], NULL, scan_part, &parts[i]);
    scan_part(&parts[0]);
    unsigned long long hits = parts[0].hits;
    for (int i = 1; i < workers; i++) {
        pthread_join(threads[i], NULL);
        hits += parts[i].hits;
    }
    return hits;
}

int main(int count, char **words) {
    if (count != 5) { fprintf(stderr, "hyperscan TEXT LITERALS block|stream|block-kept|stream-kept|WORKERS TURNS\n"); return 2; }
    size_t length, list_length;
    char *text = read_file(words[1], &length), *list = read_file(words[2], &list_length);
    int streams = !strncmp(words[3], "stream", 6), keeps = strstr(words[3], "-kept") != NULL, turns = atoi(words[4]);
    int workers = atoi(words[3]) > WORKERS ? WORKERS : atoi(words[3]);
    const char *size = strchr(words[3], ':');
    if (size && atol(size + 1) > 0) piece = atol(size + 1);
    const char **literals = malloc(sizeof *literals * (list_length + 1));
    unsigned *flags = calloc(list_length + 1, sizeof *flags), *ids = malloc(sizeof *ids * (list_length + 1));
    size_t *lengths = malloc(sizeof *lengths * (list_length + 1));
    unsigned n = 0;
    for (char *at = list; at < list + list_length;) {
        char *end = memchr(at, '\n', list + list_length - at);
        if (!end) end = list + list_length;
        if (end > at) { literals[n] = at; lengths[n] = end - at; ids[n] = n; n++; }
        at = end + 1;
    }
    hs_compile_error_t *error;
    if (hs_compile_lit_multi(literals, flags, ids, lengths, n, streams ? HS_MODE_STREAM : HS_MODE_BLOCK, NULL, &database, &error)) {
        fprintf(stderr, "%s\n", error->message);
        return 2;
    }
    hs_scratch_t *scratch = NULL;
    hs_alloc_scratch(database, &scratch);
    struct part parts[WORKERS] = { 0 };
    for (int i = 0; i < workers; i++) {
        size_t from = length * i / workers;
        parts[i] = (struct part){ .bytes = text + from, .length = length * (i + 1) / workers - from };
        hs_alloc_scratch(database, &parts[i].scratch);
    }
    double *times = malloc(sizeof *times * turns);
    unsigned long long hits = 0;
    for (int turn = 0; turn < turns; turn++) {
        hits = 0;
        double before = now();
        if (workers) {
            hits = scan_parts(parts, workers);
        } else if (keeps) {
            hits = scan_keeping(text, length, streams, scratch);
        } else if (streams) {
            hs_stream_t *stream;
            hs_open_stream(database, 0, &stream);
            for (size_t at = 0; at < length; at += piece)
                hs_scan_stream(stream, text + at, length - at < piece ? length - at : piece, 0, scratch, count_hit, &hits);
            hs_close_stream(stream, scratch, count_hit, &hits);
        } else {
            hs_scan(database, text, length, 0, scratch, count_hit, &hits);
        }
        times[turn] = now() - before;
    }
    qsort(times, turns, sizeof *times, by_size);
    printf("%.9f %llu\n", times[turns / 2], hits);
    return 0;
}

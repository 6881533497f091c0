// A server of the frames of docs/FORMATS.md that scans by Hyperscan's streams: what bench/serving.py measures
// scand beside. Hits are ordered as scand orders them. It answers Publish, Open, Feed and Close, trusts its
// client, takes literals that differ in case alone for two, and ends at anything else.
//
//   serve --stdio
//   serve --port P --connections N [--unscanned]
//
// With --unscanned it looks for nothing, and answers each Feed by its Fed: what the frames cost without a scan.
#include <arpa/inet.h>
#include <hs/hs.h>
#include <netinet/tcp.h>
#include <pthread.h>
#include <stdint.h>
#include <stdio.h>
#include <stdlib.h>
#include <string.h>
#include <unistd.h>

enum { PUBLISH = 1, OPEN, FEED, CLOSE };
enum { PUBLISHED = 0x11, OPENED, HITS, FED, CLOSED };
enum { HEAD = 9, FRAME = 65545, WINDOW = 4 * FRAME, MOST_HITS = 4096, HIT = 10, OUT = 65536, PLANS = 4096, STREAMS = 64 };

struct literal { const uint8_t *bytes; size_t length; };
struct stream { int open; uint32_t name; uint64_t place; hs_stream_t *scan; };
struct session {
    int in, out;
    uint8_t *bytes, *replies;
    size_t held, written, hits_at;
    unsigned hits, group, ids[MOST_HITS];
    uint64_t end;
    uint32_t feeding;
    struct stream streams[STREAMS];
    hs_scratch_t *scratch;
};

static hs_database_t *plans[PLANS];
static unsigned published;
static int unscanned;
static pthread_mutex_t lock = PTHREAD_MUTEX_INITIALIZER;

static uint64_t number_at(const uint8_t *at, int size) {
    uint64_t number = 0;
    for (int i = 0; i < size; i++) number = number << 8 | at[i];
    return number;
}

static void put(uint8_t *at, uint64_t number, int size) {
    for (int i = size; i--; number >>= 8) at[i] = (uint8_t)number;
}

static void flush(struct session *s) {
    for (size_t at = 0; at < s->written;) {
        ssize_t took = write(s->out, s->replies + at, s->written - at);
        if (took <= 0) { s->in = -1; break; }
        at += (size_t)took;
    }
    s->written = 0;
}

static uint8_t *reply(struct session *s, int kind, uint32_t stream, size_t size) {
    if (s->written >= OUT) flush(s);
    uint8_t *at = s->replies + s->written;
    put(at, 5 + size, 4);
    at[4] = (uint8_t)kind;
    put(at + 5, stream, 4);
    s->written += HEAD + size;
    return at + HEAD;
}

static void end_hits(struct session *s) {
    if (!s->hits) return;
    uint8_t *at = s->replies + s->hits_at;
    put(at, 7 + HIT * s->hits, 4);
    put(at + HEAD, s->hits, 2);
    s->written = s->hits_at + HEAD + 2 + HIT * s->hits;
    s->hits = 0;
}

// Writes the hits of one end, which came in no order.
static void end_group(struct session *s) {
    for (unsigned i = 0; i < s->group; i++) {
        if (s->hits == MOST_HITS) end_hits(s);
        if (!s->hits) {
            reply(s, HITS, s->feeding, 2);
            s->hits_at = s->written - HEAD - 2;
        }
        uint8_t *at = s->replies + s->hits_at + HEAD + 2 + HIT * s->hits++;
        put(at, s->ids[i], 2);
        put(at + 2, s->end, 8);
    }
    s->group = 0;
}

static int on_hit(unsigned id, unsigned long long from, unsigned long long to, unsigned flags, void *context) {
    struct session *s = context;
    (void)from; (void)flags;
    if (to != s->end) end_group(s);
    s->end = to;
    unsigned at = s->group++;
    for (; at && s->ids[at - 1] > id; at--) s->ids[at] = s->ids[at - 1];
    s->ids[at] = id;
    return 0;
}

static int by_length(const void *a, const void *b) {
    const struct literal *x = a, *y = b;
    if (x->length != y->length) return x->length < y->length ? -1 : 1;
    return memcmp(x->bytes, y->bytes, x->length);
}

static hs_database_t *compiled(const uint8_t *payload) {
    unsigned count = (unsigned)number_at(payload + 1, 2), kept = 0;
    struct literal *list = calloc(count, sizeof *list);
    const char **texts = calloc(count, sizeof *texts);
    unsigned *flags = calloc(count, sizeof *flags), *ids = calloc(count, sizeof *ids);
    size_t *lengths = calloc(count, sizeof *lengths);
    const uint8_t *at = payload + 3;
    for (unsigned i = 0; i < count; i++) {
        list[i] = (struct literal){ at + 2, number_at(at, 2) };
        at += 2 + list[i].length;
    }
    qsort(list, count, sizeof *list, by_length);
    for (unsigned i = 0; i < count; i++) {
        if (kept && !by_length(&list[i], &list[i - 1])) continue;
        texts[kept] = (const char *)list[i].bytes;
        lengths[kept] = list[i].length;
        flags[kept] = payload[0] ? HS_FLAG_CASELESS : 0;
        ids[kept] = kept;
        kept++;
    }
    hs_database_t *plan = NULL;
    hs_compile_error_t *error;
    if (hs_compile_lit_multi(texts, flags, ids, lengths, kept, HS_MODE_STREAM, NULL, &plan, &error)) {
        fprintf(stderr, "serve: %s\n", error->message);
        exit(2);
    }
    free(list); free(texts); free(flags); free(ids); free(lengths);
    return plan;
}

static struct stream *stream_of(struct session *s, uint32_t name, int open) {
    for (int i = 0; i < STREAMS; i++)
        if (s->streams[i].open == open && (!open || s->streams[i].name == name)) return &s->streams[i];
    exit(2);
}

static void answer(struct session *s, const uint8_t *frame, size_t size) {
    uint32_t name = (uint32_t)number_at(frame + 5, 4);
    const uint8_t *payload = frame + HEAD;
    struct stream *stream;
    switch (frame[4]) {
    case PUBLISH:
        pthread_mutex_lock(&lock);
        plans[published] = compiled(payload);
        put(reply(s, PUBLISHED, 0, 8), published++, 8);
        pthread_mutex_unlock(&lock);
        break;
    case OPEN:
        stream = stream_of(s, 0, 0);
        *stream = (struct stream){ .open = 1, .name = name };
        pthread_mutex_lock(&lock);
        hs_database_t *plan = plans[number_at(payload, 8)];
        pthread_mutex_unlock(&lock);
        hs_alloc_scratch(plan, &s->scratch);
        hs_open_stream(plan, 0, &stream->scan);
        reply(s, OPENED, name, 0);
        break;
    case FEED:
        stream = stream_of(s, name, 1);
        s->feeding = name;
        if (!unscanned) hs_scan_stream(stream->scan, (const char *)payload, (unsigned)(size - HEAD), 0, s->scratch, on_hit, s);
        end_group(s);
        end_hits(s);
        stream->place += size - HEAD;
        put(reply(s, FED, name, 8), stream->place, 8);
        break;
    case CLOSE:
        stream = stream_of(s, name, 1);
        hs_close_stream(stream->scan, s->scratch, NULL, NULL);
        stream->open = 0;
        reply(s, CLOSED, name, 0);
        break;
    default:
        exit(2);
    }
}

static void *serve(void *context) {
    struct session *s = context;
    s->bytes = malloc(WINDOW);
    s->replies = malloc(OUT + 2 * (HEAD + 2 + HIT * MOST_HITS));
    while (s->in >= 0) {
        ssize_t got = read(s->in, s->bytes + s->held, WINDOW - s->held);
        if (got <= 0) break;
        s->held += (size_t)got;
        size_t at = 0, size;
        while (s->held - at >= 4 && s->held - at >= (size = 4 + number_at(s->bytes + at, 4))) {
            answer(s, s->bytes + at, size);
            at += size;
        }
        flush(s);
        memmove(s->bytes, s->bytes + at, s->held - at);
        s->held -= at;
    }
    if (s->out != 1) close(s->out);
    return NULL;
}

static int listen_on(int port, int count) {
    int listener = socket(AF_INET, SOCK_STREAM, 0), on = 1;
    struct sockaddr_in here = { .sin_family = AF_INET, .sin_port = htons((uint16_t)port), .sin_addr.s_addr = htonl(INADDR_LOOPBACK) };
    setsockopt(listener, SOL_SOCKET, SO_REUSEADDR, &on, sizeof on);
    if (bind(listener, (struct sockaddr *)&here, sizeof here) || listen(listener, 128)) { perror("serve"); return 2; }
    pthread_t *threads = calloc((size_t)count, sizeof *threads);
    for (int i = 0; i < count; i++) {
        struct session *s = calloc(1, sizeof *s);
        s->in = s->out = accept(listener, NULL, NULL);
        setsockopt(s->in, IPPROTO_TCP, TCP_NODELAY, &on, sizeof on);
        pthread_create(&threads[i], NULL, serve, s);
    }
    close(listener);
    for (int i = 0; i < count; i++) pthread_join(threads[i], NULL);
    return 0;
}

int main(int count, char **words) {
    unscanned = count == 6;
    if (count >= 5) return listen_on(atoi(words[2]), atoi(words[4]));
    static struct session alone = { .in = 0, .out = 1 };
    serve(&alone);
    return 0;
}

// Clients of a server of the frames of docs/FORMATS.md: what bench/serving.py loads servers by. Each connection is
// served by two threads of this process, one that sends and one that reads what comes.
//
//   load PORT CONNECTIONS PUBLISH FEEDS BLOCKS
//
// The first connection publishes what the file PUBLISH has, and each opens a stream 1 by that plan. Then each sends the
// file FEEDS so many times, and reads until the server ends. It prints the seconds of that, and how many bytes came.
#include <arpa/inet.h>
#include <netinet/tcp.h>
#include <pthread.h>
#include <stdint.h>
#include <stdio.h>
#include <stdlib.h>
#include <string.h>
#include <time.h>
#include <unistd.h>

enum { HEAD = 9, PUBLISHED = HEAD + 8, ROOM = 1 << 18, STACK = 1 << 19 };

struct client { int socket; unsigned long long read; };

static char *feeds;
static size_t feeds_size;
static int blocks;

static void fail(const char *what) { perror(what); exit(2); }

static char *read_file(const char *name, size_t *size) {
    FILE *file = fopen(name, "rb");
    if (!file) fail(name);
    fseek(file, 0, SEEK_END);
    *size = (size_t)ftell(file);
    rewind(file);
    char *bytes = malloc(*size);
    if (fread(bytes, 1, *size, file) != *size) fail(name);
    fclose(file);
    return bytes;
}

static void send_all(int to, const char *at, size_t size) {
    while (size) {
        ssize_t took = write(to, at, size);
        if (took <= 0) fail("write");
        at += took;
        size -= (size_t)took;
    }
}

static void read_exactly(int from, uint8_t *at, size_t size) {
    while (size) {
        ssize_t got = read(from, at, size);
        if (got <= 0) fail("read");
        at += got;
        size -= (size_t)got;
    }
}

static int connected(int port) {
    struct sockaddr_in there = { .sin_family = AF_INET, .sin_port = htons((uint16_t)port), .sin_addr.s_addr = htonl(INADDR_LOOPBACK) };
    int found = socket(AF_INET, SOCK_STREAM, 0), on = 1;
    for (int turn = 0; connect(found, (struct sockaddr *)&there, sizeof there); turn++) {
        if (turn > 2000) fail("connect");
        usleep(5000);
    }
    setsockopt(found, IPPROTO_TCP, TCP_NODELAY, &on, sizeof on);
    return found;
}

static void *sends(void *context) {
    struct client *client = context;
    for (int i = 0; i < blocks; i++) send_all(client->socket, feeds, feeds_size);
    shutdown(client->socket, SHUT_WR);
    return NULL;
}

static void *reads(void *context) {
    struct client *client = context;
    char *room = malloc(ROOM);
    for (ssize_t got; (got = read(client->socket, room, ROOM)) > 0;) client->read += (unsigned long long)got;
    free(room);
    return NULL;
}

static double now(void) {
    struct timespec at;
    clock_gettime(CLOCK_MONOTONIC, &at);
    return at.tv_sec + at.tv_nsec * 1e-9;
}

int main(int count, char **words) {
    if (count != 6) { fprintf(stderr, "load PORT CONNECTIONS PUBLISH FEEDS BLOCKS\n"); return 2; }
    int connections = atoi(words[2]);
    size_t publish_size;
    char *publish = read_file(words[3], &publish_size);
    feeds = read_file(words[4], &feeds_size);
    blocks = atoi(words[5]);
    struct client *clients = calloc((size_t)connections, sizeof *clients);
    pthread_t *threads = calloc(2 * (size_t)connections, sizeof *threads);
    pthread_attr_t small;
    pthread_attr_init(&small);
    pthread_attr_setstacksize(&small, STACK);
    for (int i = 0; i < connections; i++) clients[i].socket = connected(atoi(words[1]));
    uint8_t reply[PUBLISHED], open[PUBLISHED] = { 0, 0, 0, 13, 2, 0, 0, 0, 1 };
    send_all(clients[0].socket, publish, publish_size);
    read_exactly(clients[0].socket, reply, PUBLISHED);
    memcpy(open + HEAD, reply + HEAD, 8);
    for (int i = 0; i < connections; i++) {
        send_all(clients[i].socket, (char *)open, sizeof open);
        read_exactly(clients[i].socket, reply, HEAD);
    }
    double before = now();
    for (int i = 0; i < connections; i++) {
        if (pthread_create(&threads[2 * i], &small, sends, &clients[i]) || pthread_create(&threads[2 * i + 1], &small, reads, &clients[i]))
            fail("pthread_create");
    }
    unsigned long long read_all = 0;
    for (int i = 0; i < connections; i++) {
        pthread_join(threads[2 * i], NULL);
        pthread_join(threads[2 * i + 1], NULL);
        read_all += clients[i].read;
    }
    printf("%.9f %llu\n", now() - before, read_all);
    return 0;
}

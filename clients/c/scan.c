/* Scans standard input by a scand on this machine, and prints a line `LIT END` for each hit.

       cc -std=c99 -Wall -Wextra -o scan clients/c/scan.c && ./scan 7000 cat dog < text

   The words after the port are the literals. Status 0, or 2 at an error, with a message. */

#define _POSIX_C_SOURCE 200809L

#include <arpa/inet.h>
#include <errno.h>
#include <inttypes.h>
#include <netinet/in.h>
#include <stdio.h>
#include <stdlib.h>
#include <sys/socket.h>
#include <unistd.h>

#include "scand.h"

enum { STREAM = 1, LITERALS = 4096 };

static uint8_t sent[SCAND_FRAME], got[SCAND_FRAME];
static size_t held, used;
static int port;

static void fail(const char *what)
{
    fprintf(stderr, "scan: %s\n", what);
    exit(2);
}

/* Ends with the server's name, and why it is of no use. */
static void lose(const char *why)
{
    fprintf(stderr, "scan: 127.0.0.1:%d: %s\n", port, why);
    exit(2);
}

static int connected(void)
{
    struct sockaddr_in to = {.sin_family = AF_INET, .sin_port = htons((uint16_t)port)};
    to.sin_addr.s_addr = htonl(INADDR_LOOPBACK);
    int peer = socket(AF_INET, SOCK_STREAM, 0);
    if (peer < 0 || connect(peer, (struct sockaddr *)&to, sizeof to) != 0) {
        lose(strerror(errno));
    }
    return peer;
}

static void send_frame(int peer, size_t size)
{
    if (size == 0) {
        fail("a request does not fit a frame");
    }
    for (size_t at = 0; at < size;) {
        ssize_t moved = send(peer, sent + at, size - at, MSG_NOSIGNAL);
        if (moved < 0) {
            lose(strerror(errno));
        }
        at += (size_t)moved;
    }
}

/* The next reply. It is valid until the next call. */
static struct scand_frame reply(int peer)
{
    struct scand_frame frame;
    held -= used;
    memmove(got, got + used, held);
    used = 0;
    for (;;) {
        enum scand_state state = scand_take((struct scand_text){got, held}, &frame, &used);
        if (state == SCAND_WRONG || (state == SCAND_WHOLE && !scand_is_reply(&frame))) {
            lose("what it sent is no reply to what was asked");
        }
        if (state == SCAND_WHOLE && frame.kind == SCAND_REFUSED) {
            fprintf(stderr, "scan: refused (%d), detail %d\n", scand_code(&frame), scand_detail(&frame));
            exit(2);
        }
        if (state == SCAND_WHOLE) {
            return frame;
        }
        ssize_t moved = recv(peer, got + held, sizeof got - held, 0);
        if (moved <= 0) {
            lose(moved < 0 ? strerror(errno) : "it ended the connection");
        }
        held += (size_t)moved;
    }
}

/* Feeds a piece, and prints its hits. */
static void feed(int peer, struct scand_text piece)
{
    send_frame(peer, scand_put_feed(sent, sizeof sent, STREAM, piece));
    for (struct scand_frame frame = reply(peer); frame.kind == SCAND_HITS; frame = reply(peer)) {
        for (size_t place = 0; place < scand_hit_count(&frame); place++) {
            struct scand_hit hit = scand_hit_at(&frame, place);
            printf("%u %" PRIu64 "\n", (unsigned)hit.literal, hit.end);
        }
    }
}

int main(int count, char **words)
{
    static struct scand_text literals[LITERALS];
    static uint8_t piece[SCAND_PAYLOAD];
    port = count < 3 ? 0 : atoi(words[1]);
    if (port < 1 || port > 65535 || count - 2 > LITERALS) {
        fail("usage: scan PORT LITERAL.., with a port from 1 to 65535 and at most 4096 literals");
    }
    for (int place = 2; place < count; place++) {
        literals[place - 2] = (struct scand_text){(const uint8_t *)words[place], strlen(words[place])};
    }
    int peer = connected();
    send_frame(peer, scand_put_publish(sent, sizeof sent, 0, literals, (size_t)count - 2));
    struct scand_frame published = reply(peer);
    send_frame(peer, scand_put_open(sent, sizeof sent, STREAM, scand_number(&published)));
    (void)reply(peer);
    for (size_t size; (size = fread(piece, 1, sizeof piece, stdin)) > 0;) {
        feed(peer, (struct scand_text){piece, size});
    }
    close(peer);
    if (ferror(stdin)) {
        fail("standard input cannot be read");
    }
    if (fflush(stdout) != 0 || ferror(stdout)) {
        fail("standard output cannot be written");
    }
    return 0;
}

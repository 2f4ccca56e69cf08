/* Stands between nodes as a long way would: each datagram arrives after the same time, or is lost.
 *
 *   delays ONE_WAY LOSS SEED FROM TO [FROM TO]..
 *
 * ONE_WAY is in microseconds, LOSS says how many of a million datagrams are lost, drawn from SEED. What comes to a FROM goes to its TO; both are
 * ADDRESS:PORT. It prints "ready" once all are bound. For each line of its input it prints "came C lost L sent S late T", the last the most
 * microseconds by which one left too late; it ends where its input does.
 */
#define _GNU_SOURCE
#include <arpa/inet.h>
#include <errno.h>
#include <netinet/in.h>
#include <poll.h>
#include <stdint.h>
#include <stdio.h>
#include <stdlib.h>
#include <string.h>
#include <sys/prctl.h>
#include <sys/socket.h>
#include <time.h>
#include <unistd.h>

enum { MOST_BYTES = 2048, MOST_WAYS = 64, AT_ONCE = 64, KEPT_BYTES = 4 << 20 };

struct way {
    int descriptor;
    struct sockaddr_in to;
};

struct datagram {
    struct datagram *next;
    int64_t due;
    int way;
    size_t size;
    unsigned char bytes[MOST_BYTES];
};

static struct way ways[MOST_WAYS];
static int way_count;
/* Since each takes the same time, the first that came is the first that is due. */
static struct datagram *first, *last;
static int64_t one_way;
static uint32_t loss;
static uint64_t state;
static unsigned long came, lost, sent;
static int64_t late;

static void fail(const char *what) {
    fprintf(stderr, "delays: %s: %s\n", what, strerror(errno));
    exit(1);
}

static int64_t now(void) {
    struct timespec time;
    clock_gettime(CLOCK_MONOTONIC, &time);
    return time.tv_sec * INT64_C(1000000) + time.tv_nsec / 1000;
}

/* The next number of a generator by xorshift, below a million. */
static uint32_t draw(void) {
    state ^= state << 13;
    state ^= state >> 7;
    state ^= state << 17;
    return (state >> 20) % 1000000;
}

static struct sockaddr_in address_of(const char *text) {
    char host[64];
    int port;
    struct sockaddr_in address = {.sin_family = AF_INET};
    if (sscanf(text, "%63[^:]:%d", host, &port) != 2 || inet_pton(AF_INET, host, &address.sin_addr) != 1) {
        fprintf(stderr, "delays: %s is no ADDRESS:PORT\n", text);
        exit(2);
    }
    address.sin_port = htons(port);
    return address;
}

static void open_way(const char *from, const char *to) {
    struct sockaddr_in address = address_of(from);
    int descriptor = socket(AF_INET, SOCK_DGRAM | SOCK_NONBLOCK, 0), kept = KEPT_BYTES;
    if (way_count == MOST_WAYS || descriptor < 0)
        fail("socket");
    setsockopt(descriptor, SOL_SOCKET, SO_RCVBUF, &kept, sizeof kept);
    if (bind(descriptor, (const struct sockaddr *)&address, sizeof address) < 0)
        fail(from);
    ways[way_count++] = (struct way){descriptor, address_of(to)};
}

static void keep(int way, const unsigned char *bytes, size_t size) {
    struct datagram *kept = malloc(sizeof *kept);
    if (!kept)
        fail("memory");
    kept->next = NULL;
    kept->due = now() + one_way;
    kept->way = way;
    kept->size = size;
    memcpy(kept->bytes, bytes, size);
    if (last)
        last->next = kept;
    else
        first = kept;
    last = kept;
}

static void take(int way) {
    unsigned char bytes[MOST_BYTES];
    for (int count = 0; count < AT_ONCE; count++) {
        ssize_t size = recv(ways[way].descriptor, bytes, sizeof bytes, 0);
        if (size < 0)
            return;
        came++;
        if (draw() < loss)
            lost++;
        else
            keep(way, bytes, size);
    }
}

static void send_due(void) {
    while (first && first->due <= now()) {
        struct datagram *due = first;
        struct way *way = &ways[due->way];
        if (sendto(way->descriptor, due->bytes, due->size, 0, (const struct sockaddr *)&way->to, sizeof way->to) >= 0)
            sent++;
        if (now() - due->due > late)
            late = now() - due->due;
        first = due->next;
        if (!first)
            last = NULL;
        free(due);
    }
}

/* Answers the lines that came. Says whether there may be more. */
static int answer(void) {
    char lines[256];
    ssize_t size = read(0, lines, sizeof lines);
    for (ssize_t at = 0; at < size; at++)
        if (lines[at] == '\n')
            printf("came %lu lost %lu sent %lu late %ld\n", came, lost, sent, (long)late);
    fflush(stdout);
    return size > 0;
}

int main(int count, char **words) {
    struct pollfd requests[MOST_WAYS + 1];
    if (count < 6 || count % 2 != 0) {
        fprintf(stderr, "delays ONE_WAY LOSS SEED FROM TO [FROM TO]..\n");
        return 2;
    }
    one_way = atoll(words[1]);
    loss = strtoul(words[2], NULL, 10);
    state = strtoull(words[3], NULL, 10) * UINT64_C(2654435761) + UINT64_C(88172645463325252);
    for (int at = 4; at < count; at += 2)
        open_way(words[at], words[at + 1]);
    for (int at = 0; at < way_count; at++)
        requests[at] = (struct pollfd){.fd = ways[at].descriptor, .events = POLLIN};
    requests[way_count] = (struct pollfd){.fd = 0, .events = POLLIN};
    prctl(PR_SET_TIMERSLACK, 1);
    puts("ready");
    fflush(stdout);
    for (;;) {
        send_due();
        int64_t wait = first ? first->due - now() : 1000000;
        struct timespec most = {.tv_sec = 0, .tv_nsec = wait > 0 ? (wait < 1000000 ? wait * 1000 : 999999999) : 0};
        if (ppoll(requests, way_count + 1, &most, NULL) < 0)
            continue;
        for (int at = 0; at < way_count; at++)
            if (requests[at].revents)
                take(at);
        if (requests[way_count].revents && !answer())
            return 0;
    }
}

/* Keeps orders open at the nodes of a running cluster, each an insert of a new item, and prints how many ended how, and how fast.
 *
 * The client protocol is that of docs/CLIENTS.md. A thread sends requests to the centres in turn and receives the answers at the endpoints of
 * their clients. What has no answer for a while is sent again, with the same serial. Where one copy is refused, no more are sent and the answers
 * to the others are waited for, since one of them may be begun.
 */
#define _GNU_SOURCE
#include <arpa/inet.h>
#include <netinet/in.h>
#include <poll.h>
#include <sys/random.h>
#include <sys/socket.h>
#include <unistd.h>

#include "loads.h"

enum {
    MOST_CENTRES = 9,
    MOST_VALUES = 4,
    CLIENT_BEGIN = 14,
    CLIENT_ANSWER = 15,
    FORMAT = 1,
    HEAD_BYTES = 17,
    MOST_KEY = 32,
    MOST_BYTES = 256,
    KEPT_BYTES = 4 << 20,
    SERIALS = 1 << 20,
};

/* What an answer to a begin says, at this byte of its datagram. */
enum { ANSWER_AT = 25, BEGUN = 2, REFUSED = 3, ENDED = 4, DRAFT = 5, ENDED_BYTES = 36 };

static const char help[] =
    "orders --hosts A,B,.. --port P --values V,.. [OPTION..]\n\n"
    "Keeps orders open at the nodes of a running cluster, begun at its centres in turn. Each inserts a new item with an empty body.\n\n"
    "  --hosts A,B,..     the hosts of the centres, as the configuration has them\n"
    "  --port P           its port\n"
    "  --values V,..      the numbers of an item, as many as it has bounds\n" COMMON_OPTIONS
    "  --again S          seconds after which a request without an answer is sent again (default: 0.25)\n"
    "  --patience S       seconds after which it is given up (default: 10)\n\n"
    "It prints lines of a name and a number:\n\n"
    "  commits N, aborts N, refusals N, timeouts N   how the orders ended; those of no answer, or of which\n"
    "                     one copy alone was refused, are timeouts\n"
    "  again N            how many requests were sent again\n"
    "  strange N          datagrams that are no answer of a centre\n" COMMON_LINES;

struct order {
    uint32_t serial;
    int centre;
    double began, sent, at_clock;
    int sends, refusals, is_begun;
    size_t size;
    unsigned char bytes[MOST_BYTES];
};

struct centre {
    int descriptor;
    struct sockaddr_in asked, client;
};

static struct order orders[MOST_OPEN];
/* Of each serial, by its last bits, which open order has it, from 1 on. */
static uint16_t order_of[SERIALS];
static struct centre centres[MOST_CENTRES + 1];
static struct pollfd requests[MOST_CENTRES];
static int centre_count, next_centre;
static int64_t values[MOST_VALUES];
static unsigned value_count;
static double again = 0.25, patience = 10;
static uint32_t next_serial;
static long aborts, refusals, timeouts, sent_again, strange;

/* The system's clock, which also says when a datagram came. */
static double at_clock(void) {
    struct timespec time;
    clock_gettime(CLOCK_REALTIME, &time);
    return time.tv_sec + time.tv_nsec / 1e9;
}

/* ---- bytes */

static unsigned char *put(unsigned char *at, uint64_t number, int size) {
    for (; size > 0; size--, number >>= 8)
        *at++ = number;
    return at;
}

static uint64_t number_at(const unsigned char *at, int size) {
    uint64_t number = 0;
    while (size > 0)
        number = number << 8 | at[--size];
    return number;
}

/* The part that writes a new item: its key, version 0, a write of an empty body and the values, over nothing seen. */
static unsigned char *put_insert(unsigned char *at, const char *key, size_t length) {
    at = put(at, length, 1);
    memcpy(at, key, length);
    at = put(at + length, 0, 8);
    at = put(put(put(at, 1, 1), 0, 1), value_count, 1);
    for (unsigned value = 0; value < value_count; value++)
        at = put(at, values[value], 8);
    return put(at, 0, 1);
}

static void lay_out(struct order *order, const char *key, size_t length) {
    unsigned char *message = order->bytes + HEAD_BYTES, *at = message;
    at = put(put(put(put(at, FORMAT, 1), CLIENT_BEGIN, 1), 16 + order->centre, 1), order->centre, 1);
    at = put(put(at, order->serial, 4), 1, 1);
    at = put_insert(at, key, length);
    order->size = at - order->bytes;
    at = put(put(put(order->bytes, 16 + order->centre, 1), order->serial, 4), 1, 4);
    put(put(put(at, order->size - HEAD_BYTES, 4), 0, 2), 1, 2);
}

/* ---- orders */

static void send_order(struct order *order, double time) {
    struct centre *centre = &centres[order->centre];
    order->sent = time;
    order->sends++;
    /* Where the system does not take it, it counts as lost on its way. */
    (void)!sendto(centre->descriptor, order->bytes, order->size, 0, (const struct sockaddr *)&centre->asked, sizeof centre->asked);
}

static void begin_order(int slot) {
    struct order *order = &orders[slot];
    char key[128];
    int length = snprintf(key, sizeof key, "%s/%ld", load.prefix, load.begun + 1);
    if (length < 0 || length > MOST_KEY)
        refuse(load.prefix);
    while (order_of[next_serial % SERIALS] || next_serial == 0)
        next_serial++;
    order->serial = next_serial++;
    order_of[order->serial % SERIALS] = slot + 1;
    next_centre = next_centre % centre_count + 1;
    order->centre = next_centre;
    order->sends = order->refusals = order->is_begun = 0;
    lay_out(order, key, length);
    load.begun++;
    load.open++;
    order->at_clock = at_clock();
    order->began = now();
    send_order(order, order->began);
}

/* Ends an order, and begins another in its place. */
static void end_order(struct order *order, double time) {
    order_of[order->serial % SERIALS] = 0;
    order->size = 0;
    load.open--;
    if (may_begin(time))
        begin_order(order - orders);
}

static int is_answer(int centre, const unsigned char *bytes, size_t size) {
    return size > ANSWER_AT && bytes[0] == centre && number_at(bytes + 9, 4) == size - HEAD_BYTES && number_at(bytes + 13, 4) == 1 << 16 &&
           bytes[17] == FORMAT && bytes[18] == CLIENT_ANSWER && bytes[19] == centre && bytes[20] == 16 + centre;
}

/* Whether a refusal of one copy says that none will be begun: each was refused. */
static int is_refused(struct order *order, double time) {
    order->refusals++;
    if (!order->is_begun && order->refusals < order->sends)
        order->sent = time;
    return !order->is_begun && order->refusals >= order->sends;
}

static void take_answer(int centre, const unsigned char *bytes, size_t size, double came) {
    if (!is_answer(centre, bytes, size)) {
        strange++;
        return;
    }
    uint32_t serial = number_at(bytes + 21, 4);
    int slot = order_of[serial % SERIALS] - 1;
    if (slot < 0 || orders[slot].serial != serial || orders[slot].centre != centre)
        return;
    struct order *order = &orders[slot];
    double time = now();
    if (bytes[ANSWER_AT] == ENDED && size == ENDED_BYTES) {
        if (bytes[ENDED_BYTES - 1])
            note_time(time - order->began, came ? came - order->at_clock : time - order->began);
        else
            aborts++;
    } else if (bytes[ANSWER_AT] == DRAFT) {
        refusals++;
    } else if (bytes[ANSWER_AT] == REFUSED) {
        if (!is_refused(order, time))
            return;
        refusals++;
    } else {
        order->is_begun |= bytes[ANSWER_AT] == BEGUN;
        strange += bytes[ANSWER_AT] != BEGUN;
        return;
    }
    end_order(order, time);
}

/* When a datagram came by the system's clock, or 0 where that is not told. */
static double time_of(struct msghdr *message) {
    for (struct cmsghdr *told = CMSG_FIRSTHDR(message); told; told = CMSG_NXTHDR(message, told))
        if (told->cmsg_level == SOL_SOCKET && told->cmsg_type == SO_TIMESTAMPNS) {
            struct timespec time;
            memcpy(&time, CMSG_DATA(told), sizeof time);
            return time.tv_sec + time.tv_nsec / 1e9;
        }
    return 0;
}

static void receive(int centre) {
    unsigned char bytes[2048], told[64];
    struct iovec part = {bytes, sizeof bytes};
    for (;;) {
        struct msghdr message = {.msg_iov = &part, .msg_iovlen = 1, .msg_control = told, .msg_controllen = sizeof told};
        ssize_t size = recvmsg(centres[centre].descriptor, &message, 0);
        if (size < 0)
            return;
        take_answer(centre, bytes, size, time_of(&message));
    }
}

/* Sends again what is late, and gives up what is too late. */
static void look_after(double time) {
    for (int slot = 0; slot < load.most_open; slot++) {
        struct order *order = &orders[slot];
        if (!order->size)
            continue;
        int is_silent = time - order->sent > again, in_doubt = order->refusals && !order->is_begun;
        if (time - order->began > patience || (is_silent && in_doubt)) {
            timeouts++;
            end_order(order, time);
        } else if (is_silent) {
            sent_again++;
            send_order(order, time);
        }
    }
}

static void run(void) {
    double looked = 0;
    begin_load();
    for (int slot = 0; slot < load.most_open && may_begin(now()); slot++)
        begin_order(slot);
    while (load.open > 0) {
        if (poll(requests, centre_count, 10) < 0 && errno != EINTR)
            fail("poll");
        for (int at = 0; at < centre_count; at++)
            if (requests[at].revents)
                receive(at + 1);
        double time = now();
        may_begin(time);
        print_each(time);
        if (time - looked > again / 8) {
            looked = time;
            look_after(time);
        }
    }
}

/* ---- words */

static struct sockaddr_in address_of(const char *host, int port) {
    struct sockaddr_in address = {.sin_family = AF_INET, .sin_port = htons(port)};
    if (inet_pton(AF_INET, host, &address.sin_addr) != 1)
        refuse(host);
    return address;
}

static void open_centre(const char *host, int port) {
    int on = 1, kept = KEPT_BYTES, number = ++centre_count;
    struct centre *centre = &centres[number];
    centre->asked = address_of(host, port + 16 + number);
    centre->client = address_of(host, port + 32 + number);
    centre->descriptor = socket(AF_INET, SOCK_DGRAM | SOCK_NONBLOCK, 0);
    if (centre->descriptor < 0)
        fail("socket");
    setsockopt(centre->descriptor, SOL_SOCKET, SO_RCVBUF, &kept, sizeof kept);
    setsockopt(centre->descriptor, SOL_SOCKET, SO_TIMESTAMPNS, &on, sizeof on);
    if (bind(centre->descriptor, (const struct sockaddr *)&centre->client, sizeof centre->client) < 0)
        fail("the endpoint of a client");
    requests[number - 1] = (struct pollfd){.fd = centre->descriptor, .events = POLLIN};
}

static void open_centres(char *hosts, int port) {
    for (char *host = strtok(hosts, ","); host; host = strtok(NULL, ",")) {
        if (centre_count == MOST_CENTRES)
            refuse(host);
        open_centre(host, port);
    }
}

static void take_values(char *text) {
    for (char *word = strtok(text, ","); word; word = strtok(NULL, ",")) {
        char *end;
        if (value_count == MOST_VALUES)
            refuse(word);
        values[value_count++] = strtoll(word, &end, 10);
        if (*end)
            refuse(word);
    }
}

int main(int count, char **words) {
    char *hosts = NULL;
    int port = 0;
    if (count == 2 && strcmp(words[1], "--help") == 0) {
        fputs(help, stdout);
        return 0;
    }
    for (int at = 1; at < count; at += 2) {
        char *value = at + 1 < count ? words[at + 1] : (refuse(words[at]), NULL);
        if (strcmp(words[at], "--hosts") == 0)
            hosts = value;
        else if (strcmp(words[at], "--port") == 0)
            port = number_in(value, 1, 65000);
        else if (strcmp(words[at], "--values") == 0)
            take_values(value);
        else if (strcmp(words[at], "--again") == 0)
            again = number_in(value, 0.001, 1e9);
        else if (strcmp(words[at], "--patience") == 0)
            patience = number_in(value, 0.001, 1e9);
        else if (!take_option(words[at], value))
            refuse(words[at]);
    }
    if (!hosts || !port || !value_count)
        refuse("--hosts, --port and --values");
    open_centres(hosts, port);
    if (getrandom(&next_serial, sizeof next_serial, 0) != sizeof next_serial)
        fail("random");
    run();
    printf("commits %ld\naborts %ld\nrefusals %ld\ntimeouts %ld\nagain %ld\nstrange %ld\n", load.well, aborts, refusals, timeouts, sent_again, strange);
    print_times();
    return 0;
}

/* Keeps puts of new keys open at the members of a running etcd, and prints how many ended how, and how fast.
 *
 * A put is a call of etcd's own protocol, gRPC over HTTP/2 (RFC 9113), or of its gateway for JSON (POST /v3/kv/put). There is one connection for each that is
 * open, over the members in turn. One thread.
 */
#define _GNU_SOURCE
#include <arpa/inet.h>
#include <netinet/in.h>
#include <netinet/tcp.h>
#include <sys/epoll.h>
#include <sys/socket.h>
#include <unistd.h>

#include "loads.h"

enum { MOST_MEMBERS = 64, ANSWER_BYTES = 8192, EVENTS = 256 };

/* Of HTTP/2: kinds and flags of frames, and how many bytes stand before what a frame has. */
enum { DATA = 0, HEADERS = 1, RESET = 3, SETTINGS = 4, PING = 6, GO_AWAY = 7, WINDOW_UPDATE = 8, END_STREAM = 1, ACKNOWLEDGED = 1, END_HEADERS = 4, FRAME_HEAD = 9 };

static const char help[] =
    "puts --members HOST:PORT,.. [OPTION..]\n\n"
    "Keeps puts of new keys, with one byte as value, open at the members of a running etcd.\n\n"
    "  --members HOST:PORT,..   where the members listen to clients, in turn for each connection\n"
    "  --by grpc, --by json     by etcd's own protocol, or through its gateway for JSON (default: grpc)\n" COMMON_OPTIONS
    "\nIt prints lines of a name and a number:\n\n"
    "  puts N             puts that were answered with success\n"
    "  failures N         those that were not; their connection is not used again\n" COMMON_LINES;

struct connection {
    int descriptor, is_over;
    double began;
    size_t size;
    /* Of the put that is open, by gRPC: its stream, and whether an answer came. */
    uint32_t stream;
    int has_answer;
    char answer[ANSWER_BYTES + 1];
};

static struct connection connections[MOST_OPEN];
static struct sockaddr_in members[MOST_MEMBERS];
static int member_count, poller, is_json;
static long failures;

static void write_base64(const char *text, char *into) {
    static const char digits[] = "ABCDEFGHIJKLMNOPQRSTUVWXYZabcdefghijklmnopqrstuvwxyz0123456789+/";
    size_t length = strlen(text);
    for (size_t at = 0; at < length; at += 3) {
        uint32_t bits = (unsigned char)text[at] << 16;
        if (at + 1 < length)
            bits |= (unsigned char)text[at + 1] << 8;
        if (at + 2 < length)
            bits |= (unsigned char)text[at + 2];
        *into++ = digits[bits >> 18];
        *into++ = digits[bits >> 12 & 63];
        *into++ = at + 1 < length ? digits[bits >> 6 & 63] : '=';
        *into++ = at + 2 < length ? digits[bits & 63] : '=';
    }
    *into = 0;
}

static void give_up(struct connection *connection) {
    if (connection->is_over)
        return;
    connection->is_over = 1;
    failures++;
    load.open--;
    epoll_ctl(poller, EPOLL_CTL_DEL, connection->descriptor, NULL);
}

static void give(struct connection *connection, const void *bytes, size_t size) {
    if (send(connection->descriptor, bytes, size, MSG_NOSIGNAL) != (ssize_t)size)
        give_up(connection);
}

/* ---- by the gateway for JSON */

static void put_by_json(struct connection *connection, const char *key) {
    char encoded[256], body[512], request[1024];
    write_base64(key, encoded);
    int length = snprintf(body, sizeof body, "{\"key\": \"%s\", \"value\": \"dg==\"}", encoded);
    int size = snprintf(request, sizeof request,
                        "POST /v3/kv/put HTTP/1.1\r\nHost: etcd\r\nContent-Type: application/json\r\nContent-Length: %d\r\n\r\n%s", length, body);
    give(connection, request, size);
}

/* Whether an answer is whole; it has a length, or ends with an empty piece. */
static int is_whole(const struct connection *connection) {
    const char *body = strstr(connection->answer, "\r\n\r\n"), *length = strcasestr(connection->answer, "\r\nContent-Length:");
    if (!body)
        return 0;
    body += 4;
    if (length && length < body)
        return connection->answer + connection->size >= body + atol(length + strlen("\r\nContent-Length:"));
    return strstr(body, "0\r\n\r\n") != NULL;
}

/* What came of the put that is open: 0 where more has to come, 1 where it was made, -1 where it was not. */
static int end_of_json(struct connection *connection) {
    connection->answer[connection->size] = 0;
    if (!is_whole(connection))
        return 0;
    connection->size = 0;
    return strncmp(connection->answer, "HTTP/1.1 200 ", 13) == 0 ? 1 : -1;
}

/* ---- by gRPC */

static char *write_word(char *into, const char *text, size_t length) {
    *into++ = length;
    memcpy(into, text, length);
    return into + length;
}

static char *write_frame(char *into, int kind, int flags, uint32_t stream, const char *bytes, size_t size) {
    char head[FRAME_HEAD] = {size >> 16, size >> 8, size, kind, flags, stream >> 24, stream >> 16, stream >> 8, stream};
    memcpy(into, head, FRAME_HEAD);
    memcpy(into + FRAME_HEAD, bytes, size);
    return into + FRAME_HEAD + size;
}

/* The headers of a call, none of them compressed (RFC 7541): those that begin with 0x83 and 0x86 are whole entries of its table, of others the table has
 * the name. */
static size_t write_headers(char *into) {
    static const char path[] = "/etcdserverpb.KV/Put", type[] = "application/grpc";
    char *at = into;
    *at++ = '\x83';
    *at++ = '\x86';
    *at++ = 4;
    at = write_word(at, path, strlen(path));
    *at++ = 1;
    at = write_word(at, "etcd", 4);
    *at++ = '\x0f';
    *at++ = 31 - 15;
    at = write_word(at, type, strlen(type));
    *at++ = 0;
    at = write_word(write_word(at, "te", 2), "trailers", 8);
    return at - into;
}

/* A put is a message with the fields 1, the key, and 2, the value, behind a byte for "not compressed" and its length. */
static size_t write_message(char *into, const char *key) {
    size_t length = strlen(key);
    char *at = into + 5;
    *at++ = 1 << 3 | 2;
    at = write_word(at, key, length);
    *at++ = 2 << 3 | 2;
    at = write_word(at, "v", 1);
    memset(into, 0, 4);
    into[4] = at - into - 5;
    return at - into;
}

static void put_by_grpc(struct connection *connection, const char *key) {
    char headers[256], message[256], request[1024], *at = request;
    if (connection->stream == 0) {
        static const char preface[] = "PRI * HTTP/2.0\r\n\r\nSM\r\n\r\n";
        memcpy(at, preface, strlen(preface));
        at = write_frame(at + strlen(preface), SETTINGS, 0, 0, "", 0);
    }
    connection->stream = connection->stream ? connection->stream + 2 : 1;
    connection->has_answer = 0;
    at = write_frame(at, HEADERS, END_HEADERS, connection->stream, headers, write_headers(headers));
    at = write_frame(at, DATA, END_STREAM, connection->stream, message, write_message(message, key));
    give(connection, request, at - request);
}

static uint32_t number_at(const char *bytes, int size) {
    uint32_t number = 0;
    for (int at = 0; at < size; at++)
        number = number << 8 | (unsigned char)bytes[at];
    return number;
}

/* Takes a frame: 0 where more has to come, 1 where the put was made, -1 where it was not. A call that failed ends without an answer. */
static int take_frame(struct connection *connection, const char *frame, size_t size) {
    int kind = frame[3], flags = frame[4], is_own = number_at(frame + 5, 4) == connection->stream;
    char out[64];
    if ((kind == SETTINGS || kind == PING) && !(flags & ACKNOWLEDGED))
        give(connection, out, write_frame(out, kind, ACKNOWLEDGED, 0, frame + FRAME_HEAD, kind == PING ? 8 : 0) - out);
    if (kind == GO_AWAY || (kind == RESET && is_own))
        return -1;
    if (kind == DATA && size > 0) {
        /* So many bytes more may come on this connection. */
        char more[4] = {0, size >> 16, size >> 8, size};
        give(connection, out, write_frame(out, WINDOW_UPDATE, 0, 0, more, sizeof more) - out);
        connection->has_answer |= is_own;
    }
    if (!is_own || !(flags & END_STREAM) || (kind != HEADERS && kind != DATA))
        return 0;
    return connection->has_answer ? 1 : -1;
}

static int end_of_grpc(struct connection *connection) {
    size_t at = 0;
    int end = 0;
    while (end == 0 && connection->size - at >= FRAME_HEAD) {
        size_t size = number_at(connection->answer + at, 3);
        if (size > ANSWER_BYTES - FRAME_HEAD)
            return -1;
        if (connection->size - at < FRAME_HEAD + size)
            break;
        end = take_frame(connection, connection->answer + at, size);
        at += FRAME_HEAD + size;
    }
    connection->size -= at;
    memmove(connection->answer, connection->answer + at, connection->size);
    return end;
}

/* ---- puts */

static void begin_put(struct connection *connection) {
    char key[128];
    snprintf(key, sizeof key, "%.64s/%ld", load.prefix, ++load.begun);
    load.open++;
    connection->began = now();
    if (is_json)
        put_by_json(connection, key);
    else
        put_by_grpc(connection, key);
}

static void take(struct connection *connection) {
    ssize_t size = recv(connection->descriptor, connection->answer + connection->size, ANSWER_BYTES - connection->size, MSG_DONTWAIT);
    if (size < 0 && (errno == EAGAIN || errno == EINTR))
        return;
    int end = -1;
    if (size > 0) {
        connection->size += size;
        end = is_json ? end_of_json(connection) : end_of_grpc(connection);
    }
    if (end < 0)
        give_up(connection);
    if (end <= 0)
        return;
    double time = now();
    note_time(time - connection->began, time - connection->began);
    load.open--;
    if (may_begin(time))
        begin_put(connection);
}

static void run(void) {
    struct epoll_event events[EVENTS];
    begin_load();
    for (long at = 0; at < load.most_open && may_begin(now()); at++)
        begin_put(&connections[at]);
    while (load.open > 0) {
        int count = epoll_wait(poller, events, EVENTS, 10000);
        if (count == 0) {
            failures += load.open;
            break;
        }
        for (int at = 0; at < count; at++)
            take(events[at].data.ptr);
        double time = now();
        may_begin(time);
        print_each(time);
    }
}

static void open_connection(struct connection *connection, const struct sockaddr_in *member) {
    struct epoll_event event = {.events = EPOLLIN, .data.ptr = connection};
    int on = 1;
    connection->descriptor = socket(AF_INET, SOCK_STREAM, 0);
    if (connection->descriptor < 0 || connect(connection->descriptor, (const struct sockaddr *)member, sizeof *member) < 0)
        fail("a connection");
    setsockopt(connection->descriptor, IPPROTO_TCP, TCP_NODELAY, &on, sizeof on);
    if (epoll_ctl(poller, EPOLL_CTL_ADD, connection->descriptor, &event) < 0)
        fail("epoll");
}

static void take_members(char *text) {
    for (char *word = strtok(text, ","); word; word = strtok(NULL, ",")) {
        char host[64];
        int port;
        struct sockaddr_in *member = &members[member_count];
        if (member_count++ == MOST_MEMBERS || sscanf(word, "%63[^:]:%d", host, &port) != 2 || inet_pton(AF_INET, host, &member->sin_addr) != 1)
            refuse(word);
        member->sin_family = AF_INET;
        member->sin_port = htons(port);
    }
}

int main(int count, char **words) {
    if (count == 2 && strcmp(words[1], "--help") == 0) {
        fputs(help, stdout);
        return 0;
    }
    for (int at = 1; at < count; at += 2) {
        char *value = at + 1 < count ? words[at + 1] : (refuse(words[at]), NULL);
        if (strcmp(words[at], "--members") == 0)
            take_members(value);
        else if (strcmp(words[at], "--by") == 0 && (strcmp(value, "json") == 0 || strcmp(value, "grpc") == 0))
            is_json = strcmp(value, "json") == 0;
        else if (!take_option(words[at], value))
            refuse(words[at]);
    }
    if (!member_count)
        refuse("--members");
    poller = epoll_create1(0);
    for (long at = 0; at < load.most_open; at++)
        open_connection(&connections[at], &members[at % member_count]);
    run();
    printf("puts %ld\nfailures %ld\n", load.well, failures);
    print_times();
    return 0;
}

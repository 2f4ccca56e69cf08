/* What the load clients share: their clock, the times that requests took, and what they print.
 *
 * Requests are begun for so many seconds, or until there were so many of them; those that are open then are waited for. Times and rate are of
 * requests that ended well while others were begun.
 */
#ifndef LOADS_H
#define LOADS_H

#include <errno.h>
#include <stdint.h>
#include <stdio.h>
#include <stdlib.h>
#include <string.h>
#include <time.h>

enum { MOST_OPEN = 4096 };

/* What is asked for, and what came of it so far. Times are in seconds: `began` and `ended` by a clock that only rises. */
static struct {
    long most_open, requests;
    double seconds, each;
    const char *prefix;

    long begun, open, well;
    double began, ended, next_line;
    double *times, *times_at_socket;
    size_t count, room;
    size_t counted_before;
} load = {.most_open = 8, .seconds = 10, .prefix = "load"};

__attribute__((noreturn)) static void fail(const char *what) {
    fprintf(stderr, "%s: %s\n", what, strerror(errno));
    exit(1);
}

static double now(void) {
    struct timespec time;
    clock_gettime(CLOCK_MONOTONIC, &time);
    return time.tv_sec + time.tv_nsec / 1e9;
}

static void begin_load(void) {
    load.began = now();
    load.next_line = load.began + load.each;
}

/* Whether one more request is begun. */
static int may_begin(double time) {
    if (load.requests)
        return load.begun < load.requests;
    if (time < load.began + load.seconds)
        return 1;
    if (load.ended == 0)
        load.ended = time;
    return 0;
}

/* Notes a request that ended well: how long it took until this program knew, and until its answer came to the socket. */
static void note_time(double took, double took_at_socket) {
    load.well++;
    if (load.ended != 0)
        return;
    if (load.count == load.room) {
        load.room = load.room ? 2 * load.room : 1 << 16;
        load.times = realloc(load.times, load.room * sizeof *load.times);
        load.times_at_socket = realloc(load.times_at_socket, load.room * sizeof *load.times_at_socket);
        if (!load.times || !load.times_at_socket)
            fail("memory");
    }
    load.times[load.count] = took;
    load.times_at_socket[load.count++] = took_at_socket;
}

static int compare(const void *one, const void *other) {
    double a = *(const double *)one, b = *(const double *)other;
    return (a > b) - (a < b);
}

/* The time below which this share of the ascending times is, in milliseconds. */
static double percentile(const double *ascending, size_t count, double share) {
    size_t at = share * count;
    return count == 0 ? 0 : ascending[at < count ? at : count - 1] * 1e3;
}

/* Prints what ended since the last such line, where one is due. */
static void print_each(double time) {
    if (load.each <= 0 || time < load.next_line)
        return;
    size_t count = load.count - load.counted_before;
    double longest = 0;
    for (size_t at = load.counted_before; at < load.count; at++)
        if (load.times[at] > longest)
            longest = load.times[at];
    printf("after %.2f seconds well %ld rate %.1f longest %.3f\n", time - load.began, load.well, count / (time - load.next_line + load.each), longest * 1e3);
    fflush(stdout);
    load.counted_before = load.count;
    load.next_line = time + load.each;
}

static void print_times(void) {
    double span = (load.ended ? load.ended : now()) - load.began;
    qsort(load.times, load.count, sizeof *load.times, compare);
    qsort(load.times_at_socket, load.count, sizeof *load.times_at_socket, compare);
    printf("seconds %.3f\nrate %.1f\n", span, load.count / span);
    printf("p50 %.3f\np90 %.3f\np99 %.3f\nlongest %.3f\nsocket %.3f\n", percentile(load.times, load.count, 0.5),
           percentile(load.times, load.count, 0.9), percentile(load.times, load.count, 0.99), percentile(load.times, load.count, 1),
           percentile(load.times_at_socket, load.count, 0.5));
}

/* ---- words */

__attribute__((noreturn)) static void refuse(const char *word) {
    fprintf(stderr, "%s: no such word, or not as --help says\n", word);
    exit(2);
}

static double number_in(const char *text, double least, double most) {
    char *end;
    double number = strtod(text, &end);
    if (*text == 0 || *end != 0 || !(number >= least && number <= most))
        refuse(text);
    return number;
}

/* Takes an option that all load clients have. Says whether it was one. */
static int take_option(const char *name, const char *value) {
    if (strcmp(name, "--open") == 0)
        load.most_open = number_in(value, 1, MOST_OPEN);
    else if (strcmp(name, "--seconds") == 0)
        load.seconds = number_in(value, 0, 1e9);
    else if (strcmp(name, "--requests") == 0)
        load.requests = number_in(value, 1, 1e9);
    else if (strcmp(name, "--each") == 0)
        load.each = number_in(value, 0, 1e9);
    else if (strcmp(name, "--prefix") == 0)
        load.prefix = value;
    else
        return 0;
    return 1;
}

#define COMMON_OPTIONS                                                                                                                         \
    "  --open N           how many are kept open, 1 to 4096 (default: 8)\n"                                                                     \
    "  --seconds S        for how long requests are begun (default: 10)\n"                                                                      \
    "  --requests N       how many are begun, in place of --seconds\n"                                                                          \
    "  --prefix TEXT      what their keys begin with; a number follows (default: load)\n"                                                       \
    "  --each S           also prints a line after each so many seconds: what ended well, how many a second, and the longest, in ms\n"

#define COMMON_LINES                                                                                                                           \
    "  seconds S          for how long requests were begun; the lines below are of those that ended well within it\n"                           \
    "  rate R             how many a second\n"                                                                                                  \
    "  p50 T, p90 T, p99 T, longest T   milliseconds from the first sending of a request until this program had read its end\n"                 \
    "  socket T           p50 until that end came to the socket, as the system tells; the same as p50 where it does not\n"

#endif

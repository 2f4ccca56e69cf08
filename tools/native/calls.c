/* Records the calls that a program makes at files and sockets, and lets some of them fail.
 *
 * It is loaded before the program (LD_PRELOAD) and reads three variables:
 *
 *   CALLS_RECORD  a file; each call is appended to it as one line
 *   CALLS_BYTES   how many bytes of what is written or sent a line has at most; 64 where it is left out
 *   CALLS_RULE    "NAME FIRST COUNT HOW": of the calls of this name those from the FIRST-th on, COUNT of them or all where it is 0,
 *                 fail with the errno HOW; where HOW is "short" they take one byte; where it is "nothing" they answer as if they had
 *                 been made, and are not
 *
 * A line has the words NAME DESCRIPTOR TARGET AT SIZE BYTES ANSWER ERRNO RULED with blanks between them: TARGET is what the descriptor
 * stands for, as /proc/self/fd tells; AT an offset, port, operation or timeout; BYTES a path, or what is written or sent, as hexadecimal digits;
 * "-" stands for nothing; RULED is 1 where the rule struck. A pwrite of 4,096 zeros or more has the name "zeros", and no bytes. Descriptors of this
 * library are above 900, so that the program gets those that it would get without it. For programs of one thread.
 */
#define _GNU_SOURCE
#include <arpa/inet.h>
#include <dlfcn.h>
#include <errno.h>
#include <fcntl.h>
#include <netinet/in.h>
#include <poll.h>
#include <stdarg.h>
#include <stdio.h>
#include <stdlib.h>
#include <string.h>
#include <sys/file.h>
#include <sys/ioctl.h>
#include <sys/socket.h>
#include <sys/stat.h>
#include <sys/syscall.h>
#include <unistd.h>

enum { LEAST_DESCRIPTOR = 900, NAMES = 32, NAME_SIZE = 24, TARGET_SIZE = 256, FEW_BYTES = 64, MANY_ZEROS = 4096 };

enum how { MADE, FAILS, SHORT, NOTHING };

static struct {
    char name[NAME_SIZE];
    long first, count;
    enum how how;
    int error;
} rule;

static struct {
    char name[NAME_SIZE];
    long calls;
} counts[NAMES];

static int record = -1;
static size_t most_bytes = FEW_BYTES;

/* The call of this name that the program would have made without this library. */
#define NEXT(name) ((__typeof__(&name))dlsym(RTLD_NEXT, #name))

static void read_rule(const char *text) {
    char how[NAME_SIZE];
    if (sscanf(text, "%23s %ld %ld %23s", rule.name, &rule.first, &rule.count, how) != 4) {
        static const char wrong[] = "calls: CALLS_RULE is no rule\n";
        syscall(SYS_write, 2, wrong, sizeof wrong - 1);
        _exit(120);
    }
    rule.how = strcmp(how, "short") == 0 ? SHORT : strcmp(how, "nothing") == 0 ? NOTHING : FAILS;
    rule.error = atoi(how);
}

static void open_record(const char *path) {
    int low = syscall(SYS_openat, AT_FDCWD, path, O_WRONLY | O_CREAT | O_APPEND | O_CLOEXEC, 0644);
    record = syscall(SYS_fcntl, low, F_DUPFD_CLOEXEC, LEAST_DESCRIPTOR);
    syscall(SYS_close, low);
}

__attribute__((constructor)) static void begin(void) {
    const char *path = getenv("CALLS_RECORD"), *text = getenv("CALLS_RULE"), *bytes = getenv("CALLS_BYTES");
    if (bytes)
        most_bytes = strtoul(bytes, NULL, 10);
    if (text && *text)
        read_rule(text);
    if (path)
        open_record(path);
}

/* What happens to the call of this name that comes now. */
static enum how next_how(const char *name) {
    if (strcmp(name, rule.name) != 0)
        return MADE;
    for (int at = 0; at < NAMES; at++) {
        if (!counts[at].name[0])
            strcpy(counts[at].name, name);
        if (strcmp(counts[at].name, name) == 0) {
            long number = ++counts[at].calls;
            int strikes = number >= rule.first && (rule.count == 0 || number < rule.first + rule.count);
            return strikes ? rule.how : MADE;
        }
    }
    return MADE;
}

struct call {
    const char *name;
    int descriptor;
    long at, size;
    const void *bytes;
    size_t length;
};

static void name_target(int descriptor, char *into) {
    char link[40];
    snprintf(link, sizeof link, "/proc/self/fd/%d", descriptor);
    long size = descriptor < 0 ? -1 : syscall(SYS_readlinkat, AT_FDCWD, link, into, TARGET_SIZE - 1);
    if (size <= 0)
        into[size = 0] = '-', size = 1;
    into[size] = 0;
    for (char *at = into; *at; at++)
        if (*at == ' ')
            *at = '_';
}

static void write_line(const struct call *call, enum how how, long answer, int error) {
    static const char digits[] = "0123456789abcdef";
    char target[TARGET_SIZE];
    int about = answer >= 0 && (strcmp(call->name, "open") == 0 || strcmp(call->name, "socket") == 0) ? (int)answer : call->descriptor;
    size_t shown = call->length < most_bytes ? call->length : most_bytes;
    char *line = malloc(TARGET_SIZE + 200 + 2 * shown);
    if (!line)
        _exit(121);
    name_target(about, target);
    int size = sprintf(line, "%s %d %s %ld %ld ", call->name, about, target, call->at, call->size);
    for (size_t at = 0; at < shown; at++) {
        unsigned char byte = ((const unsigned char *)call->bytes)[at];
        line[size++] = digits[byte >> 4];
        line[size++] = digits[byte & 15];
    }
    if (!shown)
        line[size++] = '-';
    size += sprintf(line + size, " %ld %d %d\n", answer, answer < 0 ? error : 0, how != MADE);
    if (syscall(SYS_write, record, line, size) != size)
        _exit(122);
    free(line);
}

/* Records a call that has its answer, with errno as it left it, and gives the answer. */
static long note(const struct call *call, enum how how, long answer) {
    int error = errno;
    if (record >= 0)
        write_line(call, how, answer, error);
    errno = error;
    return answer;
}

/* Makes a call as the rule says: `made` is the call, `shortened` the same with one byte, `nothing` the answer where it is left out. */
#define CALL(call, made, shortened, nothing)                                                                                                   \
    do {                                                                                                                                       \
        enum how how = next_how((call).name);                                                                                                  \
        long answer;                                                                                                                           \
        if (how == FAILS)                                                                                                                      \
            errno = rule.error, answer = -1;                                                                                                   \
        else if (how == NOTHING)                                                                                                               \
            answer = (nothing);                                                                                                                \
        else if (how == SHORT)                                                                                                                 \
            answer = (shortened);                                                                                                              \
        else                                                                                                                                   \
            answer = (made);                                                                                                                   \
        return note(&(call), how, answer);                                                                                                     \
    } while (0)

static size_t one_of(size_t size) { return size > 1 ? 1 : size; }

/* ---- files */

static int open_at(int folder, const char *path, int flags, mode_t mode) {
    struct call call = {"open", -1, flags, 0, path, strlen(path)};
    CALL(call, syscall(SYS_openat, folder, path, flags, mode), syscall(SYS_openat, folder, path, flags, mode), -1);
}

#define MODE_OF(flags, mode)                                                                                                                   \
    mode_t mode = 0;                                                                                                                           \
    if ((flags) & (O_CREAT | O_TMPFILE)) {                                                                                                     \
        va_list rest;                                                                                                                          \
        va_start(rest, flags);                                                                                                                 \
        mode = va_arg(rest, mode_t);                                                                                                           \
        va_end(rest);                                                                                                                          \
    }

int open(const char *path, int flags, ...) {
    MODE_OF(flags, mode)
    return open_at(AT_FDCWD, path, flags, mode);
}

int open64(const char *path, int flags, ...) {
    MODE_OF(flags, mode)
    return open_at(AT_FDCWD, path, flags, mode);
}

int openat(int folder, const char *path, int flags, ...) {
    MODE_OF(flags, mode)
    return open_at(folder, path, flags, mode);
}

int openat64(int folder, const char *path, int flags, ...) {
    MODE_OF(flags, mode)
    return open_at(folder, path, flags, mode);
}

/* Of what is asked of a descriptor only that it is copied is recorded, as "dupfd". */
int fcntl(int descriptor, int command, ...) {
    va_list rest;
    va_start(rest, command);
    long argument = va_arg(rest, long);
    va_end(rest);
    struct call call = {"dupfd", descriptor, argument, 0, NULL, 0};
    if (command != F_DUPFD && command != F_DUPFD_CLOEXEC)
        return syscall(SYS_fcntl, descriptor, command, argument);
    CALL(call, syscall(SYS_fcntl, descriptor, command, argument), syscall(SYS_fcntl, descriptor, command, argument), -1);
}

int statx(int folder, const char *path, int flags, unsigned mask, struct statx *into) {
    struct call call = {"statx", folder, flags, 0, path, strlen(path)};
    CALL(call, NEXT(statx)(folder, path, flags, mask, into), NEXT(statx)(folder, path, flags, mask, into), -1);
}

int flock(int descriptor, int operation) {
    struct call call = {"flock", descriptor, operation, 0, NULL, 0};
    CALL(call, NEXT(flock)(descriptor, operation), NEXT(flock)(descriptor, operation), 0);
}

int fsync(int descriptor) {
    struct call call = {"fsync", descriptor, 0, 0, NULL, 0};
    CALL(call, NEXT(fsync)(descriptor), NEXT(fsync)(descriptor), 0);
}

int fdatasync(int descriptor) {
    struct call call = {"fdatasync", descriptor, 0, 0, NULL, 0};
    CALL(call, NEXT(fdatasync)(descriptor), NEXT(fdatasync)(descriptor), 0);
}

static int cut(int descriptor, off_t size) {
    struct call call = {"ftruncate", descriptor, size, 0, NULL, 0};
    CALL(call, syscall(SYS_ftruncate, descriptor, size), syscall(SYS_ftruncate, descriptor, size), 0);
}

int ftruncate(int descriptor, off_t size) { return cut(descriptor, size); }

int ftruncate64(int descriptor, off64_t size) { return cut(descriptor, size); }

ssize_t read(int descriptor, void *into, size_t size) {
    struct call call = {"read", descriptor, 0, (long)size, NULL, 0};
    CALL(call, NEXT(read)(descriptor, into, size), NEXT(read)(descriptor, into, one_of(size)), 0);
}

static ssize_t read_at(int descriptor, void *into, size_t size, off_t at) {
    struct call call = {"pread", descriptor, at, (long)size, NULL, 0};
    CALL(call, syscall(SYS_pread64, descriptor, into, size, at), syscall(SYS_pread64, descriptor, into, one_of(size), at), 0);
}

ssize_t pread(int descriptor, void *into, size_t size, off_t at) { return read_at(descriptor, into, size, at); }

ssize_t pread64(int descriptor, void *into, size_t size, off64_t at) { return read_at(descriptor, into, size, at); }

ssize_t write(int descriptor, const void *bytes, size_t size) {
    struct call call = {"write", descriptor, 0, (long)size, bytes, size};
    CALL(call, NEXT(write)(descriptor, bytes, size), NEXT(write)(descriptor, bytes, one_of(size)), (long)size);
}

static int are_zeros(const unsigned char *bytes, size_t size) {
    return size >= MANY_ZEROS && bytes[0] == 0 && memcmp(bytes, bytes + 1, size - 1) == 0;
}

static ssize_t write_at(int descriptor, const void *bytes, size_t size, off_t at) {
    int is_ahead = are_zeros(bytes, size);
    struct call call = {is_ahead ? "zeros" : "pwrite", descriptor, at, (long)size, bytes, is_ahead ? 0 : size};
    CALL(call, syscall(SYS_pwrite64, descriptor, bytes, size, at), syscall(SYS_pwrite64, descriptor, bytes, one_of(size), at), (long)size);
}

ssize_t pwrite(int descriptor, const void *bytes, size_t size, off_t at) { return write_at(descriptor, bytes, size, at); }

ssize_t pwrite64(int descriptor, const void *bytes, size_t size, off64_t at) { return write_at(descriptor, bytes, size, at); }

/* ---- sockets */

static int port_of(const struct sockaddr *address) {
    return address && address->sa_family == AF_INET ? ntohs(((const struct sockaddr_in *)address)->sin_port) : 0;
}

int socket(int domain, int type, int protocol) {
    struct call call = {"socket", -1, type, 0, NULL, 0};
    CALL(call, NEXT(socket)(domain, type, protocol), NEXT(socket)(domain, type, protocol), -1);
}

int bind(int descriptor, const struct sockaddr *address, socklen_t length) {
    struct call call = {"bind", descriptor, port_of(address), 0, NULL, 0};
    CALL(call, NEXT(bind)(descriptor, address, length), NEXT(bind)(descriptor, address, length), 0);
}

int setsockopt(int descriptor, int level, int option, const void *value, socklen_t length) {
    struct call call = {"setsockopt", descriptor, option, (long)length, NULL, 0};
    CALL(call, NEXT(setsockopt)(descriptor, level, option, value, length), NEXT(setsockopt)(descriptor, level, option, value, length), 0);
}

int ioctl(int descriptor, unsigned long request, ...) {
    va_list rest;
    va_start(rest, request);
    void *argument = va_arg(rest, void *);
    va_end(rest);
    struct call call = {"ioctl", descriptor, (long)request, 0, NULL, 0};
    CALL(call, syscall(SYS_ioctl, descriptor, request, argument), syscall(SYS_ioctl, descriptor, request, argument), 0);
}

int poll(struct pollfd *requests, nfds_t count, int timeout) {
    struct call call = {"poll", -1, timeout, (long)count, NULL, 0};
    CALL(call, NEXT(poll)(requests, count, timeout), NEXT(poll)(requests, count, timeout), 0);
}

ssize_t recvfrom(int descriptor, void *into, size_t size, int flags, struct sockaddr *from, socklen_t *length) {
    struct call call = {"recvfrom", descriptor, flags, (long)size, NULL, 0};
    CALL(call, NEXT(recvfrom)(descriptor, into, size, flags, from, length), NEXT(recvfrom)(descriptor, into, one_of(size), flags, from, length), 0);
}

ssize_t sendto(int descriptor, const void *bytes, size_t size, int flags, const struct sockaddr *to, socklen_t length) {
    struct call call = {"sendto", descriptor, port_of(to), (long)size, bytes, size};
    CALL(call, NEXT(sendto)(descriptor, bytes, size, flags, to, length), NEXT(sendto)(descriptor, bytes, one_of(size), flags, to, length), (long)size);
}

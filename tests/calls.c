/* Preloaded into the program: what it asks of files and folders is noted in the file LOG, a line for each call, "BEGUN ENDED CALL NAME HOW", in
   milliseconds since it began, NAME without its folder; HOW is the mode that is asked for, or how many bytes were written. So are the seconds
   after which a read or a write of a socket is to fail ("limit receive 600"), and a connection that couldn't be accepted ("refused").

   RULES, in words "CALL:PATTERN:WHAT", say which calls don't go as they should, while the file WHILE is there: they fail (fails), the first
   one does (once), or they wait until it is gone (waits). While the file BACK is there, the clock of the day is so many seconds back as it has
   bytes; where FAST is set, the clock of the program's own goes a thousand times as fast. */
#define _GNU_SOURCE
#include <dlfcn.h>
#include <errno.h>
#include <fcntl.h>
#include <fnmatch.h>
#include <stdarg.h>
#include <stdio.h>
#include <stdlib.h>
#include <string.h>
#include <sys/socket.h>
#include <sys/stat.h>
#include <sys/time.h>
#include <time.h>
#include <unistd.h>

#define REAL(name) ((__typeof__(name) *)dlsym(RTLD_NEXT, #name))

static long long start;
static int log_file = -1;
static int is_fast;
static const char *rules, *while_name, *back_name;

static long long now(void) {
    struct timespec at;
    REAL(clock_gettime)(CLOCK_MONOTONIC, &at);
    return at.tv_sec * 1000LL + at.tv_nsec / 1000000;
}

__attribute__((constructor)) static void begin(void) {
    start = now();
    const char *log_name = getenv("LOG");
    if (log_name) log_file = REAL(open)(log_name, O_WRONLY | O_APPEND | O_CREAT | O_CLOEXEC, 0600);
    is_fast = getenv("FAST") != NULL;
    rules = getenv("RULES"), while_name = getenv("WHILE"), back_name = getenv("BACK");
}

static const char *last(const char *name) {
    const char *slash = strrchr(name, '/');
    return slash ? slash + 1 : name;
}

/* The name of an open file or folder; of a pipe or a socket, nothing. */
static const char *name_of(int file, char *room) {
    char link[64];
    struct stat is;
    snprintf(link, sizeof link, "/proc/self/fd/%d", file);
    ssize_t length = readlink(link, room, 4095);
    if (length < 0 || fstat(file, &is) != 0 || !(S_ISREG(is.st_mode) || S_ISDIR(is.st_mode))) return NULL;
    room[length] = 0;
    return last(room);
}

static int is_there(const char *name) {
    struct stat is;
    return name && stat(name, &is) == 0;
}

/* Whether a rule lets the call fail. One that has it wait does so here. */
static int fails(const char *call, const char *name) {
    static int was_once;
    char words[4096], *word, *rest = words;
    if (!rules || !is_there(while_name)) return 0;
    snprintf(words, sizeof words, "%s", rules);
    while ((word = strsep(&rest, " "))) {
        char *pattern = strchr(word, ':'), *what = pattern ? strchr(pattern + 1, ':') : NULL;
        if (!what) continue;
        *pattern++ = 0, *what++ = 0;
        if (strcmp(word, call) != 0 || fnmatch(pattern, name, 0) != 0) continue;
        if (strcmp(what, "waits") == 0) {
            while (is_there(while_name)) usleep(5000);
            return 0;
        }
        return strcmp(what, "once") != 0 || !__atomic_exchange_n(&was_once, 1, __ATOMIC_SEQ_CST);
    }
    return 0;
}

static void note(long long begun, const char *call, const char *name, long how) {
    char line[4400];
    if (log_file < 0) return;
    int length = snprintf(line, sizeof line, "%lld %lld %s %s %ld\n", begun - start, now() - start, call, name, how);
    if (REAL(write)(log_file, line, length) != length) abort();
}

/* Makes a call of this name on the file of that name, unless a rule lets it fail, and notes it. */
#define MAKE(type, call, name, how, made) \
    const char *its = (name); \
    if (!its) return made; \
    long long begun = now(); \
    if (fails(call, its)) { errno = EIO; return -1; } \
    type done = made; \
    int error = errno; \
    note(begun, call, its, how); \
    errno = error; \
    return done

ssize_t write(int file, const void *bytes, size_t count) {
    char room[4096];
    MAKE(ssize_t, "write", name_of(file, room), (long)count, REAL(write)(file, bytes, count));
}
int fsync(int file) { char room[4096]; MAKE(int, "sync", name_of(file, room), 0, REAL(fsync)(file)); }
int fdatasync(int file) { char room[4096]; MAKE(int, "sync", name_of(file, room), 0, REAL(fdatasync)(file)); }
int ftruncate(int file, off_t length) { char room[4096]; MAKE(int, "cut", name_of(file, room), (long)length, REAL(ftruncate)(file, length)); }
int rename(const char *from, const char *to) { MAKE(int, "rename", last(to), 0, REAL(rename)(from, to)); }
int unlink(const char *name) { MAKE(int, "unlink", last(name), 0, REAL(unlink)(name)); }
int mkdir(const char *name, mode_t mode) { MAKE(int, "mkdir", last(name), (long)mode, REAL(mkdir)(name, mode)); }
int open(const char *name, int flags, ...) {
    mode_t mode = 0;
    if (flags & O_CREAT) {
        va_list rest;
        va_start(rest, flags);
        mode = va_arg(rest, mode_t);
        va_end(rest);
    }
    MAKE(int, "open", flags & O_CREAT ? last(name) : NULL, (long)mode, REAL(open)(name, flags, mode));
}
int setsockopt(int file, int level, int name, const void *value, socklen_t length) {
    long long begun = now();
    if (level == SOL_SOCKET && (name == SO_RCVTIMEO || name == SO_SNDTIMEO))
        note(begun, "limit", name == SO_RCVTIMEO ? "receive" : "send", (long)((const struct timeval *)value)->tv_sec);
    return REAL(setsockopt)(file, level, name, value, length);
}
int accept4(int file, struct sockaddr *from, socklen_t *length, int flags) {
    long long begun = now();
    int done = REAL(accept4)(file, from, length, flags), error = errno;
    if (done < 0) note(begun, "refused", "-", error);
    errno = error;
    return done;
}
int clock_gettime(clockid_t clock, struct timespec *at) {
    struct stat is;
    int done = REAL(clock_gettime)(clock, at);
    if (done == 0 && clock == CLOCK_REALTIME && back_name && stat(back_name, &is) == 0) at->tv_sec -= is.st_size;
    if (is_fast && clock == CLOCK_MONOTONIC) {
        long long passed = (now() - start) * 1000 + at->tv_nsec / 1000 % 1000;
        at->tv_sec = start / 1000 + passed / 1000, at->tv_nsec = passed % 1000 * 1000000;
    }
    return done;
}

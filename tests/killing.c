/* Preloaded into the program: the call of the number KILL_AT that changes a file or a folder ends the process, as kill -9 does: before it is
   made (HOW=before), in the middle of it (half), where half of the bytes are written, or behind it (behind); or it fails (fails); or a write
   takes half of the bytes, and says so (short). A file KILLED is made where there was a call of that number. With HOW=unable no folder can be
   synced, and KILLED has the paths of those that were to be. */
#define _GNU_SOURCE
#include <dlfcn.h>
#include <errno.h>
#include <fcntl.h>
#include <signal.h>
#include <stdio.h>
#include <stdarg.h>
#include <stdlib.h>
#include <string.h>
#include <sys/stat.h>
#include <unistd.h>

static long left = -1;
static const char *how;
#define REAL(name) ((__typeof__(name) *)dlsym(RTLD_NEXT, #name))

/* Whether this is the call. */
static int meets(void) {
    if (left < 0) {
        const char *at = getenv("KILL_AT");
        left = at ? atol(at) : 0;
        how = getenv("HOW");
    }
    if (left == 0 || --left > 0) return 0;
    int made = REAL(open)(getenv("KILLED"), O_WRONLY | O_CREAT, 0600);
    if (made >= 0) close(made);
    if (strcmp(how, "before") == 0) kill(getpid(), SIGKILL);
    return 1;
}

/* What comes behind the call. */
static void behind(int met) {
    if (met && strcmp(how, "short") != 0) kill(getpid(), SIGKILL);
}

#define FAILS(met) if ((met) && strcmp(how, "fails") == 0) { errno = EIO; return -1; }

/* Only files count: what is written to a pipe or a terminal changes nothing. */
static int is_file(int file) {
    struct stat is;
    return fstat(file, &is) == 0 && (S_ISREG(is.st_mode) || S_ISDIR(is.st_mode));
}
ssize_t write(int file, const void *bytes, size_t count) {
    int met = is_file(file) && meets();
    FAILS(met)
    if (met && (strcmp(how, "half") == 0 || strcmp(how, "short") == 0)) count = (count + 1) / 2;
    ssize_t done = REAL(write)(file, bytes, count);
    behind(met);
    return done;
}
/* Whether no folder can be synced, and this is one, which is noted. */
static int is_unable(int file) {
    struct stat is;
    char link[64], path[4096];
    const char *unable = getenv("HOW");
    if (!unable || strcmp(unable, "unable") != 0 || fstat(file, &is) != 0 || !S_ISDIR(is.st_mode)) return 0;
    snprintf(link, sizeof link, "/proc/self/fd/%d", file);
    ssize_t length = readlink(link, path, sizeof path - 1);
    int made = REAL(open)(getenv("KILLED"), O_WRONLY | O_CREAT | O_APPEND, 0600);
    if (length >= 0 && made >= 0) {
        path[length++] = '\n';
        if (REAL(write)(made, path, length) != length) abort();
    }
    if (made >= 0) close(made);
    errno = EINVAL;
    return 1;
}
int fsync(int file) {
    if (is_unable(file)) return -1;
    int met = meets();
    FAILS(met)
    int done = REAL(fsync)(file);
    behind(met);
    return done;
}
int fdatasync(int file) { int met = meets(); FAILS(met) int done = REAL(fdatasync)(file); behind(met); return done; }
int ftruncate(int file, off_t length) { int met = meets(); FAILS(met) int done = REAL(ftruncate)(file, length); behind(met); return done; }
int rename(const char *from, const char *to) { int met = meets(); FAILS(met) int done = REAL(rename)(from, to); behind(met); return done; }
int unlink(const char *name) { int met = meets(); FAILS(met) int done = REAL(unlink)(name); behind(met); return done; }
int mkdir(const char *name, mode_t mode) { int met = meets(); FAILS(met) int done = REAL(mkdir)(name, mode); behind(met); return done; }
int open(const char *name, int flags, ...) {
    mode_t mode = 0;
    if (flags & O_CREAT) {
        va_list rest;
        va_start(rest, flags);
        mode = va_arg(rest, mode_t);
        va_end(rest);
    }
    int met = (flags & O_CREAT) && meets();
    FAILS(met)
    int done = REAL(open)(name, flags, mode);
    behind(met);
    return done;
}

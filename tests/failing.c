/* Preloaded into the program: what its caller asks for fails here. The file CONTROL is a page that both share, so that a test can let the
   next requests fail and see whether one did. All counts are atomic, whichever thread asks. */
#define _GNU_SOURCE
#include <dlfcn.h>
#include <errno.h>
#include <fcntl.h>
#include <stdatomic.h>
#include <stdlib.h>
#include <string.h>
#include <sys/mman.h>
#include <sys/socket.h>
#include <sys/types.h>
#include <unistd.h>

struct control {
    atomic_long memory;       /* the request for memory of this number, counted down, gets none; 0: none fails */
    atomic_long memory_stays; /* and those behind it get none either */
    atomic_long memory_failed;
    atomic_long calls;        /* the call of this number, counted down, fails */
    atomic_long calls_stay;
    atomic_long calls_failed;
    atomic_long which;        /* which calls count: 1 reads, 2 writes, 4 of files' names and disks; 8: only of sockets, 16: only of others */
    atomic_long how;          /* the error; or 0: one byte is passed on, and no more */
    atomic_long least, most;  /* the descriptors that count */
};
static struct control none, *shared = &none;

extern void *__libc_malloc(size_t), *__libc_realloc(void *, size_t);
static ssize_t (*real_read)(int, void *, size_t), (*real_write)(int, const void *, size_t);
static ssize_t (*real_recv)(int, void *, size_t, int), (*real_send)(int, const void *, size_t, int);
static int (*real_fsync)(int), (*real_rename)(const char *, const char *), (*real_open)(const char *, int, ...);

__attribute__((constructor)) static void begin(void) {
    const char *name = getenv("CONTROL");
    *(void **)&real_read = dlsym(RTLD_NEXT, "read");
    *(void **)&real_write = dlsym(RTLD_NEXT, "write");
    *(void **)&real_recv = dlsym(RTLD_NEXT, "recv");
    *(void **)&real_send = dlsym(RTLD_NEXT, "send");
    *(void **)&real_fsync = dlsym(RTLD_NEXT, "fsync");
    *(void **)&real_rename = dlsym(RTLD_NEXT, "rename");
    *(void **)&real_open = dlsym(RTLD_NEXT, "open");
    int file = name ? real_open(name, O_RDWR) : -1;
    if (file < 0) return;
    void *page = mmap(NULL, sizeof none, PROT_READ | PROT_WRITE, MAP_SHARED, file, 0);
    close(file);
    if (page != MAP_FAILED) shared = page;
}

/* Whether this one fails: of all that count down one alone meets 1. */
static int fails(atomic_long *left, atomic_long *stays, atomic_long *failed) {
    long now = atomic_load(left);
    do {
        if (now == 0) return 0;
        if (now < 0 || now == 1) break;
    } while (!atomic_compare_exchange_weak(left, &now, now - 1));
    if (now > 1) return 0;
    if (now == 1 && !atomic_compare_exchange_strong(left, &now, atomic_load(stays) ? -1 : 0)) return now < 0;
    atomic_fetch_add(failed, 1);
    return 1;
}

static int memory_fails(void) { return fails(&shared->memory, &shared->memory_stays, &shared->memory_failed); }
void *malloc(size_t size) { return memory_fails() ? NULL : __libc_malloc(size); }
void *realloc(void *old, size_t size) { return memory_fails() ? NULL : __libc_realloc(old, size); }

static int call_fails(int kind, int of_socket, int file) {
    long which = atomic_load(&shared->which);
    if (!(which & kind) || (which & 8 && !of_socket) || (which & 16 && of_socket)) return 0;
    if (kind != 4 && (file < atomic_load(&shared->least) || file > atomic_load(&shared->most))) return 0;
    return fails(&shared->calls, &shared->calls_stay, &shared->calls_failed);
}

/* What fails gives -1; with no error it passes one byte on. */
#define PASS(kind, of_socket, file, size, through) \
    if (call_fails(kind, of_socket, file)) { \
        int how = (int)atomic_load(&shared->how); \
        if (how) { errno = how; return -1; } \
        if (size > 1) size = 1; \
    } \
    return through

ssize_t read(int file, void *to, size_t size) { PASS(1, 0, file, size, real_read(file, to, size)); }
ssize_t recv(int file, void *to, size_t size, int flags) { PASS(1, 1, file, size, real_recv(file, to, size, flags)); }
ssize_t write(int file, const void *from, size_t size) { PASS(2, 0, file, size, real_write(file, from, size)); }
ssize_t __write(int file, const void *from, size_t size) { PASS(2, 0, file, size, real_write(file, from, size)); }
ssize_t send(int file, const void *from, size_t size, int flags) { PASS(2, 1, file, size, real_send(file, from, size, flags)); }
int fsync(int file) {
    if (call_fails(4, 0, file)) { errno = EIO; return -1; }
    return real_fsync(file);
}
int rename(const char *from, const char *to) {
    if (call_fails(4, 0, 0)) { errno = EIO; return -1; }
    return real_rename(from, to);
}
int open(const char *name, int flags, ...) {
    __builtin_va_list more;
    __builtin_va_start(more, flags);
    int mode = flags & (O_CREAT | O_TMPFILE) ? __builtin_va_arg(more, int) : 0;
    __builtin_va_end(more);
    /* nothing comes of what is opened in closed streams' places */
    if (strcmp(name, "/dev/null") && call_fails(4, 0, 0)) { errno = EIO; return -1; }
    return real_open(name, flags, mode);
}

/* Preloaded into the program: each call that changes the folder FOLDER, has the disk hold a file or the folder, or tells something to a
   client, is a line of the file LOG, in the one order in which the calls are made:

     O INODE NEW NAME          a file is opened to be made or changed; NEW is 1 where it was made, 2 where it was cut to nothing
     W INODE PLACE BYTES       bytes, as hex digits, are written
     T INODE LENGTH            a file is cut, or made longer
     S INODE                   a file is on the disk, whole
     D NAME                    a folder is on the disk: its names are
     M NAME, U NAME            a folder is made, a name is taken away
     R NAME NAME               a name is given in the place of another
     A DESCRIPTOR BYTES        bytes go to a client; the line stands before the call, all others behind theirs

   Where LOG is unset no sync asks the disk for anything, so that a test that only looks goes faster. */
#define _GNU_SOURCE
#include <dlfcn.h>
#include <fcntl.h>
#include <pthread.h>
#include <stdarg.h>
#include <stdio.h>
#include <stdlib.h>
#include <string.h>
#include <sys/socket.h>
#include <sys/stat.h>
#include <unistd.h>

#define REAL(name) ((__typeof__(name) *)dlsym(RTLD_NEXT, #name))
#define FILES 1024

static pthread_mutex_t one = PTHREAD_MUTEX_INITIALIZER;
static int file_log = -1;
static const char *folder;
/* the names of open files and folders that count */
static char *names[FILES];

__attribute__((constructor)) static void begin(void) {
    const char *name = getenv("LOG");
    folder = getenv("FOLDER");
    if (name) file_log = REAL(open)(name, O_WRONLY | O_APPEND | O_CREAT | O_CLOEXEC, 0600);
}

/* Whether a name is that of the folder, or of a file in it. */
static int counts(const char *name) {
    size_t length = folder ? strlen(folder) : 0;
    return length && strncmp(name, folder, length) == 0 && (name[length] == 0 || name[length] == '/');
}

static void tell(const char *line) {
    size_t length = strlen(line);
    if (REAL(write)(file_log, line, length) != (ssize_t)length) abort();
}

/* A line with bytes at its end. */
static void tell_bytes(const char *front, const void *bytes, size_t count) {
    char *line = malloc(strlen(front) + 2 * count + 2), *end = line + sprintf(line, "%s", front);
    for (size_t at = 0; at < count; at++) end += sprintf(end, "%02x", ((const unsigned char *)bytes)[at]);
    sprintf(end, "\n");
    tell(line);
    free(line);
}

static unsigned long inode(int file) {
    struct stat is;
    return fstat(file, &is) == 0 ? is.st_ino : 0;
}

/* Whether the name of an open file counts. */
static const char *name_of(int file) { return file_log >= 0 && file >= 0 && file < FILES ? names[file] : NULL; }

int open(const char *name, int flags, ...) {
    mode_t mode = 0;
    if (flags & O_CREAT) {
        va_list rest;
        va_start(rest, flags);
        mode = va_arg(rest, mode_t);
        va_end(rest);
    }
    if (file_log < 0) return REAL(open)(name, flags, mode);
    pthread_mutex_lock(&one);
    struct stat is;
    int there = stat(name, &is) == 0, full = there && is.st_size > 0;
    int file = REAL(open)(name, flags, mode);
    if (file >= 0 && file < FILES && (counts(name) || strcmp(name, ".") == 0)) {
        names[file] = strdup(name);
        char line[500];
        snprintf(line, sizeof line, "O %lu %d %s\n", inode(file), !there ? 1 : flags & O_TRUNC && full ? 2 : 0, name);
        if (flags & (O_CREAT | O_TRUNC | O_WRONLY | O_RDWR)) tell(line);
    }
    pthread_mutex_unlock(&one);
    return file;
}

int close(int file) {
    pthread_mutex_lock(&one);
    if (file >= 0 && file < FILES && names[file]) {
        free(names[file]);
        names[file] = NULL;
    }
    int done = REAL(close)(file);
    pthread_mutex_unlock(&one);
    return done;
}

static int is_file(int file) {
    struct stat is;
    return fstat(file, &is) == 0 && S_ISREG(is.st_mode);
}

static ssize_t written(int file, const void *bytes, size_t count, int is_client) {
    char front[100];
    pthread_mutex_lock(&one);
    if (file_log >= 0 && is_client) {
        snprintf(front, sizeof front, "A %d ", file);
        tell_bytes(front, bytes, count);
    }
    ssize_t done = REAL(write)(file, bytes, count);
    if (done > 0 && name_of(file)) {
        snprintf(front, sizeof front, "W %lu %ld ", inode(file), (long)(lseek(file, 0, SEEK_CUR) - done));
        tell_bytes(front, bytes, done);
    }
    pthread_mutex_unlock(&one);
    return done;
}
ssize_t write(int file, const void *bytes, size_t count) { return written(file, bytes, count, file == 1); }
ssize_t __write(int file, const void *bytes, size_t count) { return written(file, bytes, count, file == 1); }
ssize_t send(int file, const void *bytes, size_t count, int flags) {
    char front[100];
    pthread_mutex_lock(&one);
    if (file_log >= 0) {
        snprintf(front, sizeof front, "A %d ", file);
        tell_bytes(front, bytes, count);
    }
    ssize_t done = REAL(send)(file, bytes, count, flags);
    pthread_mutex_unlock(&one);
    return done;
}

static int synced(int file, int (*sync)(int)) {
    if (file_log < 0) return 0;
    pthread_mutex_lock(&one);
    int done = sync(file);
    const char *name = name_of(file);
    if (done == 0 && name) {
        char line[500];
        if (is_file(file)) snprintf(line, sizeof line, "S %lu\n", inode(file));
        else snprintf(line, sizeof line, "D %s\n", name);
        tell(line);
    }
    pthread_mutex_unlock(&one);
    return done;
}
int fsync(int file) { return synced(file, REAL(fsync)); }
int fdatasync(int file) { return synced(file, REAL(fdatasync)); }

int ftruncate(int file, off_t length) {
    pthread_mutex_lock(&one);
    int done = REAL(ftruncate)(file, length);
    if (done == 0 && name_of(file)) {
        char line[100];
        snprintf(line, sizeof line, "T %lu %ld\n", inode(file), (long)length);
        tell(line);
    }
    pthread_mutex_unlock(&one);
    return done;
}

/* A call that changes names, if it is done. */
#define NAMED(name, call, ...) \
    pthread_mutex_lock(&one); \
    int done = call; \
    if (done == 0 && file_log >= 0 && counts(name)) { \
        char line[1000]; \
        snprintf(line, sizeof line, __VA_ARGS__); \
        tell(line); \
    } \
    pthread_mutex_unlock(&one); \
    return done;
int rename(const char *from, const char *to) { NAMED(from, REAL(rename)(from, to), "R %s %s\n", from, to) }
int unlink(const char *name) { NAMED(name, REAL(unlink)(name), "U %s\n", name) }
int mkdir(const char *name, mode_t mode) { NAMED(name, REAL(mkdir)(name, mode), "M %s\n", name) }

/* Preloaded into the program: a disk that is slow, or has no room. The file DISK has two numbers and a word: by how many seconds an fsync takes longer,
   by how many an fdatasync, and a part of the names of files that can't be written since there is no room; where it isn't there, nothing is hindered.
   Each fdatasync is noted in the file NOTED by a line with a 0, each write of a mebibyte or more by one with its length. */
#define _GNU_SOURCE
#include <dlfcn.h>
#include <errno.h>
#include <fcntl.h>
#include <stdio.h>
#include <stdlib.h>
#include <string.h>
#include <unistd.h>

#define REAL(name) ((__typeof__(name) *)dlsym(RTLD_NEXT, #name))

struct disk {
    double fsync, fdatasync;
    char full[64];
};

static struct disk now(void) {
    struct disk is = {0, 0, ""};
    FILE *file = fopen(getenv("DISK"), "r");
    if (!file) return is;
    if (fscanf(file, "%lf %lf %63s", &is.fsync, &is.fdatasync, is.full) < 3) is.full[0] = 0;
    fclose(file);
    return is;
}

static void note(size_t length) {
    char line[32];
    int made = REAL(open)(getenv("NOTED"), O_WRONLY | O_CREAT | O_APPEND, 0600);
    if (made < 0) return;
    ssize_t written = REAL(write)(made, line, snprintf(line, sizeof line, "%zu\n", length));
    (void)written;
    close(made);
}

/* Whether there is no room for this file. */
static int is_full(int file) {
    char link[64], name[4096];
    struct disk is = now();
    if (!is.full[0]) return 0;
    snprintf(link, sizeof link, "/proc/self/fd/%d", file);
    ssize_t length = readlink(link, name, sizeof name - 1);
    if (length < 0) return 0;
    name[length] = 0;
    return strstr(name, is.full) != NULL;
}

int fsync(int file) {
    usleep(now().fsync * 1e6);
    return REAL(fsync)(file);
}
int fdatasync(int file) {
    note(0);
    usleep(now().fdatasync * 1e6);
    return REAL(fdatasync)(file);
}
ssize_t write(int file, const void *bytes, size_t count) {
    if (count >= 1 << 20) note(count);
    if (is_full(file)) {
        errno = ENOSPC;
        return -1;
    }
    return REAL(write)(file, bytes, count);
}

/* Stands before the C library's own calls: the call with the number AT of those that FAILS names fails. On standard error
   it says so. Where FAILS says that a file grows or shrinks, the file FILE becomes longer or shorter in front of the read with
   that number, and all bytes that reads hand out of it are put to the file LOG. The program takes memory by malloc and realloc
   alone. Built and used by failures.py. */
#define _GNU_SOURCE
#include <dlfcn.h>
#include <errno.h>
#include <fcntl.h>
#include <stdatomic.h>
#include <stdlib.h>
#include <string.h>
#include <sys/stat.h>
#include <unistd.h>

static atomic_long calls;
static int fails_which = -1;
static long fails_at;

enum { MEMORY = 1, READS = 2, WRITES = 3, GROWS = 4, SHRINKS = 5 };
static const char *const NAMES[] = {"", "memory", "reads", "writes", "grows", "shrinks"};

/* Writes bytes past the call below. */
static void put(int file, const void *bytes, size_t size) {
    ssize_t (*next)(int, const void *, size_t) = dlsym(RTLD_NEXT, "write");
    ssize_t written = next(file, bytes, size);
    (void)written;
}

/* Says something on standard error, where the program itself says nothing. */
static void tell(const char *said) {
    put(2, said, strlen(said));
}

/* Whether this call is the one that fails. */
static int fails(int which) {
    if (fails_which < 0) {
        const char *name = getenv("FAILS"), *at = getenv("AT");
        fails_at = at ? atol(at) : 0;
        fails_which = 0;
        for (int which = MEMORY; name && which <= SHRINKS; which++)
            if (!strcmp(name, NAMES[which])) fails_which = which;
    }
    if (which != fails_which || ++calls != fails_at) return 0;
    tell("failed\n");
    return 1;
}

void *malloc(size_t size) {
    static void *(*next)(size_t);
    if (!next) next = dlsym(RTLD_NEXT, "malloc");
    return fails(MEMORY) ? NULL : next(size);
}

void *realloc(void *old, size_t size) {
    static void *(*next)(void *, size_t);
    if (!next) next = dlsym(RTLD_NEXT, "realloc");
    return fails(MEMORY) ? NULL : next(old, size);
}

/* Makes the file FILE longer by what the variable MORE holds, or leaves it the half of its bytes. */
static void change(int which) {
    int file = open(getenv("FILE"), O_WRONLY | O_APPEND);
    struct stat found;
    if (file < 0 || fstat(file, &found)) abort();
    if (which == GROWS) put(file, getenv("MORE"), strlen(getenv("MORE")));
    else if (ftruncate(file, found.st_size / 2)) abort();
    close(file);
}

/* Puts bytes that were read to the file LOG, where they are of the file FILE. */
static void keep(int file, const void *bytes, size_t size) {
    struct stat read, watched;
    if (fstat(file, &read) || stat(getenv("FILE"), &watched) || read.st_ino != watched.st_ino) return;
    int log = open(getenv("LOG"), O_WRONLY | O_APPEND);
    if (log < 0) abort();
    put(log, bytes, size);
    close(log);
}

ssize_t read(int file, void *room, size_t size) {
    static ssize_t (*next)(int, void *, size_t);
    if (!next) next = dlsym(RTLD_NEXT, "read");
    if (fails(READS)) {
        errno = EIO;
        return -1;
    }
    if (fails(GROWS)) change(GROWS);
    if (fails(SHRINKS)) change(SHRINKS);
    ssize_t count = next(file, room, size);
    if (fails_which >= GROWS && count > 0) keep(file, room, (size_t)count);
    return count;
}

ssize_t write(int file, const void *bytes, size_t size) {
    static ssize_t (*next)(int, const void *, size_t);
    if (!next) next = dlsym(RTLD_NEXT, "write");
    if (file == 1 && fails(WRITES)) {
        errno = ENOSPC;
        return -1;
    }
    return next(file, bytes, size);
}

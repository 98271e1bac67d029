// Refuses the allocation whose number is in the variable REFUSED_ALLOCATION. The first allocation
// has number 1. If the variable ALLOCATIONS_COUNTED names a file, a program that exits normally
// writes its number of allocations to this file. If the variable CALLS_TOLD names a file, each call
// of fdatasync, fsync or send adds a line to this file. The line has `sync` or `send`, and the
// number of allocations so far. LD_PRELOAD must load this library before the C library.
#define _GNU_SOURCE
#include <dlfcn.h>
#include <errno.h>
#include <fcntl.h>
#include <stdio.h>
#include <stdlib.h>
#include <sys/socket.h>
#include <unistd.h>

// Declares `next`, a pointer to the C library's function with this name.
#define NEXT(name) \
    static __typeof__(name) *next; \
    if (!next) next = dlsym(RTLD_NEXT, #name)

static long seen;

static int refuses(void) {
    static long refused = -1;
    if (refused < 0) {
        const char *number = getenv("REFUSED_ALLOCATION");
        refused = number ? atol(number) : 0;
    }
    seen++;
    if (seen != refused) return 0;
    errno = ENOMEM;
    return 1;
}

void *malloc(size_t size) {
    NEXT(malloc);
    return refuses() ? NULL : next(size);
}

void *realloc(void *old, size_t size) {
    NEXT(realloc);
    return refuses() ? NULL : next(old, size);
}

// Writes a word and the number of allocations so far to the file that a variable names. Allocates
// nothing.
static void tell(const char *variable, int how, const char *word) {
    const char *path = getenv(variable);
    if (!path) return;
    char text[40];
    int length = snprintf(text, sizeof text, "%s%ld\n", word, seen);
    int file = open(path, O_CREAT | O_WRONLY | how, 0600);
    if (write(file, text, length) != length) abort();
    close(file);
}

int fdatasync(int file) {
    NEXT(fdatasync);
    int done = next(file);
    tell("CALLS_TOLD", O_APPEND, "sync ");
    return done;
}

int fsync(int file) {
    NEXT(fsync);
    int done = next(file);
    tell("CALLS_TOLD", O_APPEND, "sync ");
    return done;
}

ssize_t send(int socket, const void *bytes, size_t length, int flags) {
    NEXT(send);
    tell("CALLS_TOLD", O_APPEND, "send ");
    return next(socket, bytes, length, flags);
}

__attribute__((destructor)) static void count(void) { tell("ALLOCATIONS_COUNTED", O_TRUNC, ""); }

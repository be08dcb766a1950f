/* Preloaded before a program: its standard input gives at most $READ_BYTES bytes a call, and fails
   at call number $READ_FAILS, from 1. Its standard output accepts $WRITE_TAKES bytes in all; after
   that a call fails, or accepts nothing where $WRITE_ENDS is `nothing`. What is not set changes
   nothing. */
#define _GNU_SOURCE
#include <dlfcn.h>
#include <errno.h>
#include <stdlib.h>
#include <string.h>
#include <unistd.h>

/* The number that the environment gives, or -1. */
static long given(const char *name) {
    const char *value = getenv(name);
    return value ? atol(value) : -1;
}

ssize_t read(int file, void *place, size_t count) {
    static ssize_t (*next)(int, void *, size_t);
    static long calls;
    if (!next)
        next = (ssize_t (*)(int, void *, size_t))dlsym(RTLD_NEXT, "read");
    if (file != 0)
        return next(file, place, count);
    if (++calls == given("READ_FAILS")) {
        errno = EIO;
        return -1;
    }
    long most = given("READ_BYTES");
    return next(file, place, most > 0 && (size_t)most < count ? (size_t)most : count);
}

ssize_t write(int file, const void *bytes, size_t count) {
    static ssize_t (*next)(int, const void *, size_t);
    static long taken;
    if (!next)
        next = (ssize_t (*)(int, const void *, size_t))dlsym(RTLD_NEXT, "write");
    long room = given("WRITE_TAKES");
    if (file != 1 || room < 0)
        return next(file, bytes, count);
    if (taken == room && count > 0) {
        const char *ends = getenv("WRITE_ENDS");
        errno = EIO;
        return ends && strcmp(ends, "nothing") == 0 ? 0 : -1;
    }
    long left = room - taken;
    ssize_t done = next(file, bytes, (size_t)left < count ? (size_t)left : count);
    if (done > 0)
        taken += done;
    return done;
}

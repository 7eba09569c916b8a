/* A library to preload (`tests/reads.rs`): the first read of the descriptor FAIL_FD after FAIL_AFTER octets of
   it fails with FAIL_ERRNO, and so does every further one, but if FAIL_ONCE is 1. Other descriptors are read
   as they are. */
#define _GNU_SOURCE
#include <dlfcn.h>
#include <errno.h>
#include <stdlib.h>
#include <unistd.h>

static long number(const char *name)
{
    const char *text = getenv(name);
    return text ? atol(text) : -1;
}

ssize_t read(int fd, void *octets, size_t count)
{
    static ssize_t (*real)(int, void *, size_t);
    static long given, failed;
    if (!real)
        real = (ssize_t(*)(int, void *, size_t))dlsym(RTLD_NEXT, "read");
    if (fd != number("FAIL_FD") || count == 0 || (failed && number("FAIL_ONCE") == 1))
        return real(fd, octets, count);
    long left = number("FAIL_AFTER") - given;
    if (left <= 0) {
        failed = 1;
        errno = (int)number("FAIL_ERRNO");
        return -1;
    }
    ssize_t got = real(fd, octets, count < (size_t)left ? count : (size_t)left);
    given += got > 0 ? got : 0;
    return got;
}

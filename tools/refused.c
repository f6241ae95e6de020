/* Put before the C library of a program (LD_PRELOAD), this lets one call fail: the one with the number that the variable
   REFUSED gives, as `memory 3`, `read 1` or `write 2`, counted from 1. `short 2` has the second read or write of several
   bytes move one. Where the call came, a byte goes to descriptor 9. Under `count` none fails, and a byte goes there for each
   request for memory. */
#define _GNU_SOURCE
#include <dlfcn.h>
#include <errno.h>
#include <stdlib.h>
#include <string.h>
#include <unistd.h>

static long left(const char *kind)
{
    static const char *wanted;
    static long count;
    if (wanted == NULL) {
        wanted = getenv("REFUSED");
        if (wanted == NULL)
            wanted = "";
        const char *number = strchr(wanted, ' ');
        count = number == NULL ? -1 : atol(number);
    }
    if (strncmp(wanted, kind, strlen(kind)) != 0)
        return -1;
    if (count >= 0)
        count--;
    return count;
}

static ssize_t real_write(int fd, const void *bytes, size_t size)
{
    static ssize_t (*call)(int, const void *, size_t);
    if (call == NULL)
        call = dlsym(RTLD_NEXT, "write");
    return call(fd, bytes, size);
}

static int refused(const char *kind)
{
    const char *wanted = getenv("REFUSED");
    if (wanted != NULL && strcmp(wanted, "count") == 0) {
        if (strcmp(kind, "memory") == 0)
            real_write(9, "+", 1);
        return 0;
    }
    if (left(kind) != 0)
        return 0;
    real_write(9, "!", 1);
    return 1;
}

void *malloc(size_t size)
{
    static void *(*call)(size_t);
    if (call == NULL)
        call = dlsym(RTLD_NEXT, "malloc");
    return refused("memory") ? NULL : call(size);
}

void *realloc(void *old, size_t size)
{
    static void *(*call)(void *, size_t);
    if (call == NULL)
        call = dlsym(RTLD_NEXT, "realloc");
    return refused("memory") ? NULL : call(old, size);
}

ssize_t read(int fd, void *into, size_t size)
{
    static ssize_t (*call)(int, void *, size_t);
    if (call == NULL)
        call = dlsym(RTLD_NEXT, "read");
    if (refused("read")) {
        errno = EIO;
        return -1;
    }
    return call(fd, into, size > 1 && refused("short") ? 1 : size);
}

ssize_t write(int fd, const void *bytes, size_t size)
{
    if (refused("write")) {
        errno = EIO;
        return -1;
    }
    return real_write(fd, bytes, size > 1 && refused("short") ? 1 : size);
}

ssize_t __write(int fd, const void *bytes, size_t size)
{
    return write(fd, bytes, size);
}

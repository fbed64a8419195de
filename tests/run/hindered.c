/*
 * Loaded before the C library (LD_PRELOAD), for run_program.py: reads fail from the call on that FAIL_AT numbers, counted from 1, and
 * a write takes at most MOST_TAKEN bytes, where these are set.
 */
#define _DEFAULT_SOURCE
#include <errno.h>
#include <stdlib.h>
#include <sys/syscall.h>
#include <unistd.h>

static long setting(const char *name)
{
    const char *value = getenv(name);
    return value == NULL ? 0 : atol(value);
}

ssize_t read(int fd, void *buf, size_t count)
{
    static long calls;
    long from = setting("FAIL_AT");
    calls += 1;
    if (0 < from && from <= calls) {
        errno = EIO;
        return -1;
    }
    return (ssize_t)syscall(SYS_read, fd, buf, count);
}

ssize_t write(int fd, const void *buf, size_t count)
{
    size_t most = (size_t)setting("MOST_TAKEN");
    return (ssize_t)syscall(SYS_write, fd, buf, 0 < most && most < count ? most : count);
}

/*
 * Loaded before the C library (LD_PRELOAD) to make reads fail: READ_AT_MOST bounds the bytes of one read, and the read that FAILING_READ
 * counts to, from 1, fails with EIO. For programs.sh.
 */
#include <errno.h>
#include <stdlib.h>
#include <sys/syscall.h>
#include <unistd.h>

long syscall(long number, ...);
ssize_t read(int fd, void *buf, size_t len);

static long setting(const char *name)
{
    const char *text = getenv(name);
    return text == NULL ? 0 : strtol(text, NULL, 10);
}

ssize_t read(int fd, void *buf, size_t len)
{
    static long calls;
    calls++;
    if (calls == setting("FAILING_READ")) {
        errno = EIO;
        return -1;
    }
    const size_t most = (size_t)setting("READ_AT_MOST");
    return syscall(SYS_read, fd, buf, most != 0 && most < len ? most : len);
}

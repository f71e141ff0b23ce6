/* Loaded before the C library: of three calls of read or write a signal ends two before anything is done, and the third takes or
 * gives some bytes only. */
#define _GNU_SOURCE
#include <errno.h>
#include <sys/syscall.h>
#include <unistd.h>

static unsigned calls;

static ssize_t some(long number, int fd, void *bytes, size_t length)
{
    calls++;
    if (calls % 3 != 0) {
        errno = EINTR;
        return -1;
    }
    size_t most = 1 + calls * 7919 % 4000;
    return syscall(number, fd, bytes, length < most ? length : most);
}

ssize_t read(int fd, void *bytes, size_t length) { return some(SYS_read, fd, bytes, length); }
ssize_t write(int fd, const void *bytes, size_t length) { return some(SYS_write, fd, (void *)bytes, length); }

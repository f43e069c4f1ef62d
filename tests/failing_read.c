/* A read that fails, for tests/reads: preloaded, it stands before the C library's.
 * READ_ON      0: standard input; 3: the files that the program opens. Others are read as always.
 * READ_FAULT   behind so many bytes each read fails with EIO
 * READ_STEP    so many bytes at most are read at once
 * READ_SIGNAL  if set, a read that fails with EINTR comes before each */
#include <errno.h>
#include <limits.h>
#include <stdlib.h>
#include <sys/syscall.h>
#include <unistd.h>

static long number(const char *name, long otherwise)
{
    const char *text = getenv(name);
    return text ? atol(text) : otherwise;
}

ssize_t read(int fd, void *buffer, size_t size)
{
    static long given;
    static int interrupted;
    long fault = number("READ_FAULT", LONG_MAX), most = number("READ_STEP", LONG_MAX);
    ssize_t got;

    if ((fd == 0) != (number("READ_ON", 0) == 0))
        return syscall(SYS_read, fd, buffer, size);
    if (getenv("READ_SIGNAL") && (interrupted = !interrupted)) {
        errno = EINTR;
        return -1;
    }
    if (given >= fault) {
        errno = EIO;
        return -1;
    }
    if (most > fault - given)
        most = fault - given;
    if (size > (size_t)most)
        size = (size_t)most;
    got = syscall(SYS_read, fd, buffer, size);
    if (got > 0)
        given += got;
    return got;
}

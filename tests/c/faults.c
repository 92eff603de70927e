/* A `read` with faults, to be loaded before the C library's (LD_PRELOAD). FAULTS has a letter for each call, in order: i, a and e fail with EINTR, EAGAIN
   and EIO, and a digit lets at most so many bytes through. After the last letter reads go on as usual. */
#define _GNU_SOURCE /* for syscall */
#include <errno.h>
#include <stdlib.h>
#include <sys/syscall.h>
#include <unistd.h>

static const char *faults;

static ssize_t fails(int error)
{
    errno = error;
    return -1;
}

ssize_t read(int descriptor, void *buffer, size_t length)
{
    if (!faults && !(faults = getenv("FAULTS")))
        faults = "";
    switch (*faults) {
    case 0:
        break;
    case 'i':
        faults++;
        return fails(EINTR);
    case 'a':
        faults++;
        return fails(EAGAIN);
    case 'e':
        faults++;
        return fails(EIO);
    default:
        if (length > (size_t)(*faults - '0'))
            length = *faults - '0';
        faults++;
    }
    return syscall(SYS_read, descriptor, buffer, length);
}

/* Preloaded: a close that closes and reports a failure, as one may that finds the last bytes unwritten. The programs hear
 * of such bytes from fsync, which fails first. */
#define _GNU_SOURCE
#include <errno.h>
#include <sys/syscall.h>
#include <unistd.h>

int fsync(int fd)
{
    (void)fd;
    errno = EIO;
    return -1;
}

int close(int fd)
{
    syscall(SYS_close, fd);
    errno = EIO;
    return -1;
}

// Has each read and each write of a pipe or a socket be interrupted three times running before it is carried out.
//
// ../writes.py builds it as a library and loads it with LD_PRELOAD. At the first interruption it writes the line `interrupted` to standard error.
#define _GNU_SOURCE
#include <errno.h>
#include <stdatomic.h>
#include <sys/socket.h>
#include <sys/stat.h>
#include <sys/syscall.h>
#include <sys/uio.h>
#include <unistd.h>

enum { TIMES = 3 };

static atomic_int told;

static int is_interrupted(int file)
{
    static _Thread_local int times;
    struct stat kind;
    if (file == STDERR_FILENO || fstat(file, &kind) != 0 || !(S_ISFIFO(kind.st_mode) || S_ISSOCK(kind.st_mode)))
        return 0;
    if (times++ == TIMES) {
        times = 0;
        return 0;
    }
    if (atomic_exchange(&told, 1) == 0)
        syscall(SYS_write, STDERR_FILENO, "interrupted\n", 12);
    errno = EINTR;
    return 1;
}

ssize_t read(int file, void *bytes, size_t length)
{
    return is_interrupted(file) ? -1 : syscall(SYS_read, file, bytes, length);
}

ssize_t write(int file, const void *bytes, size_t length)
{
    return is_interrupted(file) ? -1 : syscall(SYS_write, file, bytes, length);
}

ssize_t writev(int file, const struct iovec *parts, int count)
{
    return is_interrupted(file) ? -1 : syscall(SYS_writev, file, parts, count);
}

ssize_t recv(int file, void *bytes, size_t length, int flags)
{
    return is_interrupted(file) ? -1 : syscall(SYS_recvfrom, file, bytes, length, flags, NULL, NULL);
}

ssize_t send(int file, const void *bytes, size_t length, int flags)
{
    return is_interrupted(file) ? -1 : syscall(SYS_sendto, file, bytes, length, flags, NULL, 0);
}

ssize_t sendmsg(int file, const struct msghdr *message, int flags)
{
    return is_interrupted(file) ? -1 : syscall(SYS_sendmsg, file, message, flags);
}

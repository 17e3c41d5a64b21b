// Has a program's accepts and new threads fail, and moves the system's clock for it, as told in a file while it runs.
//
// ../faults.py builds it as a library and loads it with LD_PRELOAD. FAULTS names the file, which has these five numbers of 8 bytes.
// An accept that fails takes no connection: that one waits on. Where none waits, an accept is as it is without this library.
#define _GNU_SOURCE
#include <dlfcn.h>
#include <errno.h>
#include <fcntl.h>
#include <poll.h>
#include <pthread.h>
#include <stdatomic.h>
#include <stdlib.h>
#include <sys/mman.h>
#include <sys/socket.h>
#include <sys/syscall.h>
#include <time.h>
#include <unistd.h>

struct told {
    atomic_long error;   // that of an accept that fails
    atomic_long times;   // how many further ones fail; below 0: all
    atomic_long failed;  // how many have failed
    atomic_long ahead;   // the seconds by which the clock is ahead of the system's
    atomic_long threads; // how many further threads begin; below 0: all
};

static struct told *told;

__attribute__((constructor)) static void start(void)
{
    const char *name = getenv("FAULTS");
    int file = name ? open(name, O_RDWR | O_CLOEXEC) : -1;
    if (file < 0)
        abort();
    told = mmap(NULL, sizeof *told, PROT_READ | PROT_WRITE, MAP_SHARED, file, 0);
    if (told == MAP_FAILED)
        abort();
    close(file);
}

// Takes one of a number, unless none is left.
static int takes(atomic_long *number)
{
    long left = atomic_load(number);
    while (left > 0 && !atomic_compare_exchange_weak(number, &left, left - 1))
        ;
    return left != 0;
}

// Whether a connection waits at a listener. At one that blocks, this waits for it.
static int has_one(int socket)
{
    struct pollfd waits = { .fd = socket, .events = POLLIN };
    return poll(&waits, 1, fcntl(socket, F_GETFL) & O_NONBLOCK ? 0 : -1) > 0;
}

int accept4(int socket, struct sockaddr *address, socklen_t *length, int flags)
{
    if (has_one(socket) && takes(&told->times)) {
        atomic_fetch_add(&told->failed, 1);
        errno = (int)atomic_load(&told->error);
        return -1;
    }
    return (int)syscall(SYS_accept4, socket, address, length, flags);
}

int accept(int socket, struct sockaddr *address, socklen_t *length)
{
    return accept4(socket, address, length, 0);
}

int clock_gettime(clockid_t clock, struct timespec *time)
{
    int status = (int)syscall(SYS_clock_gettime, clock, time);
    if (status == 0 && clock == CLOCK_REALTIME)
        time->tv_sec += atomic_load(&told->ahead);
    return status;
}

int pthread_create(pthread_t *thread, const pthread_attr_t *attributes, void *(*run)(void *), void *argument)
{
    static int (*create)(pthread_t *, const pthread_attr_t *, void *(*)(void *), void *);
    if (!create)
        create = dlsym(RTLD_NEXT, "pthread_create");
    if (!takes(&told->threads))
        return EAGAIN;
    return create(thread, attributes, run, argument);
}

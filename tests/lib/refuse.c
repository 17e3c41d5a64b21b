// Refuses one allocation of a program, as a full memory would: that call of malloc or realloc returns null. And tells at the end of the
// process whether each block was given back, which no contract says of a drop.
//
// refusing.py builds it as a library, and it is loaded with LD_PRELOAD. REFUSE=1 refuses the first call of the process, REFUSE=2 the
// second, and REFUSE=0 none. When it refuses one, it writes the line `refused` to standard error; where blocks are left at the end, the line
// `blocks left`. With REFUSE_RANDOM no random bytes are given. It needs glibc.
//
// REFUSE_BY=FILE, a file of three numbers of 64 bits, says while the program runs what is refused: of the calls that ask for `size` bytes the
// one of the number `turn`, from then on. And it tells how many bytes are `held`.
#define _GNU_SOURCE
#include <errno.h>
#include <fcntl.h>
#include <malloc.h>
#include <stdatomic.h>
#include <stddef.h>
#include <stdlib.h>
#include <sys/mman.h>
#include <sys/syscall.h>
#include <unistd.h>

extern void *__libc_malloc(size_t size);
extern void *__libc_calloc(size_t count, size_t size);
extern void *__libc_realloc(void *block, size_t size);
extern void __libc_free(void *block);

// Gives back what libc itself keeps, as the stacks of threads that have ended.
extern void __libc_freeres(void);

// The calls up to the one that is refused; 0 or less once it was, or if none is.
static atomic_long left;

// The blocks that were handed out and not given back.
static atomic_long blocks;

// What is shared with the test, if it asks for that.
static struct by {
    atomic_long size, turn, held;
} *by;

__attribute__((constructor)) static void start(void)
{
    const char *number = getenv("REFUSE"), *path = getenv("REFUSE_BY");
    atomic_store(&left, number ? atol(number) : 0);
    if (path) {
        int file = open(path, O_RDWR);
        void *shared = mmap(NULL, sizeof *by, PROT_READ | PROT_WRITE, MAP_SHARED, file, 0);
        if (shared == MAP_FAILED)
            abort();
        close(file);
        by = shared;
    }
}

static int is_refused(size_t size)
{
    int is_told = by && (long)size == atomic_load(&by->size) && atomic_fetch_sub(&by->turn, 1) == 1;
    if (atomic_fetch_sub(&left, 1) != 1 && !is_told)
        return 0;
    if (write(STDERR_FILENO, "refused\n", 8) != 8)
        abort();
    errno = ENOMEM;
    return 1;
}

// The blocks, and the bytes, grow by one that is handed out, and shrink by one that is given back.
static void *counted(void *block, int sign)
{
    if (block)
        atomic_fetch_add(&blocks, sign);
    if (block && by)
        atomic_fetch_add(&by->held, sign * (long)malloc_usable_size(block));
    return block;
}

void *malloc(size_t size)
{
    return is_refused(size) ? NULL : counted(__libc_malloc(size), 1);
}

void *calloc(size_t count, size_t size)
{
    return counted(__libc_calloc(count, size), 1);
}

void *realloc(void *block, size_t size)
{
    if (is_refused(size))
        return NULL;
    counted(block, -1);
    void *moved = __libc_realloc(block, size);
    if (!moved && size)
        counted(block, 1);
    return counted(moved, 1);
}

void free(void *block)
{
    __libc_free(counted(block, -1));
}

int getentropy(void *bytes, size_t length)
{
    if (getenv("REFUSE_RANDOM")) {
        errno = ENOSYS;
        return -1;
    }
    return syscall(SYS_getrandom, bytes, length, 0) == (long)length ? 0 : -1;
}

// Called at the end of the process, which is a return from main or a call of _exit.
__attribute__((destructor)) static void end(void)
{
    __libc_freeres();
    if (atomic_load(&blocks) != 0 && write(STDERR_FILENO, "blocks left\n", 12) != 12)
        abort();
}

void _exit(int status)
{
    end();
    syscall(SYS_exit_group, status);
    __builtin_unreachable();
}

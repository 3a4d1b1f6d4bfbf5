/* Refuses one request for memory, and notes how many there were.

   Preloaded, it stands before the C library's malloc, calloc, realloc, aligned_alloc, posix_memalign and memalign. It counts
   the requests of the process. The one whose number is the environment's REFUSED_REQUEST, counted from 1, gets no memory.

   Into the file that NOTES_FILE names it writes a line at the end of the process: 0, and how many requests there were. Where
   none is to be refused it also stands before write, and notes at each one to standard output or standard error, before that
   is made: the descriptor, and how many requests there were so far. */

#include <errno.h>
#include <fcntl.h>
#include <stdatomic.h>
#include <stdio.h>
#include <stdlib.h>
#include <unistd.h>

/* glibc's own names of what stands behind. */
extern void *__libc_malloc(size_t size);
extern void *__libc_calloc(size_t count, size_t size);
extern void *__libc_realloc(void *old, size_t size);
extern void *__libc_memalign(size_t alignment, size_t size);
extern ssize_t __write(int file, const void *bytes, size_t size);

static atomic_ulong requests;
static unsigned long refused;
static int notes = -1;

/* Whether this request, which is counted, is to be refused. */
static int refuses(void)
{
    if (atomic_fetch_add(&requests, 1) + 1 != refused)
        return 0;
    errno = ENOMEM;
    return 1;
}

void *malloc(size_t size)
{
    return refuses() ? NULL : __libc_malloc(size);
}

void *calloc(size_t count, size_t size)
{
    return refuses() ? NULL : __libc_calloc(count, size);
}

/* What gives memory back wants none. */
void *realloc(void *old, size_t size)
{
    return size && refuses() ? NULL : __libc_realloc(old, size);
}

void *memalign(size_t alignment, size_t size)
{
    return refuses() ? NULL : __libc_memalign(alignment, size);
}

void *aligned_alloc(size_t alignment, size_t size)
{
    return refuses() ? NULL : __libc_memalign(alignment, size);
}

int posix_memalign(void **made, size_t alignment, size_t size)
{
    void *memory = refuses() ? NULL : __libc_memalign(alignment, size);
    if (!memory)
        return ENOMEM;
    *made = memory;
    return 0;
}

/* A note that can't be written is one that the reader misses. */
static void note(int file)
{
    char line[48];
    int size = snprintf(line, sizeof line, "%d %lu\n", file, atomic_load(&requests));
    if (notes >= 0)
        __write(notes, line, (size_t)size);
}

ssize_t write(int file, const void *bytes, size_t size)
{
    if (!refused && (file == STDOUT_FILENO || file == STDERR_FILENO))
        note(file);
    return __write(file, bytes, size);
}

/* Requests made while the process starts, by the loader and the C library, aren't the program's. */
__attribute__((constructor)) static void begin(void)
{
    const char *number = getenv("REFUSED_REQUEST");
    const char *name = getenv("NOTES_FILE");
    refused = number ? strtoul(number, NULL, 10) : 0;
    notes = name ? open(name, O_WRONLY | O_CREAT | O_TRUNC, 0600) : -1;
    atomic_store(&requests, 0);
}

__attribute__((destructor)) static void end(void)
{
    note(0);
}

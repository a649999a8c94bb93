/* Refuses one call for memory of a program that it is loaded before (LD_PRELOAD), for tools/refuse_each_allocation.
 *
 * The variable REFUSED is the number of the call that is refused, from 1 on; 0 refuses none. The file CALLS, which
 * has eight bytes, gets the number of calls. The calls of the C library itself count too. */
#define _GNU_SOURCE
#include <errno.h>
#include <fcntl.h>
#include <stdatomic.h>
#include <stdlib.h>
#include <sys/mman.h>
#include <unistd.h>

extern void *__libc_malloc(size_t);
extern void *__libc_calloc(size_t, size_t);
extern void *__libc_realloc(void *, size_t);
extern void *__libc_memalign(size_t, size_t);

static atomic_ulong *calls;
static unsigned long refused;

__attribute__((constructor)) static void begin(void)
{
    const char *name = getenv("CALLS"), *number = getenv("REFUSED");
    int file = name != NULL ? open(name, O_RDWR) : -1;
    if (file < 0 || number == NULL)
        abort();
    void *page = mmap(NULL, sizeof *calls, PROT_READ | PROT_WRITE, MAP_SHARED, file, 0);
    if (page == MAP_FAILED)
        abort();
    close(file);
    refused = strtoul(number, NULL, 10);
    calls = page;
}

static int is_refused(void)
{
    if (calls == NULL || atomic_fetch_add(calls, 1) + 1 != refused)
        return 0;
    errno = ENOMEM;
    return 1;
}

void *malloc(size_t size)
{
    return is_refused() ? NULL : __libc_malloc(size);
}

void *calloc(size_t count, size_t size)
{
    return is_refused() ? NULL : __libc_calloc(count, size);
}

void *realloc(void *old, size_t size)
{
    return is_refused() ? NULL : __libc_realloc(old, size);
}

void *memalign(size_t align, size_t size)
{
    return is_refused() ? NULL : __libc_memalign(align, size);
}

void *aligned_alloc(size_t align, size_t size)
{
    return memalign(align, size);
}

int posix_memalign(void **to, size_t align, size_t size)
{
    void *found = memalign(align, size);
    if (found == NULL)
        return ENOMEM;
    *to = found;
    return 0;
}

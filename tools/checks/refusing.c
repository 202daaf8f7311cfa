/* Stands before the C library's requests for memory, and refuses one of a thread. `tools/bridge check refused` loads
 * it.
 *
 * CONFBRIDGE_REFUSED names a file that holds a struct control. The tool (refusing.py) maps it too, and says there which
 * request is refused.
 */
#define _GNU_SOURCE
#include <errno.h>
#include <stdatomic.h>
#include <stddef.h>
#include <stdint.h>
#include <sys/syscall.h>

#include "control.h"

enum { ANY = 0, NONE = -1, SIZES = 4096 };

struct control {
    _Atomic int32_t thread;    /* whose requests are counted: a thread's number, ANY or NONE */
    _Atomic uint32_t nth;      /* which of them is refused, from 1; 0 for none */
    _Atomic uint32_t requests; /* how many were counted */
    _Atomic uint32_t refused;  /* how many of them were refused */
    uint64_t sizes[SIZES];     /* how many octets each of the first ones asked for */
};

void *__libc_malloc(size_t size);
void *__libc_calloc(size_t count, size_t size);
void *__libc_realloc(void *block, size_t size);
void *__libc_memalign(size_t alignment, size_t size);

static struct control *control;

__attribute__((constructor)) static void map_control(void)
{
    control = mapped_control("CONFBRIDGE_REFUSED", sizeof *control);
}

/* Counts a request. Whether it is the one that is refused. */
static int is_refused(size_t size)
{
    int32_t thread = control ? control->thread : NONE;
    if (thread == NONE || (thread != ANY && thread != syscall(SYS_gettid)))
        return 0;
    uint32_t before = control->requests++;
    if (before < SIZES)
        control->sizes[before] = size;
    if (before + 1 != control->nth)
        return 0;
    control->refused++;
    errno = ENOMEM;
    return 1;
}

void *malloc(size_t size)
{
    return is_refused(size) ? 0 : __libc_malloc(size);
}

void *calloc(size_t count, size_t size)
{
    return is_refused(count * size) ? 0 : __libc_calloc(count, size);
}

/* A size of 0 frees the block. */
void *realloc(void *block, size_t size)
{
    return size && is_refused(size) ? 0 : __libc_realloc(block, size);
}

void *memalign(size_t alignment, size_t size)
{
    return is_refused(size) ? 0 : __libc_memalign(alignment, size);
}

void *aligned_alloc(size_t alignment, size_t size)
{
    return memalign(alignment, size);
}

int posix_memalign(void **block, size_t alignment, size_t size)
{
    void *found = memalign(alignment, size);
    if (!found)
        return ENOMEM;
    *block = found;
    return 0;
}

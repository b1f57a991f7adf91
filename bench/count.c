/* Counts the calls of the C library's allocator, and the octets of heap memory in use. It is linked in
 * front of the allocator, for glibc. A block counts with its usable size, which may exceed the
 * requested size.
 */

#include <errno.h>
#include <malloc.h>
#include <stddef.h>
#include <stdint.h>

/* The number of calls that were counted, and the number of next calls not to count. */
uint64_t allocations, left_out;

/* The octets in use now, those in use before the first counted call, and the maximum since then. */
static int64_t held, held_before, most_held;

void *__libc_malloc(size_t size);
void *__libc_calloc(size_t count, size_t size);
void *__libc_realloc(void *block, size_t size);
void *__libc_memalign(size_t align, size_t size);
void __libc_free(void *block);

void start_counting(void)
{
    allocations = 0;
    held_before = most_held = held;
}

/* The maximum of the octets in use since the first counted call, beyond those in use before it. */
uint64_t most_octets(void)
{
    return (uint64_t)(most_held - held_before);
}

static int64_t octets_of(void *block)
{
    return (int64_t)malloc_usable_size(block);
}

/* Counts a call that returned a block in place of `before` octets. */
static void *counted(void *block, int64_t before)
{
    int64_t more = octets_of(block) - before;
    if (left_out) {
        left_out--;
        held += more;
        return block;
    }
    if (!allocations++)
        held_before = most_held = held;
    held += more;
    if (held > most_held)
        most_held = held;
    return block;
}

void *malloc(size_t size)
{
    return counted(__libc_malloc(size), 0);
}

void *calloc(size_t count, size_t size)
{
    return counted(__libc_calloc(count, size), 0);
}

void *realloc(void *block, size_t size)
{
    int64_t before = octets_of(block);
    void *grown = __libc_realloc(block, size);
    return counted(grown, grown || size == 0 ? before : 0);
}

void *aligned_alloc(size_t align, size_t size)
{
    return counted(__libc_memalign(align, size), 0);
}

int posix_memalign(void **block, size_t align, size_t size)
{
    *block = counted(__libc_memalign(align, size), 0);
    return *block ? 0 : ENOMEM;
}

void free(void *block)
{
    held -= octets_of(block);
    __libc_free(block);
}

/* Lets the call of malloc or realloc fail whose number is in REFUSE, and reports it. Preloaded, for glibc. */

#include <stddef.h>
#include <stdlib.h>
#include <unistd.h>

void *__libc_malloc(size_t size);
void *__libc_realloc(void *block, size_t size);

static int is_refused(void)
{
    static long calls;
    const char *number = getenv("REFUSE");

    if (number == NULL || ++calls != atol(number))
        return 0;
    return write(STDERR_FILENO, "refused\n", 8) == 8;
}

void *malloc(size_t size)
{
    return is_refused() ? NULL : __libc_malloc(size);
}

void *realloc(void *block, size_t size)
{
    return is_refused() ? NULL : __libc_realloc(block, size);
}

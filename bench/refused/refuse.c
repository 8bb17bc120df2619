/* Lets one allocation of a program fail, by LD_PRELOAD: the one with the number in REFUSED, from 1 over all threads. Where
   it comes to that, it makes the file that REFUSED_TOLD names. */
#include <errno.h>
#include <fcntl.h>
#include <stdatomic.h>
#include <stdlib.h>
#include <unistd.h>

extern void *__libc_malloc(size_t size);
extern void *__libc_realloc(void *block, size_t size);

static atomic_long made;
static long refused;
static const char *told;

__attribute__((constructor)) static void begin(void)
{
    const char *number = getenv("REFUSED");
    told = getenv("REFUSED_TOLD");
    refused = number ? atol(number) : 0;
    atomic_store(&made, 0);
}

static int is_refused(void)
{
    if (refused == 0 || atomic_fetch_add(&made, 1) + 1 != refused)
        return 0;
    if (told)
        close(open(told, O_CREAT | O_WRONLY, 0600));
    errno = ENOMEM;
    return 1;
}

void *malloc(size_t size)
{
    return is_refused() ? NULL : __libc_malloc(size);
}

void *realloc(void *block, size_t size)
{
    return is_refused() ? NULL : __libc_realloc(block, size);
}

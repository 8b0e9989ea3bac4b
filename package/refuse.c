/* Refuses one request of a program for memory, that of the number in REFUSE, counted from 1, and then creates the file
   in REFUSED. For tests: LD_PRELOAD=refuse.so REFUSE=3 REFUSED=there flashback --help */
#include <errno.h>
#include <fcntl.h>
#include <stdlib.h>
#include <unistd.h>

extern void *__libc_malloc(size_t size);
extern void *__libc_realloc(void *block, size_t size);

/* None is refused before the program begins. */
static long left = 0;
static const char *mark;

__attribute__((constructor)) static void begin(void)
{
    const char *number = getenv("REFUSE");
    mark = getenv("REFUSED");
    left = number ? atol(number) : 0;
}

static int is_refused(void)
{
    if (left <= 0 || --left > 0)
        return 0;
    close(open(mark, O_WRONLY | O_CREAT, 0600));
    errno = ENOMEM;
    return 1;
}

void *malloc(size_t size)
{
    return is_refused() ? NULL : __libc_malloc(size);
}

void *realloc(void *block, size_t size)
{
    return is_refused() ? NULL : __libc_realloc(block, size);
}

/* Loaded before the C library: refuses one allocation of a process, the one whose number, from 1, is
   REFUSE_NTH, and then makes the file REFUSE_MARK. All others are the C library's. All threads of the process
   count together. */
#define _GNU_SOURCE
#include <dlfcn.h>
#include <errno.h>
#include <fcntl.h>
#include <stdatomic.h>
#include <stdlib.h>
#include <unistd.h>

static int is_refused(void)
{
    static atomic_long count;
    const char *nth = getenv("REFUSE_NTH");
    if (nth == NULL || atomic_fetch_add(&count, 1) + 1 != atol(nth))
        return 0;
    int mark = open(getenv("REFUSE_MARK"), O_WRONLY | O_CREAT, 0600);
    if (mark < 0)
        abort();
    close(mark);
    errno = ENOMEM;
    return 1;
}

void *malloc(size_t size)
{
    static void *(*next)(size_t);
    if (next == NULL)
        next = dlsym(RTLD_NEXT, "malloc");
    return is_refused() ? NULL : next(size);
}

void *realloc(void *block, size_t size)
{
    static void *(*next)(void *, size_t);
    if (next == NULL)
        next = dlsym(RTLD_NEXT, "realloc");
    return is_refused() ? NULL : next(block, size);
}

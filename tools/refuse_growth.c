/* Loaded before the C library: refuses the program's growth with the number REFUSE, or it and all behind it where ONWARD is set. Makes the file
   REFUSED when it does, so that who tries each number in turn sees where there are no more. */
#define _GNU_SOURCE
#include <dlfcn.h>
#include <errno.h>
#include <fcntl.h>
#include <stdlib.h>
#include <unistd.h>

static int refuses(void)
{
    static long count;
    char *number = getenv("REFUSE"), *mark = getenv("REFUSED");
    long now = __sync_add_and_fetch(&count, 1), refused = number ? atol(number) : 0;
    int yes = refused && (getenv("ONWARD") ? now >= refused : now == refused);
    if (yes && mark)
        close(open(mark, O_WRONLY | O_CREAT, 0644));
    if (yes)
        errno = ENOMEM;
    return yes;
}

void *malloc(size_t size)
{
    static void *(*next)(size_t);
    if (!next)
        next = dlsym(RTLD_NEXT, "malloc");
    return refuses() ? NULL : next(size);
}

void *realloc(void *from, size_t size)
{
    static void *(*next)(void *, size_t);
    if (!next)
        next = dlsym(RTLD_NEXT, "realloc");
    return refuses() ? NULL : next(from, size);
}

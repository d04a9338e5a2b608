/* refuse: beside a program (LD_PRELOAD), it refuses the allocation whose number REFUSE is, counted from 1, and then makes
 * the file that REFUSED names, if it names one. */
#define _GNU_SOURCE
#include <dlfcn.h>
#include <fcntl.h>
#include <stddef.h>
#include <stdlib.h>
#include <unistd.h>

static int is_refused(void) {
    static unsigned long count;
    const char *number = getenv("REFUSE"), *mark = getenv("REFUSED");
    if (!number || ++count != strtoul(number, NULL, 10)) return 0;
    if (mark) close(open(mark, O_WRONLY | O_CREAT, 0600));
    return 1;
}

void *malloc(size_t size) {
    static void *(*made)(size_t);
    if (!made) *(void **)&made = dlsym(RTLD_NEXT, "malloc");
    return is_refused() ? NULL : made(size);
}

void *realloc(void *old, size_t size) {
    static void *(*made)(void *, size_t);
    if (!made) *(void **)&made = dlsym(RTLD_NEXT, "realloc");
    return is_refused() ? NULL : made(old, size);
}

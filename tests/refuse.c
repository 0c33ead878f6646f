/* Stands before the C library's own calls, by LD_PRELOAD: counts requests for memory, refuses those from REFUSE_FROM to
   REFUSE_TO, and tells the count in the file COUNT_IN at the end. */
#define _GNU_SOURCE
#include <dlfcn.h>
#include <errno.h>
#include <stdio.h>
#include <stdlib.h>

static unsigned long count, from, to;
static void *(*true_malloc)(size_t), *(*true_realloc)(void *, size_t);

static unsigned long number(const char *name) {
    const char *text = getenv(name);
    return text ? strtoul(text, NULL, 10) : 0;
}

__attribute__((constructor)) static void begin(void) {
    true_malloc = dlsym(RTLD_NEXT, "malloc");
    true_realloc = dlsym(RTLD_NEXT, "realloc");
    from = number("REFUSE_FROM"), to = number("REFUSE_TO"), count = 0;
}

__attribute__((destructor)) static void end(void) {
    const char *path = getenv("COUNT_IN");
    from = 0;
    FILE *file = path ? fopen(path, "w") : NULL;
    if (file) fprintf(file, "%lu\n", count), fclose(file);
}

static int refused(void) {
    count++;
    if (from == 0 || count < from || count > to) return 0;
    errno = ENOMEM;
    return 1;
}

void *malloc(size_t size) {
    if (!true_malloc) true_malloc = dlsym(RTLD_NEXT, "malloc");
    return refused() ? NULL : true_malloc(size);
}

void *realloc(void *old, size_t size) {
    if (!true_realloc) true_realloc = dlsym(RTLD_NEXT, "realloc");
    return refused() ? NULL : true_realloc(old, size);
}

/* Loaded before the C library: the allocation with the number of REFUSE, from 1, is refused. Where REPORT is set, the
 * number of allocations is written there at the end. */
#define _GNU_SOURCE
#include <dlfcn.h>
#include <errno.h>
#include <stdio.h>
#include <stdlib.h>

static unsigned long count, refused;
static void *(*next_malloc)(size_t);
static void *(*next_realloc)(void *, size_t);

__attribute__((constructor)) static void begin(void)
{
    next_malloc = dlsym(RTLD_NEXT, "malloc");
    next_realloc = dlsym(RTLD_NEXT, "realloc");
    const char *number = getenv("REFUSE");
    refused = number ? strtoul(number, NULL, 10) : 0;
    count = 0;
}

__attribute__((destructor)) static void end(void)
{
    const char *name = getenv("REPORT");
    unsigned long all = count;
    FILE *report = name ? fopen(name, "w") : NULL;
    if (report) {
        fprintf(report, "%lu\n", all);
        fclose(report);
    }
}

static int is_refused(void)
{
    count++;
    if (refused && count == refused) {
        errno = ENOMEM;
        return 1;
    }
    return 0;
}

void *malloc(size_t size)
{
    if (!next_malloc)
        next_malloc = dlsym(RTLD_NEXT, "malloc");
    return is_refused() ? NULL : next_malloc(size);
}

void *realloc(void *old, size_t size)
{
    if (!next_realloc)
        next_realloc = dlsym(RTLD_NEXT, "realloc");
    return is_refused() ? NULL : next_realloc(old, size);
}

/* Preloaded into a program: the allocation whose number is in REFUSE_AT is refused, and the count of all
   is written to the file that REFUSE_COUNT names, at exit or at _exit, by which a program with threads leaves. */
#define _GNU_SOURCE
#include <dlfcn.h>
#include <stdio.h>
#include <stdlib.h>

static unsigned long count;
static unsigned long refused;

__attribute__((constructor)) static void begin(void)
{
    const char *at = getenv("REFUSE_AT");
    refused = at ? strtoul(at, NULL, 10) : 0;
    count = 0;
}

static int is_refused(void)
{
    return __sync_add_and_fetch(&count, 1) == refused;
}

void *malloc(size_t size)
{
    static void *(*next)(size_t);
    if (!next)
        next = dlsym(RTLD_NEXT, "malloc");
    return is_refused() ? NULL : next(size);
}

void *realloc(void *block, size_t size)
{
    static void *(*next)(void *, size_t);
    if (!next)
        next = dlsym(RTLD_NEXT, "realloc");
    return is_refused() ? NULL : next(block, size);
}

__attribute__((destructor)) static void end(void)
{
    const char *name = getenv("REFUSE_COUNT");
    unsigned long total = count;
    FILE *file = name ? fopen(name, "w") : NULL;
    if (file) {
        fprintf(file, "%lu\n", total);
        fclose(file);
    }
}

void _exit(int status)
{
    void (*next)(int) = dlsym(RTLD_NEXT, "_exit");
    end();
    next(status);
    __builtin_unreachable();
}

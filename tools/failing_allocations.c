/* Makes one allocation of a program fail: preloaded by tools/failing_allocations.py, which says how.
 *
 * FAIL_AT=N    the allocation of this number, from 1, is refused (missing or 0: none is)
 * COUNT_TO=F   the file that is told how many allocations were asked for
 */
#define _GNU_SOURCE
#include <dlfcn.h>
#include <errno.h>
#include <stdio.h>
#include <stdlib.h>

static unsigned long asked, refused;

__attribute__((constructor)) static void begin(void)
{
    const char *number = getenv("FAIL_AT");
    refused = number ? strtoul(number, NULL, 10) : 0;
    asked = 0;
}

__attribute__((destructor)) static void end(void)
{
    const char *name = getenv("COUNT_TO");
    unsigned long count = asked;
    refused = 0;
    FILE *file = name ? fopen(name, "w") : NULL;
    if (file) {
        fprintf(file, "%lu\n", count);
        fclose(file);
    }
}

static int is_refused(void)
{
    asked++;
    if (asked != refused)
        return 0;
    errno = ENOMEM;
    return 1;
}

void *malloc(size_t size)
{
    static void *(*next)(size_t);
    if (!next)
        next = (void *(*)(size_t))dlsym(RTLD_NEXT, "malloc");
    return is_refused() ? NULL : next(size);
}

void *realloc(void *block, size_t size)
{
    static void *(*next)(void *, size_t);
    if (!next)
        next = (void *(*)(void *, size_t))dlsym(RTLD_NEXT, "realloc");
    return is_refused() ? NULL : next(block, size);
}

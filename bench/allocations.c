/*
 * Stands between a program and malloc and realloc of the C library, by LD_PRELOAD.
 *
 * REFUSE=N   the allocation of this number, counted from 1, is refused
 * REPORT=F   at the end the file F gets one line: allocations, bytes asked for in all, refused allocations
 */
#include <stdio.h>
#include <stdlib.h>

extern void *__libc_malloc(size_t size);
extern void *__libc_realloc(void *block, size_t size);

static unsigned long calls;
static unsigned long bytes;
static unsigned long refused;
static unsigned long to_refuse;

static int is_refused(size_t size)
{
    calls += 1;
    bytes += size;
    if (calls == to_refuse) {
        refused += 1;
        return 1;
    }
    return 0;
}

void *malloc(size_t size)
{
    return is_refused(size) ? NULL : __libc_malloc(size);
}

void *realloc(void *block, size_t size)
{
    return is_refused(size) ? NULL : __libc_realloc(block, size);
}

__attribute__((constructor)) static void begin(void)
{
    const char *number = getenv("REFUSE");
    calls = 0;
    bytes = 0;
    to_refuse = number ? strtoul(number, NULL, 10) : 0;
}

__attribute__((destructor)) static void end(void)
{
    const char *file = getenv("REPORT");
    unsigned long all_calls = calls, all_bytes = bytes;
    FILE *report = file ? fopen(file, "w") : NULL;
    if (report) {
        fprintf(report, "%lu %lu %lu\n", all_calls, all_bytes, refused);
        fclose(report);
    }
}

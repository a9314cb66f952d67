/* Preloaded before the listing program: its reads of standard input or its writes to standard output fail, as FAULT says: an
 * operation, the number of the error, and how often, as in `read 4 3` for three that are interrupted. */
#define _GNU_SOURCE
#include <dlfcn.h>
#include <errno.h>
#include <stdio.h>
#include <stdlib.h>
#include <string.h>
#include <unistd.h>

static int fails(const char *operation)
{
    static int left = -1;
    char name[8];
    int number, times;
    const char *fault = getenv("FAULT");
    if (strcmp(program_invocation_short_name, "list_events")) return 0; /* what runs beside it does not fail */
    if (!fault || sscanf(fault, "%7s %d %d", name, &number, &times) != 3 || strcmp(name, operation)) return 0;
    if (left < 0) left = times;
    if (left == 0) return 0;
    left--;
    errno = number;
    return 1;
}

ssize_t read(int file, void *into, size_t bytes)
{
    ssize_t (*real)(int, void *, size_t) = dlsym(RTLD_NEXT, "read");
    return file == 0 && fails("read") ? -1 : real(file, into, bytes);
}

ssize_t write(int file, const void *from, size_t bytes)
{
    ssize_t (*real)(int, const void *, size_t) = dlsym(RTLD_NEXT, "write");
    return file == 1 && fails("write") ? -1 : real(file, from, bytes);
}

/* Stands before the C library's allocator: it counts what is asked of it, and refuses one request.
   REFUSED_CALL is the number of that request, from 1 on; 0 refuses none. The number of requests is written
   into the file that REFUSED_COUNT names. Only requests made after the program's start count. */
#define _GNU_SOURCE
#include <dlfcn.h>
#include <stdio.h>
#include <stdlib.h>

static void *(*next_malloc)(size_t);
static void *(*next_realloc)(void *, size_t);
static unsigned long refused, asked;

__attribute__((constructor)) static void begin(void) {
    const char *call = getenv("REFUSED_CALL");
    next_malloc = dlsym(RTLD_NEXT, "malloc");
    next_realloc = dlsym(RTLD_NEXT, "realloc");
    refused = call ? strtoul(call, NULL, 10) : 0;
    asked = 0;
}

__attribute__((destructor)) static void end(void) {
    unsigned long all = asked;
    const char *path = getenv("REFUSED_COUNT");
    FILE *file = path ? fopen(path, "w") : NULL;
    refused = 0;
    if (file) {
        fprintf(file, "%lu\n", all);
        fclose(file);
    }
}

void *malloc(size_t size) {
    if (!next_malloc)
        next_malloc = dlsym(RTLD_NEXT, "malloc");
    return ++asked == refused ? NULL : next_malloc(size);
}

void *realloc(void *at, size_t size) {
    if (!next_realloc)
        next_realloc = dlsym(RTLD_NEXT, "realloc");
    return ++asked == refused ? NULL : next_realloc(at, size);
}

// A library to be preloaded: it counts the program's allocations, and refuses the one with the number in REFUSED.
#define _GNU_SOURCE
#include <dlfcn.h>
#include <errno.h>
#include <stdio.h>
#include <stdlib.h>
#include <string.h>

static unsigned long count;
static long refused = -1;
static const char *told;

static void *(*real_malloc)(size_t);
static void *(*real_realloc)(void *, size_t);
static void (*real_exit)(int);

__attribute__((constructor)) static void begin(void) {
    real_malloc = (void *(*)(size_t))dlsym(RTLD_NEXT, "malloc");
    real_realloc = (void *(*)(void *, size_t))dlsym(RTLD_NEXT, "realloc");
    real_exit = (void (*)(int))dlsym(RTLD_NEXT, "_exit");
    const char *number = getenv("REFUSED");
    refused = number ? atol(number) : -1;
    told = getenv("COUNT_TO");
    count = 0;
}

static int is_refused(void) {
    return (long)__atomic_fetch_add(&count, 1, __ATOMIC_RELAXED) == refused;
}

void *malloc(size_t size) {
    if (!real_malloc) begin();
    if (is_refused()) { errno = ENOMEM; return NULL; }
    return real_malloc(size);
}

void *realloc(void *old, size_t size) {
    if (!real_realloc) begin();
    if (is_refused()) { errno = ENOMEM; return NULL; }
    return real_realloc(old, size);
}

static void tell(void) {
    if (!told) return;
    FILE *file;
    unsigned long all = count;
    refused = -1;
    file = fopen(told, "w");
    if (file) { fprintf(file, "%lu\n", all); fclose(file); }
}

// A program with threads ends here, where no destructor runs.
void _exit(int status) {
    tell();
    real_exit(status);
    __builtin_unreachable();
}

__attribute__((destructor)) static void end(void) {
    tell();
}

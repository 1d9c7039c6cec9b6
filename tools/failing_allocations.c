/* Loaded before the C library: the allocation of the number in FAIL_AT fails, counted from 0, and with
   FAIL_ON set each one behind it too. At the end the count of allocations is written to COUNT_TO. */
#define _GNU_SOURCE
#include <dlfcn.h>
#include <errno.h>
#include <stdio.h>
#include <stdlib.h>

static long count, fail_at = -1;
static int fail_on, ready;

static int fails(void) {
    if (!ready) {
        ready = 1;
        fail_at = getenv("FAIL_AT") ? atol(getenv("FAIL_AT")) : -1;
        fail_on = getenv("FAIL_ON") != NULL;
    }
    long number = count++;
    return fail_at >= 0 && (number == fail_at || (fail_on && number > fail_at));
}

void *malloc(size_t size) {
    static void *(*real)(size_t);
    if (!real) real = dlsym(RTLD_NEXT, "malloc");
    return fails() ? NULL : real(size);
}

void *realloc(void *old, size_t size) {
    static void *(*real)(void *, size_t);
    if (!real) real = dlsym(RTLD_NEXT, "realloc");
    return fails() ? NULL : real(old, size);
}

void *aligned_alloc(size_t align, size_t size) {
    static void *(*real)(size_t, size_t);
    if (!real) real = dlsym(RTLD_NEXT, "aligned_alloc");
    return fails() ? NULL : real(align, size);
}

int posix_memalign(void **out, size_t align, size_t size) {
    static int (*real)(void **, size_t, size_t);
    if (!real) real = dlsym(RTLD_NEXT, "posix_memalign");
    return fails() ? ENOMEM : real(out, align, size);
}

__attribute__((destructor)) static void tell(void) {
    long told = count;
    const char *path = getenv("COUNT_TO");
    if (!path) return;
    fail_at = -1;
    FILE *out = fopen(path, "w");
    if (!out) return;
    fprintf(out, "%ld\n", told);
    fclose(out);
}

// Refuses allocations of the program that it is loaded into (LD_PRELOAD), of glibc's: those from the REFUSE_FIRST-th to the REFUSE_LAST-th,
// counted from 1 once the program was loaded, both of the environment. At the program's end it writes to the file REFUSE_REPORT how many
// allocations were asked for, and how many of them were refused.
#include <errno.h>
#include <stdio.h>
#include <stdlib.h>

extern void *__libc_malloc(size_t);
extern void *__libc_calloc(size_t, size_t);
extern void *__libc_realloc(void *, size_t);
extern void *__libc_memalign(size_t, size_t);

static unsigned long first, last, asked, refused;
static int is_counting;

static unsigned long number_of(const char *name) {
    const char *text = getenv(name);
    return text ? strtoul(text, NULL, 10) : 0;
}

__attribute__((constructor)) static void start(void) {
    first = number_of("REFUSE_FIRST");
    last = number_of("REFUSE_LAST");
    is_counting = 1;
}

__attribute__((destructor)) static void report(void) {
    const char *path = getenv("REFUSE_REPORT");
    is_counting = 0;
    FILE *file = path ? fopen(path, "w") : NULL;
    if (file) {
        fprintf(file, "%lu %lu\n", asked, refused);
        fclose(file);
    }
}

// Whether this allocation is refused.
static int is_refused(void) {
    if (!is_counting) {
        return 0;
    }
    asked++;
    if (asked < first || asked > last) {
        return 0;
    }
    refused++;
    errno = ENOMEM;
    return 1;
}

void *malloc(size_t size) {
    return is_refused() ? NULL : __libc_malloc(size);
}

void *calloc(size_t count, size_t size) {
    return is_refused() ? NULL : __libc_calloc(count, size);
}

void *realloc(void *block, size_t size) {
    return is_refused() ? NULL : __libc_realloc(block, size);
}

void *aligned_alloc(size_t alignment, size_t size) {
    return is_refused() ? NULL : __libc_memalign(alignment, size);
}

int posix_memalign(void **block, size_t alignment, size_t size) {
    if (is_refused()) {
        return ENOMEM;
    }
    *block = __libc_memalign(alignment, size);
    return *block ? 0 : ENOMEM;
}

// An allocator over that of the C library, which refuses requests for memory: those whose numbers REFUSED names, the first and the last, or, where
// it names none, all between two marks. At the end it adds a line to the file that REFUSALS names: how many requests there were and how many of
// them were refused, how many marks, and how many blocks were given back between them.
#define _GNU_SOURCE
#include <dlfcn.h>
#include <stdio.h>
#include <stdlib.h>

// The sizes of the marks, in crates/map_tests/src/memory.rt: from the first on memory is refused, up to the second.
enum { REFUSE = 4099, GIVE = 4111 };

static unsigned long first, last, requests, refused, marks, given_back;
static int between, has_ended;

__attribute__((constructor)) static void begin(void) {
    const char *numbers = getenv("REFUSED");
    if (numbers) sscanf(numbers, "%lu %lu", &first, &last);
}

static int is_refused(size_t size) {
    if (has_ended) return 0;
    if (!first && (size == REFUSE || size == GIVE)) {
        between = size == REFUSE;
        marks += between;
        return 0;
    }
    requests++;
    int is = between || (first && first <= requests && requests <= last);
    refused += is;
    return is;
}

void *malloc(size_t size) {
    static void *(*given)(size_t);
    if (!given) given = (void *(*)(size_t))dlsym(RTLD_NEXT, "malloc");
    return is_refused(size) ? NULL : given(size);
}

void *realloc(void *block, size_t size) {
    static void *(*given)(void *, size_t);
    if (!given) given = (void *(*)(void *, size_t))dlsym(RTLD_NEXT, "realloc");
    return is_refused(size) ? NULL : given(block, size);
}

void free(void *block) {
    static void (*given)(void *);
    if (!given) given = (void (*)(void *))dlsym(RTLD_NEXT, "free");
    given_back += between && block;
    given(block);
}

// Only tests make marks, and not the programs that run them.
__attribute__((destructor)) static void tell(void) {
    has_ended = 1;
    FILE *told = first || marks ? fopen(getenv("REFUSALS"), "a") : NULL;
    if (!told) return;
    // A mark is given back at once.
    fprintf(told, "%lu %lu %lu %lu\n", requests, refused, marks, given_back - marks);
    fclose(told);
}

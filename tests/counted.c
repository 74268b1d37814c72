// An allocator over that of the C library, which counts. For each answer, a write to standard output, the file that COUNTED names gets three numbers
// of 32 bits: how many blocks were taken for it, how many were given back, and how many bytes are held then. Only blocks of at least 4 KiB count, and
// none that grows: parts of 128 items have such blocks, the nodes of a directory are smaller, and lists of levels grow.
#define _GNU_SOURCE
#include <dlfcn.h>
#include <malloc.h>
#include <stdio.h>
#include <stdlib.h>
#include <unistd.h>

enum { LEAST = 4096 };

static struct { unsigned taken, given_back, held; } now;
static FILE *told;
static char buffer[1 << 16];

void *malloc(size_t size) {
    static void *(*given)(size_t);
    if (!given) given = (void *(*)(size_t))dlsym(RTLD_NEXT, "malloc");
    void *block = given(size);
    size_t has = malloc_usable_size(block);
    now.held += has;
    now.taken += has >= LEAST;
    return block;
}

void *realloc(void *block, size_t size) {
    static void *(*given)(void *, size_t);
    if (!given) given = (void *(*)(void *, size_t))dlsym(RTLD_NEXT, "realloc");
    size_t had = malloc_usable_size(block);
    void *moved = given(block, size);
    if (moved) now.held += malloc_usable_size(moved) - had;
    return moved;
}

void free(void *block) {
    static void (*given)(void *);
    if (!given) given = (void (*)(void *))dlsym(RTLD_NEXT, "free");
    size_t had = malloc_usable_size(block);
    now.held -= had;
    now.given_back += had >= LEAST;
    given(block);
}

ssize_t write(int file, const void *bytes, size_t length) {
    static ssize_t (*given)(int, const void *, size_t);
    if (!given) given = (ssize_t (*)(int, const void *, size_t))dlsym(RTLD_NEXT, "write");
    if (file == STDOUT_FILENO) {
        fwrite(&now, sizeof now, 1, told);
        now.taken = now.given_back = 0;
    }
    return given(file, bytes, length);
}

__attribute__((constructor)) static void begin(void) {
    told = fopen(getenv("COUNTED"), "wb");
    setvbuf(told, buffer, _IOFBF, sizeof buffer);
}

__attribute__((destructor)) static void end(void) { fclose(told); }

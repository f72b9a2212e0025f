/* Counts the blocks of memory that a process takes and gives back. At its end both counts go to the file that TAKEN_AND_FREED names. */
#include <errno.h>
#include <fcntl.h>
#include <stdio.h>
#include <stdlib.h>
#include <unistd.h>

void *__libc_malloc(size_t size);
void *__libc_calloc(size_t count, size_t size);
void *__libc_realloc(void *block, size_t size);
void *__libc_memalign(size_t align, size_t size);
void __libc_free(void *block);

static unsigned long taken, freed;

static void *counted(void *block) {
    taken += block != NULL;
    return block;
}

void *malloc(size_t size) { return counted(__libc_malloc(size)); }

void *calloc(size_t count, size_t size) { return counted(__libc_calloc(count, size)); }

void *realloc(void *block, size_t size) {
    void *moved = __libc_realloc(block, size);
    taken += moved != NULL;
    freed += block != NULL && (moved != NULL || size == 0);
    return moved;
}

void *memalign(size_t align, size_t size) { return counted(__libc_memalign(align, size)); }

void *aligned_alloc(size_t align, size_t size) { return memalign(align, size); }

int posix_memalign(void **block, size_t align, size_t size) {
    *block = memalign(align, size);
    return *block ? 0 : ENOMEM;
}

void free(void *block) {
    freed += block != NULL;
    __libc_free(block);
}

__attribute__((destructor)) static void tell(void) {
    char text[64];
    int length = snprintf(text, sizeof text, "%lu %lu\n", taken, freed);
    int file = open(getenv("TAKEN_AND_FREED"), O_WRONLY | O_CREAT | O_TRUNC, 0600);
    if (file >= 0 && write(file, text, (size_t)length) == length)
        close(file);
}

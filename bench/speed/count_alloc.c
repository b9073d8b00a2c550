/* Counts what a program has allocated, and writes to the file that the variable COUNT_ALLOC names what it had before it gave back the most blocks in one
 * go: the bytes of its blocks as the C library cuts them, with the 8 bytes in front of each, and behind a blank how many blocks these were. */
#define _GNU_SOURCE
#include <dlfcn.h>
#include <malloc.h>
#include <stdio.h>
#include <stdlib.h>
#include <sys/syscall.h>
#include <unistd.h>

static size_t held, blocks;
/* what there was before the blocks that are given back now, and before the most of them; and how many these are */
static size_t held_before, blocks_before, given, held_then, blocks_then, most_given;

static void *taken(void *block) {
    if (block) {
        held += malloc_usable_size(block) + sizeof(size_t);
        blocks++;
        given = 0;
    }
    return block;
}

static void given_back(void *block) {
    if (!block)
        return;
    if (given++ == 0) {
        held_before = held;
        blocks_before = blocks;
    }
    if (given > most_given) {
        most_given = given;
        held_then = held_before;
        blocks_then = blocks_before;
    }
    held -= malloc_usable_size(block) + sizeof(size_t);
    blocks--;
}

void *malloc(size_t size) {
    static void *(*next)(size_t);
    if (!next)
        next = (void *(*)(size_t))dlsym(RTLD_NEXT, "malloc");
    return taken(next(size));
}

void *realloc(void *old, size_t size) {
    static void *(*next)(void *, size_t);
    size_t before = old ? malloc_usable_size(old) + sizeof(size_t) : 0;
    void *block;
    if (!next)
        next = (void *(*)(void *, size_t))dlsym(RTLD_NEXT, "realloc");
    block = next(old, size);
    if (block && before) {
        held -= before;
        blocks--;
    }
    return taken(block);
}

int posix_memalign(void **out, size_t align, size_t size) {
    static int (*next)(void **, size_t, size_t);
    int failed;
    if (!next)
        next = (int (*)(void **, size_t, size_t))dlsym(RTLD_NEXT, "posix_memalign");
    failed = next(out, align, size);
    if (!failed)
        taken(*out);
    return failed;
}

void *aligned_alloc(size_t align, size_t size) {
    static void *(*next)(size_t, size_t);
    if (!next)
        next = (void *(*)(size_t, size_t))dlsym(RTLD_NEXT, "aligned_alloc");
    return taken(next(align, size));
}

void free(void *block) {
    static void (*next)(void *);
    if (!next)
        next = (void (*)(void *))dlsym(RTLD_NEXT, "free");
    given_back(block);
    next(block);
}

static void tell(void) {
    const char *path = getenv("COUNT_ALLOC");
    FILE *file = path ? fopen(path, "w") : NULL;
    if (file) {
        fprintf(file, "%zu %zu\n", held_then, blocks_then);
        fclose(file);
    }
}

/* the way in which these programs end */
void _exit(int status) {
    tell();
    for (;;)
        syscall(SYS_exit_group, status);
}

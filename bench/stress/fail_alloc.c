/* Makes allocations of a program fail: the one whose number the variable FAIL_ALLOC gives, counted from 1, or those that the file FAIL_ALLOC_CONTROL asks
 * for, which another program maps and changes while this one runs. Writes to the file that FAIL_ALLOC_COUNT names how many allocations were asked for. */
#define _GNU_SOURCE
#include <dlfcn.h>
#include <fcntl.h>
#include <stdatomic.h>
#include <stdio.h>
#include <stdlib.h>
#include <sys/mman.h>
#include <sys/syscall.h>
#include <unistd.h>

/* which threads are counted and may be refused */
enum { EVERY_THREAD, FIRST_THREAD, OTHER_THREADS };

/* the words at the start of the file that is mapped: how many allocations were asked for, how many of these were refused, the number of the first that is
 * refused and that of the last, and which threads are meant */
struct control {
    atomic_ulong asked, refused, first, last, threads;
};

static struct control own, *control;

static void get_ready(void) {
    const char *number = getenv("FAIL_ALLOC");
    const char *path = getenv("FAIL_ALLOC_CONTROL");
    int file = path ? open(path, O_RDWR) : -1;
    void *shared = file < 0 ? MAP_FAILED : mmap(NULL, sizeof own, PROT_READ | PROT_WRITE, MAP_SHARED, file, 0);
    own.first = own.last = number ? strtoul(number, NULL, 10) : 0;
    control = shared == MAP_FAILED ? &own : shared;
    if (file >= 0)
        close(file);
}

/* whether an allocation of the thread that asks is counted */
static int is_meant(void) {
    switch (control->threads) {
    case FIRST_THREAD:
        return gettid() == getpid();
    case OTHER_THREADS:
        return gettid() != getpid();
    default:
        return 1;
    }
}

static int fails_now(void) {
    unsigned long number;
    if (!control)
        get_ready();
    if (!is_meant())
        return 0;
    number = ++control->asked;
    if (number < control->first || number > control->last)
        return 0;
    control->refused++;
    return 1;
}

void *malloc(size_t size) {
    static void *(*next)(size_t);
    if (!next)
        next = (void *(*)(size_t))dlsym(RTLD_NEXT, "malloc");
    return fails_now() ? NULL : next(size);
}

void *realloc(void *old, size_t size) {
    static void *(*next)(void *, size_t);
    if (!next)
        next = (void *(*)(void *, size_t))dlsym(RTLD_NEXT, "realloc");
    return fails_now() ? NULL : next(old, size);
}

int posix_memalign(void **out, size_t align, size_t size) {
    static int (*next)(void **, size_t, size_t);
    if (!next)
        next = (int (*)(void **, size_t, size_t))dlsym(RTLD_NEXT, "posix_memalign");
    return fails_now() ? 12 : next(out, align, size);
}

void *aligned_alloc(size_t align, size_t size) {
    static void *(*next)(size_t, size_t);
    if (!next)
        next = (void *(*)(size_t, size_t))dlsym(RTLD_NEXT, "aligned_alloc");
    return fails_now() ? NULL : next(align, size);
}

static void tell(void) {
    const char *path = getenv("FAIL_ALLOC_COUNT");
    unsigned long asked = control ? control->asked : 0;
    FILE *file = path ? fopen(path, "w") : NULL;
    if (file) {
        fprintf(file, "%lu\n", asked);
        fclose(file);
    }
}

/* the way in which these programs end */
void _exit(int status) {
    tell();
    for (;;)
        syscall(SYS_exit_group, status);
}

/* Adds a byte to the file that COUNT_THREADS names for each thread that a program begins. With REFUSE_THREADS none can be begun. */
#define _GNU_SOURCE
#include <dlfcn.h>
#include <errno.h>
#include <fcntl.h>
#include <pthread.h>
#include <stdlib.h>
#include <unistd.h>

int pthread_create(pthread_t *thread, const pthread_attr_t *attributes, void *(*work)(void *), void *given) {
    int (*begin)(pthread_t *, const pthread_attr_t *, void *(*)(void *), void *) = dlsym(RTLD_NEXT, "pthread_create");
    const char *path = getenv("COUNT_THREADS");
    int file = path ? open(path, O_WRONLY | O_CREAT | O_APPEND, 0644) : -1;
    if (getenv("REFUSE_THREADS"))
        return EAGAIN;
    if (file >= 0) {
        if (write(file, "t", 1) != 1)
            abort();
        close(file);
    }
    return begin(thread, attributes, work, given);
}

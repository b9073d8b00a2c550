// Lets the first calls of accept4 fail: FAIL_ACCEPT is the number of the error and how many calls fail, as "24 3". For LD_PRELOAD.
#define _GNU_SOURCE
#include <dlfcn.h>
#include <errno.h>
#include <stdatomic.h>
#include <stdio.h>
#include <stdlib.h>
#include <sys/socket.h>

static atomic_int calls;

int accept4(int fd, struct sockaddr *address, socklen_t *length, int flags) {
    int error = 0, count = 0;
    const char *told = getenv("FAIL_ACCEPT");
    if (told)
        sscanf(told, "%d %d", &error, &count);
    if (atomic_fetch_add(&calls, 1) < count) {
        errno = error;
        return -1;
    }
    int (*real)(int, struct sockaddr *, socklen_t *, int) = dlsym(RTLD_NEXT, "accept4");
    return real(fd, address, length, flags);
}

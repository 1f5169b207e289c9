/* Where the time of a worker goes, to be loaded before the C library: for answers, requests for a job, reads and polls the nanoseconds
   within them, and those from the end of the call before, on threads that have asked for a job. The sums lie in the file that TIMES names. */
#define _GNU_SOURCE
#include <dlfcn.h>
#include <fcntl.h>
#include <poll.h>
#include <stdatomic.h>
#include <stdbool.h>
#include <stdlib.h>
#include <sys/mman.h>
#include <sys/socket.h>
#include <time.h>
#include <unistd.h>

/* A packet without a body is a request for a job. */
enum { HEADER = 12, ROOM = 4096 };
enum kind { ANSWER, REQUEST, READ, POLL };

static struct sum {
    _Atomic unsigned long within, before;
} *sums;
static __thread unsigned long ended;
static __thread bool asks;

static unsigned long now(void)
{
    struct timespec time;
    clock_gettime(CLOCK_MONOTONIC, &time);
    return time.tv_sec * 1000000000ul + time.tv_nsec;
}

static ssize_t note(enum kind kind, unsigned long began, ssize_t result)
{
    unsigned long end = now();
    if (sums != NULL && asks) {
        sums[kind].within += end - began;
        sums[kind].before += began - ended;
    }
    asks = asks || kind == REQUEST;
    ended = end;
    return result;
}

__attribute__((constructor)) static void start(void)
{
    const char *name = getenv("TIMES");
    int file = name == NULL ? -1 : open(name, O_RDWR | O_CREAT, 0600);
    if (file < 0 || ftruncate(file, ROOM) != 0) return;
    void *room = mmap(NULL, ROOM, PROT_READ | PROT_WRITE, MAP_SHARED, file, 0);
    sums = room == MAP_FAILED ? NULL : room;
    close(file);
}

#define REAL(name) \
    static __typeof__(name) *real; \
    if (real == NULL) real = (__typeof__(name) *)dlsym(RTLD_NEXT, #name); \
    unsigned long began = now()

ssize_t send(int link, const void *bytes, size_t count, int flags)
{
    REAL(send);
    return note(count == HEADER ? REQUEST : ANSWER, began, real(link, bytes, count, flags));
}

ssize_t sendto(int link, const void *bytes, size_t count, int flags, const struct sockaddr *to, socklen_t length)
{
    REAL(sendto);
    return note(count == HEADER ? REQUEST : ANSWER, began, real(link, bytes, count, flags, to, length));
}

ssize_t recv(int link, void *bytes, size_t count, int flags)
{
    REAL(recv);
    return note(READ, began, real(link, bytes, count, flags));
}

ssize_t recvfrom(int link, void *bytes, size_t count, int flags, struct sockaddr *from, socklen_t *length)
{
    REAL(recvfrom);
    return note(READ, began, real(link, bytes, count, flags, from, length));
}

int poll(struct pollfd *links, nfds_t count, int wait)
{
    REAL(poll);
    return (int)note(POLL, began, real(links, count, wait));
}

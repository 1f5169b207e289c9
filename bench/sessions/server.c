/* A job server of one worker, on a port of the loopback that the system picks: server JOBS BODY
 * Prints the port, waits for one connection, and gives it a job of `echo` with so many bytes at each GRAB_JOB_UNIQ. After the last
 * answer it prints the seconds from the first request to that answer, and closes. */
#include <arpa/inet.h>
#include <netinet/tcp.h>
#include <stdio.h>
#include <stdlib.h>
#include <string.h>
#include <sys/socket.h>
#include <time.h>
#include <unistd.h>

enum { GRAB_JOB_UNIQ = 30, WORK_COMPLETE = 13, HEADER = 12 };

static const char ARGUMENTS[] = "H:localhost:1\0echo\0";

static void fail(const char *what) {
    perror(what);
    exit(1);
}

static int read_whole(int peer, unsigned char *buffer, size_t count) {
    for (size_t at = 0; at < count;) {
        ssize_t got = read(peer, buffer + at, count - at);
        if (got <= 0) return 0;
        at += (size_t)got;
    }
    return 1;
}

static void write_whole(int peer, const unsigned char *bytes, size_t count) {
    for (size_t at = 0; at < count;) {
        ssize_t sent = write(peer, bytes + at, count - at);
        if (sent <= 0) fail("write");
        at += (size_t)sent;
    }
}

static unsigned number_at(const unsigned char *bytes) {
    unsigned number;
    memcpy(&number, bytes, 4);
    return ntohl(number);
}

static double now(void) {
    struct timespec time;
    clock_gettime(CLOCK_MONOTONIC, &time);
    return (double)time.tv_sec + (double)time.tv_nsec / 1e9;
}

int main(int count, char **words) {
    if (count != 3) return 2;
    long jobs = atol(words[1]);
    size_t body = (size_t)atol(words[2]), size = sizeof ARGUMENTS + body;
    unsigned char *job = calloc(1, HEADER + size), *bytes = malloc(size + HEADER + 65536), header[HEADER];
    if (!job || !bytes) fail("memory");
    memcpy(job, "\0RES\0\0\0\x1f", 8);
    unsigned length = htonl((unsigned)size);
    memcpy(job + 8, &length, 4);
    memcpy(job + HEADER, ARGUMENTS, sizeof ARGUMENTS);
    int listener = socket(AF_INET, SOCK_STREAM, 0), one = 1;
    struct sockaddr_in address = {.sin_family = AF_INET, .sin_addr.s_addr = htonl(INADDR_LOOPBACK)};
    socklen_t room = sizeof address;
    if (bind(listener, (struct sockaddr *)&address, room) || listen(listener, 1)) fail("listen");
    getsockname(listener, (struct sockaddr *)&address, &room);
    printf("%d\n", ntohs(address.sin_port));
    fflush(stdout);
    int peer = accept(listener, NULL, NULL);
    setsockopt(peer, IPPROTO_TCP, TCP_NODELAY, &one, sizeof one);
    long given = 0, answered = 0;
    double start = 0, end = 0;
    while (answered < jobs && read_whole(peer, header, HEADER)) {
        unsigned type = number_at(header + 4), left = number_at(header + 8);
        if (left > size + 65536 || !read_whole(peer, bytes, left)) break;
        if (type == WORK_COMPLETE) {
            answered++;
            end = now();
        } else if (type == GRAB_JOB_UNIQ && given < jobs) {
            if (given++ == 0) start = now();
            write_whole(peer, job, HEADER + size);
        }
    }
    close(peer);
    printf("%ld %.6f\n", answered, end - start);
    return answered == jobs ? 0 : 1;
}

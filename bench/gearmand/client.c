/* A client of the function echo: client PORT JOBS AHEAD. It submits jobs of 64 bytes, so many ahead of the answers, holds each answer to
   what was sent, and prints jobs a second and the median of the time from a job's submission to its answer, in microseconds. */
#include <arpa/inet.h>
#include <netinet/tcp.h>
#include <stdint.h>
#include <stdio.h>
#include <stdlib.h>
#include <string.h>
#include <sys/socket.h>
#include <time.h>
#include <unistd.h>

enum { BODY = 64, SUBMIT = 7, CREATED = 8, COMPLETE = 13, ROOM = 1 << 20 };

static unsigned char text[ROOM];
static size_t from, to;

static double now(void)
{
    struct timespec time;
    clock_gettime(CLOCK_MONOTONIC, &time);
    return time.tv_sec * 1e6 + time.tv_nsec / 1e3;
}

static void fail(const char *why)
{
    fprintf(stderr, "client: %s\n", why);
    exit(1);
}

static void give(int link, const unsigned char *bytes, size_t count)
{
    while (count > 0) {
        ssize_t some = write(link, bytes, count);
        if (some <= 0) fail("write");
        bytes += some, count -= (size_t)some;
    }
}

/* Submits jobs whose numbers stand in their bodies. */
static void submit(int link, uint32_t first, uint32_t count)
{
    static unsigned char packets[4096 * (12 + 6 + BODY)];
    size_t length = 0;
    for (uint32_t job = first; job < first + count; job++) {
        unsigned char *packet = packets + length;
        uint32_t words[3] = {htonl(0x00524551), htonl(SUBMIT), htonl(6 + BODY)};
        memcpy(packet, words, 12);
        memcpy(packet + 12, "echo\0", 6);
        memset(packet + 18, 'x', BODY);
        memcpy(packet + 18, &job, 4);
        length += 18 + BODY;
    }
    give(link, packets, length);
}

/* The next packet: its kind, and its body in *body with its length. */
static uint32_t next(int link, unsigned char **body, uint32_t *length)
{
    while (1) {
        if (to - from >= 12) {
            uint32_t words[3];
            memcpy(words, text + from, 12);
            *length = ntohl(words[2]);
            if (to - from >= 12 + *length) {
                *body = text + from + 12;
                from += 12 + *length;
                return ntohl(words[1]);
            }
        }
        memmove(text, text + from, to - from);
        to -= from, from = 0;
        ssize_t some = read(link, text + to, ROOM - to);
        if (some <= 0) fail("read");
        to += (size_t)some;
    }
}

static int rising(const void *one, const void *other)
{
    double a = *(const double *)one, b = *(const double *)other;
    return (a > b) - (a < b);
}

int main(int count, char **words)
{
    if (count != 4) return 2;
    uint32_t jobs = (uint32_t)atoi(words[2]), ahead = (uint32_t)atoi(words[3]);
    if (ahead > 4096) return 2;
    double *begun = calloc(jobs, sizeof *begun), *took = calloc(jobs, sizeof *took);
    struct sockaddr_in address = {.sin_family = AF_INET, .sin_port = htons((uint16_t)atoi(words[1]))};
    inet_pton(AF_INET, "127.0.0.1", &address.sin_addr);
    int link = socket(AF_INET, SOCK_STREAM, 0), one = 1;
    struct timeval limit = {.tv_sec = 20};
    setsockopt(link, IPPROTO_TCP, TCP_NODELAY, &one, sizeof one);
    setsockopt(link, SOL_SOCKET, SO_RCVTIMEO, &limit, sizeof limit);
    if (connect(link, (struct sockaddr *)&address, sizeof address) != 0) fail("connect");
    uint32_t sent = 0, ended = 0;
    double start = now();
    while (ended < jobs) {
        /* Half of the room is free before more are sent, so that there is no write a job. */
        uint32_t room = ahead - (sent - ended), left = jobs - sent;
        if (left > 0 && room > 0 && (room >= ahead / 2 || room >= left)) {
            uint32_t some = room < left ? room : left;
            double time = now();
            for (uint32_t job = sent; job < sent + some; job++) begun[job] = time;
            submit(link, sent, some);
            sent += some;
        }
        unsigned char *body;
        uint32_t length, kind = next(link, &body, &length), job;
        if (kind == CREATED) continue;
        unsigned char *result = memchr(body, 0, length);
        if (kind != COMPLETE || result == NULL || body + length - result != BODY + 1) fail("answer");
        memcpy(&job, result + 1, 4);
        if (job >= sent || took[job] != 0) fail("twice");
        took[job] = now() - begun[job];
        ended++;
    }
    double whole = now() - start;
    qsort(took, jobs, sizeof *took, rising);
    printf("%.0f %.0f\n", jobs / (whole / 1e6), took[jobs / 2]);
    return 0;
}

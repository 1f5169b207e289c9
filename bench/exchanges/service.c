/* A service that gives back each body: service. Prints its port. Serves each connection in a process of its own, until it is ended. */
#include <arpa/inet.h>
#include <netinet/tcp.h>
#include <signal.h>
#include <stdio.h>
#include <stdlib.h>
#include <string.h>
#include <strings.h>
#include <sys/socket.h>
#include <unistd.h>

static char text[33554432];

/* Reads until there are so many bytes. 0 at the end of the connection. */
static int fill(int peer, size_t *have, size_t wanted)
{
    while (*have < wanted) {
        ssize_t count = read(peer, text + *have, sizeof text - 1 - *have);
        if (count <= 0)
            return 0;
        *have += count;
    }
    return 1;
}

/* One exchange. 0 at the end of the connection. */
static int answer(int peer)
{
    size_t have = 0, head, body, at;
    char *end, *length, start[128];
    do {
        if (!fill(peer, &have, have + 1))
            return 0;
        text[have] = 0;
    } while ((end = strstr(text, "\r\n\r\n")) == NULL);
    head = end + 4 - text;
    *end = 0;
    length = strcasestr(text, "content-length:");
    body = length == NULL ? 0 : strtoul(length + 15, NULL, 10);
    if (head + body >= sizeof text || !fill(peer, &have, head + body))
        return 0;
    int size = snprintf(start, sizeof start, "HTTP/1.1 200 OK\r\ncontent-length: %zu\r\n\r\n", body);
    char *answer = text + head - size;
    if (answer < text)
        return 0;
    memcpy(answer, start, size);
    for (at = 0; at < size + body;) {
        ssize_t count = write(peer, answer + at, size + body - at);
        if (count <= 0)
            return 0;
        at += count;
    }
    return 1;
}

int main(void)
{
    struct sockaddr_in at = {.sin_family = AF_INET, .sin_addr.s_addr = htonl(INADDR_LOOPBACK)};
    socklen_t length = sizeof at;
    int yes = 1, listener = socket(AF_INET, SOCK_STREAM, 0);
    if (bind(listener, (struct sockaddr *)&at, length) || listen(listener, 64) || getsockname(listener, (struct sockaddr *)&at, &length))
        return 1;
    printf("%d\n", ntohs(at.sin_port));
    fflush(stdout);
    signal(SIGCHLD, SIG_IGN);
    for (;;) {
        int peer = accept(listener, NULL, NULL);
        if (fork() == 0) {
            setsockopt(peer, IPPROTO_TCP, TCP_NODELAY, &yes, sizeof yes);
            while (answer(peer))
                ;
            _exit(0);
        }
        close(peer);
    }
}

/* Clients of services by libcurl: client CONNECTIONS JOBS PORT.. Each connection is kept, has a thread of its own, and goes to the next of
   the ports. Each job has 64 bytes, which are to come back. Prints jobs a second, and the processor microseconds of a job. */
#include <curl/curl.h>
#include <pthread.h>
#include <stdatomic.h>
#include <stdio.h>
#include <stdlib.h>
#include <string.h>
#include <sys/resource.h>
#include <time.h>

enum { BODY = 64, MOST = 256 };

static atomic_int left;
static pthread_barrier_t ready;

struct answer {
    char bytes[BODY];
    size_t length;
};

static void fail(const char *why)
{
    fprintf(stderr, "client: %s\n", why);
    exit(1);
}

static size_t keep(char *bytes, size_t size, size_t count, void *to)
{
    struct answer *answer = to;
    size_t more = size * count;
    if (answer->length + more > BODY) fail("a long answer");
    memcpy(answer->bytes + answer->length, bytes, more);
    answer->length += more;
    return more;
}

/* One job, whose number stands in its body. */
static void ask(CURL *curl, int job)
{
    char body[BODY];
    struct answer answer = {.length = 0};
    long status = 0;
    memset(body, 'x', BODY);
    memcpy(body, &job, sizeof job);
    curl_easy_setopt(curl, CURLOPT_POSTFIELDS, body);
    curl_easy_setopt(curl, CURLOPT_WRITEDATA, &answer);
    if (curl_easy_perform(curl) != CURLE_OK) fail("no answer");
    curl_easy_getinfo(curl, CURLINFO_RESPONSE_CODE, &status);
    if (status != 200 || answer.length != BODY || memcmp(answer.bytes, body, BODY) != 0) fail("another answer");
}

/* The jobs of one connection, with the headers that `poolman serve` sends. */
static void *work(void *url)
{
    CURL *curl = curl_easy_init();
    static const char *const HEADERS[] = {"content-type: application/octet-stream", "gearman-handle: H:localhost:1", "poolman-worker: a/0#1",
                                          "accept:", "expect:"};
    struct curl_slist *headers = NULL;
    for (size_t at = 0; at < sizeof HEADERS / sizeof *HEADERS; at++) headers = curl_slist_append(headers, HEADERS[at]);
    curl_easy_setopt(curl, CURLOPT_URL, (char *)url);
    curl_easy_setopt(curl, CURLOPT_HTTPHEADER, headers);
    curl_easy_setopt(curl, CURLOPT_POSTFIELDSIZE, (long)BODY);
    curl_easy_setopt(curl, CURLOPT_WRITEFUNCTION, keep);
    curl_easy_setopt(curl, CURLOPT_TIMEOUT_MS, 60000L);
    curl_easy_setopt(curl, CURLOPT_NOSIGNAL, 1L);
    ask(curl, -1);
    pthread_barrier_wait(&ready);
    for (int job; (job = atomic_fetch_sub(&left, 1)) > 0;) ask(curl, job);
    curl_slist_free_all(headers);
    curl_easy_cleanup(curl);
    return NULL;
}

static double now(void)
{
    struct timespec time;
    clock_gettime(CLOCK_MONOTONIC, &time);
    return time.tv_sec + time.tv_nsec / 1e9;
}

/* The seconds that this process had a processor. */
static double processor(void)
{
    struct rusage used;
    getrusage(RUSAGE_SELF, &used);
    return used.ru_utime.tv_sec + used.ru_stime.tv_sec + (used.ru_utime.tv_usec + used.ru_stime.tv_usec) / 1e6;
}

int main(int count, char **words)
{
    if (count < 4) return 2;
    int connections = atoi(words[1]), jobs = atoi(words[2]);
    if (connections < 1 || connections > MOST || jobs < 1) return 2;
    pthread_t threads[MOST];
    static char urls[MOST][64];
    curl_global_init(CURL_GLOBAL_ALL);
    left = jobs;
    pthread_barrier_init(&ready, NULL, (unsigned)connections + 1);
    for (int at = 0; at < connections; at++) {
        snprintf(urls[at], sizeof urls[at], "http://127.0.0.1:%s/jobs/echo", words[3 + at % (count - 3)]);
        if (pthread_create(&threads[at], NULL, work, urls[at]) != 0) fail("no thread");
    }
    pthread_barrier_wait(&ready);
    double begun = now(), used = processor();
    for (int at = 0; at < connections; at++) pthread_join(threads[at], NULL);
    printf("%.0f %.3f\n", jobs / (now() - begun), (processor() - used) * 1e6 / jobs);
    return 0;
}

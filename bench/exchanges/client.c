/* Exchanges with a service over one kept connection by libcurl: client HOST COUNT BODY. Prints the median of their times, in microseconds. */
#include <curl/curl.h>
#include <stdio.h>
#include <stdlib.h>
#include <string.h>
#include <time.h>

struct result {
    char *bytes;
    size_t length, room;
};

static size_t keep(char *bytes, size_t size, size_t count, void *to)
{
    struct result *result = to;
    size_t more = size * count;
    if (result->length + more > result->room) {
        result->room = (result->length + more) * 2;
        result->bytes = realloc(result->bytes, result->room);
        if (result->bytes == NULL)
            exit(1);
    }
    memcpy(result->bytes + result->length, bytes, more);
    result->length += more;
    return more;
}

static double now(void)
{
    struct timespec time;
    clock_gettime(CLOCK_MONOTONIC, &time);
    return time.tv_sec * 1e6 + time.tv_nsec / 1e3;
}

static int by_value(const void *a, const void *b)
{
    double x = *(const double *)a, y = *(const double *)b;
    return (x > y) - (x < y);
}

int main(int argc, char **argv)
{
    if (argc != 4)
        return 2;
    int count = atoi(argv[2]);
    long body = atol(argv[3]);
    char url[256], *data = malloc(body + 1);
    double *times = malloc(count * sizeof *times);
    snprintf(url, sizeof url, "http://%s/jobs/echo", argv[1]);
    memset(data, 7, body);
    CURL *curl = curl_easy_init();
    struct curl_slist *headers = NULL;
    headers = curl_slist_append(headers, "content-type: application/octet-stream");
    headers = curl_slist_append(headers, "gearman-handle: H:localhost:1");
    headers = curl_slist_append(headers, "gearman-unique: u1");
    headers = curl_slist_append(headers, "poolman-worker: a/0#1");
    headers = curl_slist_append(headers, "expect:");
    curl_easy_setopt(curl, CURLOPT_URL, url);
    curl_easy_setopt(curl, CURLOPT_HTTPHEADER, headers);
    curl_easy_setopt(curl, CURLOPT_POSTFIELDSIZE, body);
    curl_easy_setopt(curl, CURLOPT_POSTFIELDS, data);
    curl_easy_setopt(curl, CURLOPT_WRITEFUNCTION, keep);
    curl_easy_setopt(curl, CURLOPT_TIMEOUT_MS, 60000L);
    for (int i = 0; i < count; i++) {
        struct result result = {NULL, 0, 0};
        curl_easy_setopt(curl, CURLOPT_WRITEDATA, &result);
        double begun = now();
        CURLcode code = curl_easy_perform(curl);
        times[i] = now() - begun;
        if (code != CURLE_OK || result.length != (size_t)body) {
            fprintf(stderr, "another answer: %d\n", code);
            return 1;
        }
        free(result.bytes);
    }
    qsort(times, count, sizeof *times, by_value);
    printf("%.3f\n", times[count / 2]);
    return 0;
}

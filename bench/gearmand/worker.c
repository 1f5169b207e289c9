/* Workers of the function echo on libgearman: worker PORT COUNT. Each is a thread with a link of its own, as in `poolman run`, on a stack
   of the same size. It answers until it is ended. */
#include <libgearman/gearman.h>
#include <pthread.h>
#include <stdio.h>
#include <stdlib.h>
#include <string.h>
#include <unistd.h>

static in_port_t port;

static gearman_return_t echo(gearman_job_st *job, void *context)
{
    (void)context;
    return gearman_job_send_complete(job, gearman_job_workload(job), gearman_job_workload_size(job)) == GEARMAN_SUCCESS ? GEARMAN_SUCCESS
                                                                                                                      : GEARMAN_ERROR;
}

static void *work(void *unused)
{
    (void)unused;
    gearman_worker_st *worker = gearman_worker_create(NULL);
    gearman_function_t function = gearman_function_create(echo);
    if (worker == NULL || gearman_failed(gearman_worker_add_server(worker, "127.0.0.1", port)) ||
        gearman_failed(gearman_worker_define_function(worker, "echo", 4, function, 0, NULL))) {
        fputs("no worker\n", stderr);
        exit(1);
    }
    while (1) gearman_worker_work(worker);
    return NULL;
}

int main(int count, char **words)
{
    if (count != 3) return 2;
    port = (in_port_t)atoi(words[1]);
    int workers = atoi(words[2]);
    pthread_attr_t attributes;
    pthread_attr_init(&attributes);
    pthread_attr_setstacksize(&attributes, 256 * 1024);
    for (int at = 0; at < workers; at++) {
        pthread_t thread;
        if (pthread_create(&thread, &attributes, work, NULL) != 0) return 1;
    }
    while (1) pause();
}

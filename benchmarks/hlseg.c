/* How long an event takes with tools/hlseg.h, in nanoseconds of its thread's processor. Each thread has a ring of its own, and nobody
   drains. It prints the least of several runs of the mean over all threads.

     hlseg THREADS FRAMES */
#define _GNU_SOURCE
#include <pthread.h>
#include <stdio.h>
#include <stdlib.h>
#include <time.h>

static __thread unsigned self;
#define HLSEG_PROCESSOR() self
#include HEADER

enum { RUNS = 9, EVENTS = 500000, MOST_THREADS = 64, MOST_DEPTH = 32 };

static struct hlseg_trace trace;
static size_t depth;
static pthread_barrier_t start;
static double nanoseconds[MOST_THREADS]; /* that an event took each thread */

static void take(void *context, const void *bytes, size_t length) {
    (void)context, (void)bytes, (void)length;
}

static double now(void) {
    struct timespec time;
    clock_gettime(CLOCK_THREAD_CPUTIME_ID, &time);
    return (double)time.tv_sec * 1e9 + (double)time.tv_nsec;
}

static void *run(void *number) {
    void *frames[MOST_DEPTH];
    struct hlseg_origin origin = {4, 8, frames, depth};
    uint32_t event;
    double began;
    self = (unsigned)(size_t)number;
    for (event = 0; event < MOST_DEPTH; event++) {
        frames[event] = (void *)(size_t)(0x1000 + event);
    }
    pthread_barrier_wait(&start);
    began = now();
    for (event = 1; event <= EVENTS; event++) {
        hlseg_open(&trace, &origin, 4 * event);
    }
    nanoseconds[self] = (now() - began) / EVENTS;
    return NULL;
}

static double mean_of_run(unsigned threads) {
    struct hlseg_settings settings = {1, threads, 8, 65536, 7, take, NULL};
    void *memory = malloc(hlseg_size(&settings));
    pthread_t ids[MOST_THREADS];
    double sum = 0;
    size_t at;
    if (!hlseg_begin(&trace, &settings, memory)) {
        exit(1);
    }
    pthread_barrier_init(&start, NULL, threads);
    for (at = 0; at < threads; at++) {
        pthread_create(&ids[at], NULL, run, (void *)at);
    }
    for (at = 0; at < threads; at++) {
        pthread_join(ids[at], NULL);
        sum += nanoseconds[at];
    }
    free(memory);
    return sum / threads;
}

int main(int count, char **words) {
    double least = 1e9;
    int at;
    if (count != 3 || atoi(words[1]) < 1 || atoi(words[1]) > MOST_THREADS || (depth = (size_t)atoi(words[2])) > MOST_DEPTH) {
        return 2;
    }
    for (at = 0; at < RUNS; at++) {
        double mean = mean_of_run((unsigned)atoi(words[1]));
        least = mean < least ? mean : least;
    }
    printf("%.0f\n", least);
    return 0;
}

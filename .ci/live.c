/* Eight threads that open and close handles until standard input ends or a signal comes, and record it with tools/hlseg.h: each has a
   process and a ring of its own. Thread 6 is idle, thread 7 is slow, and the others rest now and then. One more drains to a file.

     live HOW MILLISECONDS BUNDLE COUNTS

   HOW is `ticks`, where the thread that drains also ticks for all; `none`; or `race`, in which the others don't rest, and end after a
   number of steps. MILLISECONDS are those between two drains. After each event its thread counts it in the file COUNTS, which has a
   uint64_t for each thread. */
#define _DEFAULT_SOURCE
#include <fcntl.h>
#include <pthread.h>
#include <stdio.h>
#include <stdlib.h>
#include <string.h>
#include <sys/mman.h>
#include <unistd.h>

enum { THREADS = 8, IDLE = 6, LEAK_EACH = 7, BURST = 100, RACE = 40000, DEPTH = 3 };
static __thread unsigned self;
#define HLSEG_PROCESSOR() self
#include "../tools/hlseg.h"

static struct hlseg_trace trace;
static uint64_t *counts;
static uint32_t is_over;
static unsigned milliseconds;
static int has_ticks, is_race;

static void demand(int holds, const char *what) {
    if (!holds) {
        perror(what);
        exit(1);
    }
}

static void count(int how) {
    if (how == HLSEG_ADDED || how == HLSEG_FILLED) {
        __atomic_store_n(&counts[self], counts[self] + 1, __ATOMIC_SEQ_CST);
    } else {
        fprintf(stderr, "live.c: an event was lost or refused\n");
        exit(1);
    }
}

/* Opens a handle, and closes it unless it is one of those that leak. */
static void work(uint32_t step) {
    void *frames[DEPTH] = {(void *)(uintptr_t)(0x1000 + self), (void *)(uintptr_t)(0x2000 + step % 5), (void *)0x3000};
    struct hlseg_origin origin = {100 + self, self, frames, DEPTH};
    count(hlseg_open(&trace, &origin, 4 * step));
    if (step % LEAK_EACH) {
        count(hlseg_close(&trace, &origin, 4 * step));
    }
}

static void *run(void *number) {
    uint32_t step = 0;
    self = (unsigned)(uintptr_t)number;
    while (!HLSEG_LOAD(&is_over) && !(is_race && step == RACE)) {
        if (self != IDLE) {
            work(++step);
        }
        if (self >= IDLE || (!is_race && step % BURST == 0)) {
            usleep(5000);
        }
    }
    return NULL;
}

static void *drain(void *unused) {
    unsigned at;
    while (!HLSEG_LOAD(&is_over)) {
        for (at = 0; has_ticks && at < THREADS; at++) {
            hlseg_tick(&trace, at);
        }
        hlseg_drain(&trace);
        usleep(1000 * milliseconds);
    }
    return unused;
}

static void write_out(void *file, const void *bytes, size_t length) {
    demand(write(*(int *)file, bytes, length) == (ssize_t)length, "the bundle can't be written");
}

static void begin(int *file, const char *bundle, const char *of_counts) {
    struct hlseg_settings settings = {1, THREADS, 100, 65536, 7, write_out, NULL};
    int shared = open(of_counts, O_RDWR | O_CREAT, 0600);
    *file = open(bundle, O_WRONLY | O_CREAT | O_TRUNC, 0600);
    demand(*file >= 0 && shared >= 0 && !ftruncate(shared, THREADS * 8), "the files can't be opened");
    counts = mmap(NULL, THREADS * 8, PROT_READ | PROT_WRITE, MAP_SHARED, shared, 0);
    demand(counts != MAP_FAILED, "the counts can't be mapped");
    settings.context = file;
    demand(hlseg_begin(&trace, &settings, malloc(hlseg_size(&settings))), "the settings were refused");
}

int main(int words, char **word) {
    pthread_t threads[THREADS + 1];
    uintptr_t at;
    int file;
    demand(words == 5, "it takes four arguments");
    has_ticks = !strcmp(word[1], "ticks");
    is_race = !strcmp(word[1], "race");
    milliseconds = (unsigned)atoi(word[2]);
    begin(&file, word[3], word[4]);
    puts("begun");
    fflush(stdout);
    for (at = 0; at < THREADS; at++) {
        pthread_create(&threads[at], NULL, run, (void *)at);
    }
    pthread_create(&threads[at], NULL, drain, NULL);
    while (getchar() != EOF) {
    }
    HLSEG_STORE(&is_over, 1);
    for (at = 0; at <= THREADS; at++) {
        pthread_join(threads[at], NULL);
    }
    hlseg_flush(&trace);
    free(trace.rings);
    return 0;
}

/* Threads that open, close and refer at once, and record it with tools/hlseg.h. The bundle goes to a file. Standard output says how many
   segments and events were lost, and has a line `handle thread` for each handle of process 4 that is open at the end.

     hlseg VERSION SEGMENTS SEGMENT_BYTES DRAINS BUNDLE

   DRAINS says who drains: `thread`, one of its own while events come; `ticks`, this one, and one more ticks all the time; `filler`, the
   thread that filled a segment; or `nobody` before the end. */
#define _DEFAULT_SOURCE
#include <pthread.h>
#include <stdio.h>
#include <stdlib.h>
#include <string.h>
#include <unistd.h>

enum { THREADS = 8, USED_PROCESSORS = 4, PROCESSORS = 5, ROUNDS = 4000, LEAKS_EACH = 500, HANDLES = 4096, DEEP = 100 };
#define OBJECT 0xffffa00000001000u

static pthread_key_t thread_key;
#define HLSEG_PROCESSOR() (*(const unsigned *)pthread_getspecific(thread_key) % USED_PROCESSORS)
#include "../tools/hlseg.h"

static struct hlseg_trace trace;
static int filler_drains;
static uint64_t lost;
static pthread_mutex_t table_lock = PTHREAD_MUTEX_INITIALIZER, drain_lock = PTHREAD_MUTEX_INITIALIZER;
static int is_taken[HANDLES];
static unsigned owner[HANDLES], is_over;

static void demand(int holds, const char *what) {
    if (!holds) {
        fprintf(stderr, "hlseg.c: %s\n", what);
        exit(1);
    }
}

static void *address(uintptr_t number) {
    return (void *)number;
}

/* The least handle that isn't open: so that handles are given out again at once, to any thread. */
static uint32_t give_out(unsigned thread) {
    uint32_t at = 1;
    pthread_mutex_lock(&table_lock);
    while (is_taken[at]) {
        at++;
    }
    is_taken[at] = 1;
    owner[at] = thread;
    pthread_mutex_unlock(&table_lock);
    return 4 * at;
}

static void give_back(uint32_t handle) {
    pthread_mutex_lock(&table_lock);
    is_taken[handle / 4] = 0;
    pthread_mutex_unlock(&table_lock);
}

/* Counts a segment that was lost, and drains. A thread that waits to drain fills no other segment: so no ring of four is ever full. */
static void added(int how) {
    demand(how != HLSEG_REFUSED, "an event was refused");
    if (how == HLSEG_LOST) {
        HLSEG_NEXT(&lost);
    }
    if (how != HLSEG_ADDED && filler_drains) {
        pthread_mutex_lock(&drain_lock);
        hlseg_drain(&trace);
        pthread_mutex_unlock(&drain_lock);
    }
}

/* Handles of the process that all threads share, and references of one object. */
static void share(unsigned thread) {
    void *frames[] = {address(0x1000 + thread), address(0x2000)};
    struct hlseg_origin origin = {4, thread, frames, 2};
    int round;
    for (round = 1; round <= ROUNDS; round++) {
        uint32_t handle = give_out(thread);
        added(hlseg_open(&trace, &origin, handle));
        added(hlseg_reference(&trace, &origin, OBJECT, "Copy"));
        if (round % LEAKS_EACH) {
            added(hlseg_dereference(&trace, &origin, OBJECT, "Copy"));
            added(hlseg_close(&trace, &origin, handle));
            give_back(handle);
        }
    }
}

/* A process of the thread's own: two handles, a snapshot, one more handle, two bad references, and an exit of each second one
   where the version has exits. */
static void live(unsigned thread) {
    struct hlseg_origin origin = {100 + thread, thread, NULL, 0};
    added(hlseg_open(&trace, &origin, 4));
    added(hlseg_open(&trace, &origin, 8));
    added(hlseg_snapshot(&trace, &origin));
    added(hlseg_open(&trace, &origin, 12));
    added(hlseg_close(&trace, &origin, 4));
    added(hlseg_bad(&trace, &origin, 4));
    added(hlseg_bad(&trace, &origin, 0));
    if (thread % 2 && trace.settings.version == 2) {
        added(hlseg_exit(&trace, &origin));
    }
}

static void *run(void *thread) {
    pthread_setspecific(thread_key, thread);
    share(*(unsigned *)thread);
    live(*(unsigned *)thread);
    return NULL;
}

static void *drain(void *unused) {
    while (!HLSEG_LOAD(&is_over)) {
        hlseg_drain(&trace);
    }
    return unused;
}

static void *tick(void *unused) {
    unsigned thread = 0, at;
    pthread_setspecific(thread_key, &thread);
    while (!HLSEG_LOAD(&is_over)) {
        for (at = 0; at < PROCESSORS; at++) {
            hlseg_tick(&trace, at);
        }
        usleep(200);
    }
    return unused;
}

static void write_out(void *file, const void *bytes, size_t length) {
    demand(fwrite(bytes, 1, length, file) == length, "the bundle can't be written");
}

static void count_segment(void *segments, const void *bytes, size_t length) {
    demand(bytes && length >= HLSEG_HEADER_BYTES, "a segment without its header was handed out");
    ++*(unsigned *)segments;
}

/* A segment that is full at the flush is handed out, and a tick behind it. Of ticks that nobody drains one waits. */
static void demand_ticks(const struct hlseg_origin *deep) {
    unsigned segments = 0;
    struct hlseg_settings settings = {2, 1, 3, hlseg_least_bytes(2), 7, count_segment, NULL};
    struct hlseg_trace small;
    void *memory = malloc(hlseg_size(&settings));
    settings.context = &segments;
    demand(hlseg_begin(&small, &settings, memory), "the least settings were refused");
    demand(hlseg_open(&small, deep, 4) == HLSEG_ADDED, "an event that fills a segment was refused");
    hlseg_flush(&small);
    demand(segments == 2 && small.sequence == 2, "a full segment has no tick behind it");
    demand(hlseg_tick(&small, 0) && !hlseg_tick(&small, 0), "two ticks wait");
    demand(hlseg_open(&small, deep, 4) == HLSEG_ADDED && hlseg_open(&small, deep, 8) == HLSEG_FILLED, "ticks fill a ring");
    demand(hlseg_open(&small, deep, 12) == HLSEG_LOST && hlseg_lost_events(&small) == 1, "an event too many was not lost");
    free(memory);
}

/* What the format has not is refused and leaves no event, and a deep stack is cut. */
static void record_limits(void) {
    unsigned thread = 0, at;
    void *frames[DEEP];
    struct hlseg_origin origin = {99, 0, frames, DEEP};
    pthread_setspecific(thread_key, &thread);
    for (at = 0; at < DEEP; at++) {
        frames[at] = address(0x5000 + at);
    }
    demand(hlseg_open(&trace, &origin, 3) == HLSEG_REFUSED, "handle 3 was not refused");
    demand(hlseg_close(&trace, &origin, 0) == HLSEG_REFUSED, "handle 0 was not refused");
    demand(hlseg_reference(&trace, &origin, 0, "Copy") == HLSEG_REFUSED, "object 0 was not refused");
    demand(hlseg_add(&trace, 8, &origin, 4, 0, NULL) == HLSEG_REFUSED, "kind 8 was not refused");
    demand((hlseg_exit(&trace, &origin) == HLSEG_REFUSED) == (trace.settings.version == 1), "an exit was not as the version has it");
    demand(trace.sequence == trace.settings.version - 1, "a refused event took a sequence");
    demand(hlseg_open(&trace, &origin, 0x44) == HLSEG_ADDED, "a deep stack was refused");
    demand_ticks(&origin);
}

/* Settings that ask for more bytes than there are addresses have no size, also where the product would be small or the sum would. */
static void demand_no_overflow(const struct hlseg_settings *settings) {
    static const size_t bytes[] = {SIZE_MAX, SIZE_MAX - 7, SIZE_MAX - 8, SIZE_MAX / 2 + 1, SIZE_MAX / UINT32_MAX + 2};
    struct hlseg_settings huge = *settings;
    unsigned at;
    for (at = 0; at < sizeof bytes / sizeof *bytes; at++) {
        huge.segments = at < 3 ? 2 : UINT32_MAX;
        huge.segment_bytes = bytes[at];
        if (huge.segment_bytes > hlseg_least_bytes(huge.version)) {
            demand(!hlseg_size(&huge), "more bytes than there are addresses were taken");
        }
    }
}

static void begin(const struct hlseg_settings *settings) {
    struct hlseg_settings wrong = *settings;
    demand(hlseg_begin(&trace, settings, malloc(hlseg_size(settings))), "the settings were refused");
    wrong.segment_bytes = hlseg_least_bytes(wrong.version) - 1;
    demand(!hlseg_size(&wrong), "segments without room for one event were taken");
    wrong = *settings;
    wrong.version = 3;
    demand(!hlseg_size(&wrong), "version 3 was taken");
    wrong = *settings;
    wrong.processors = wrong.version == 1 ? 65 : 257;
    demand(!hlseg_size(&wrong), "too many processors were taken");
    demand_no_overflow(settings);
}

int main(int count, char **words) {
    struct hlseg_settings settings = {0, PROCESSORS, 0, 0, 7, write_out, NULL};
    pthread_t threads[THREADS], drainer = 0, ticker = 0;
    unsigned numbers[THREADS], at;
    int thread_drains, thread_ticks;
    demand(count == 6, "it takes five arguments");
    settings.version = (unsigned)atoi(words[1]);
    settings.segments = (unsigned)atoi(words[2]);
    settings.segment_bytes = *words[3] == 'm' ? hlseg_most_bytes(settings.version) : (size_t)atoi(words[3]);
    thread_ticks = !strcmp(words[4], "ticks");
    thread_drains = thread_ticks || !strcmp(words[4], "thread");
    filler_drains = !strcmp(words[4], "filler");
    settings.context = fopen(words[5], "wb");
    demand(settings.context != NULL, "the bundle can't be opened");
    pthread_key_create(&thread_key, NULL);
    begin(&settings);
    record_limits();
    if (thread_drains) {
        pthread_create(&drainer, NULL, drain, NULL);
    }
    if (thread_ticks) {
        pthread_create(&ticker, NULL, tick, NULL);
    }
    for (at = 0; at < THREADS; at++) {
        numbers[at] = at;
        pthread_create(&threads[at], NULL, run, &numbers[at]);
    }
    for (at = 0; at < THREADS; at++) {
        pthread_join(threads[at], NULL);
    }
    HLSEG_STORE(&is_over, 1);
    if (thread_drains) {
        pthread_join(drainer, NULL);
    }
    if (thread_ticks) {
        pthread_join(ticker, NULL);
    }
    hlseg_flush(&trace);
    demand(hlseg_lost_segments(&trace) == lost, "not as many segments were lost as calls said");
    demand(fclose(settings.context) == 0, "the bundle can't be written");
    printf("%u %u\n", (unsigned)lost, (unsigned)hlseg_lost_events(&trace));
    for (at = 0; at < HANDLES; at++) {
        if (is_taken[at]) {
            printf("0x%x %u\n", 4 * at, owner[at]);
        }
    }
    free(trace.rings);
    return 0;
}

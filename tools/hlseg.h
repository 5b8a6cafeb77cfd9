/* Writes segments of the format HLS1 (docs/FORMAT.md) from a driver or a program. C99 or C++, one header, nothing to link.
 *
 * Each processor has a ring of segments in memory that the caller gives. An event is one call, which allocates nothing and waits for
 * nothing but the ring of its processor. A segment that is full waits in its ring until hlseg_drain hands it to a callback. Where
 * the whole ring waits, the segment that becomes full next is lost with all its events: its number is missing then, `hleak summary`
 * shows the gap, and hlseg_lost_segments and hlseg_lost_events count.
 *
 *   hlseg_size, hlseg_begin         how much memory a trace needs, and its start
 *   hlseg_open, hlseg_close, ..     an event: at any time, on any processor
 *   hlseg_tick                      shows how far a processor is, though it is idle: once a second for each, by any thread or timer
 *   hlseg_drain                     hands out the segments that wait: one thread at a time
 *   hlseg_flush                     hands out all events so far: in that thread, at the end
 *
 * The segment that is written is whole after each event, too. So after a crash tools/recover finds all events that were not handed out yet
 * in a dump of the memory.
 *
 * samples/driver.c is an example, and samples/driver-windows.c one of a driver of Windows. A driver that includes <ntddk.h> or <wdm.h>
 * before this header, and a program for GCC, Clang or Microsoft's compiler, need no macros. Others define these:
 *
 *   HLSEG_STATE                     the type of what HLSEG_ENTER saves
 *   HLSEG_ENTER(trace, state)       enters, and gives this processor's number. Until HLSEG_LEAVE nothing else that records an event may
 *                                   run on this processor. Where the trace has fewer processors, several share a ring, and its lock
 *   HLSEG_LEAVE(trace, at, state)   leaves processor `at`
 *   HLSEG_NEXT(counter)             adds 1 to a uint64_t in one interlocked step, a full barrier, and gives the sum
 *   HLSEG_SWAP(place, value)        writes a uint32_t and gives what it was, in one interlocked step, and nothing after it is done before it
 *   HLSEG_LOAD(place)               reads a uint32_t, and nothing after it is done before it (acquire)
 *   HLSEG_STORE(place, value)       writes a uint32_t, and nothing before it is done after it (release)
 *
 * A driver of Windows runs at HLSEG_LEVEL meanwhile. It is DISPATCH_LEVEL, which keeps off threads and DPCs; where interrupt handlers
 * record events too, define it as HIGH_LEVEL. On 32-bit machines without an instruction for HLSEG_NEXT, GCC and Clang need -latomic.
 */
#ifndef HLSEG_H
#define HLSEG_H

#include <stddef.h>
#include <stdint.h>
#include <string.h>

#define HLSEG_MOST_EVENTS 4096
#define HLSEG_HEADER_BYTES 32
#define HLSEG_LINE 128 /* what one processor writes stands so many bytes apart from what others write: two lines of a cache */

/* What an event's call gives back. */
#define HLSEG_ADDED 0   /* the event is in a segment */
#define HLSEG_FILLED 1  /* so it is, and a segment became full: have hlseg_drain called */
#define HLSEG_LOST 2    /* so it is, but the ring was full, and the segment before was lost */
#define HLSEG_REFUSED 3 /* the format has no such event */

enum hlseg_kind { HLSEG_OPEN = 1, HLSEG_CLOSE, HLSEG_BAD, HLSEG_SNAPSHOT, HLSEG_REFERENCE, HLSEG_DEREFERENCE, HLSEG_EXIT };

struct hlseg_settings {
    unsigned version;     /* 1; or 2, for up to 256 processors, 64 frames and process exits */
    unsigned processors;  /* as many as the machine can have; or fewer, and then processor n has the ring n % processors */
    unsigned segments;    /* in the ring of each processor, at least 2 */
    size_t segment_bytes; /* of each, at least hlseg_least_bytes(version). With hlseg_most_bytes(version) all end at 4,096 events */
    uint64_t trace_id;    /* a number that no other trace is likely to have, as the time of the start */
    void (*take)(void *context, const void *bytes, size_t length); /* gets each segment, called by hlseg_drain and hlseg_flush */
    void *context;
};

/* What the event's thread and process are, and the stack of the call that made it, the innermost call first. */
struct hlseg_origin {
    uint32_t process, thread;
    void *const *frames;
    size_t depth;
};

/* The ring of a processor. Segment `filled` is written, and those from `taken` up to it wait. Both count without end. */
struct hlseg_ring {
    uint32_t lock;
    uint32_t number, events, length; /* of the segment that is written */
    unsigned char *segment, *segments; /* this one, and the first in memory */
    unsigned char line_of_writers[HLSEG_LINE];
    uint32_t filled, taken;
    uint32_t lost_segments, lost_events;
    unsigned char line_of_drain[HLSEG_LINE];
};

#ifdef __GNUC__
#define HLSEG_COUNTER __attribute__((aligned(8))) uint64_t
#else
#define HLSEG_COUNTER uint64_t
#endif

struct hlseg_trace {
    struct hlseg_settings settings;
    struct hlseg_ring *rings;
    unsigned char line_before[HLSEG_LINE];
    HLSEG_COUNTER sequence;
    unsigned char line_behind[HLSEG_LINE];
};

#ifdef _MSC_VER
#ifndef _WDMDDK_
#include <windows.h>
#endif
#ifndef HLSEG_NEXT
#define HLSEG_NEXT(counter) ((uint64_t)InterlockedIncrement64((volatile LONG64 *)(counter)))
#endif
#ifndef HLSEG_SWAP
#define HLSEG_SWAP(place, value) ((uint32_t)InterlockedExchange((volatile LONG *)(place), (LONG)(value)))
#endif
#ifndef HLSEG_LOAD
#define HLSEG_LOAD(place) ((uint32_t)ReadULongAcquire((volatile ULONG *)(place)))
#define HLSEG_STORE(place, value) WriteULongRelease((volatile ULONG *)(place), (value))
#endif
#else
#ifndef HLSEG_NEXT
#define HLSEG_NEXT(counter) __atomic_add_fetch((counter), 1, __ATOMIC_SEQ_CST)
#endif
#ifndef HLSEG_SWAP
#define HLSEG_SWAP(place, value) __atomic_exchange_n((place), (value), __ATOMIC_ACQUIRE)
#endif
#ifndef HLSEG_LOAD
#define HLSEG_LOAD(place) __atomic_load_n((place), __ATOMIC_ACQUIRE)
#define HLSEG_STORE(place, value) __atomic_store_n((place), (value), __ATOMIC_RELEASE)
#endif
#endif

#ifndef HLSEG_ENTER
#ifdef _WDMDDK_
#ifndef HLSEG_LEVEL
#define HLSEG_LEVEL DISPATCH_LEVEL
#endif
#define HLSEG_STATE KIRQL
#define HLSEG_ENTER(trace, state) (KeRaiseIrql(HLSEG_LEVEL, &(state)), KeGetCurrentProcessorNumberEx(NULL))
#define HLSEG_LEAVE(trace, at, state) ((void)(at), KeLowerIrql(state))
#else
/* In a program the lock of a ring is all. Which ring a thread takes is a matter of speed alone: the program can define
 * HLSEG_PROCESSOR() as sched_getcpu(), GetCurrentProcessorNumber(), or a number that each thread has. A signal handler can't record
 * events so. */
#ifndef HLSEG_PROCESSOR
#define HLSEG_PROCESSOR() 0
#endif
#define HLSEG_STATE int
#define HLSEG_ENTER(trace, state) ((state) = 0, (unsigned)HLSEG_PROCESSOR())
#define HLSEG_LEAVE(trace, at, state) ((void)(at), (void)(state))
#endif
#endif

/* Whether memory has numbers as the format does, the lowest byte first. With HLSEG_PORTABLE no use is made of it. */
#if !defined(HLSEG_PORTABLE) && (defined(_MSC_VER) || (defined(__BYTE_ORDER__) && __BYTE_ORDER__ == __ORDER_LITTLE_ENDIAN__))
#define HLSEG_LITTLE_ENDIAN 1
#else
#define HLSEG_LITTLE_ENDIAN 0
#endif

static inline unsigned hlseg_most_frames(unsigned version) {
    return version == 1 ? 32 : 64;
}

/* A record and its frames. */
static inline size_t hlseg_record_bytes(size_t depth) {
    return 36 + 8 * depth;
}

static inline size_t hlseg_least_bytes(unsigned version) {
    return HLSEG_HEADER_BYTES + hlseg_record_bytes(hlseg_most_frames(version));
}

static inline size_t hlseg_most_bytes(unsigned version) {
    return HLSEG_HEADER_BYTES + HLSEG_MOST_EVENTS * hlseg_record_bytes(hlseg_most_frames(version));
}

/* The bytes from one segment of a ring to the next, so that a header's numbers are aligned. */
static inline size_t hlseg_stride(const struct hlseg_settings *its) {
    return (its->segment_bytes + 7) / 8 * 8;
}

/* The bytes of memory that a trace needs, or 0 where the settings break a rule or ask for more than there are addresses. */
static inline size_t hlseg_size(const struct hlseg_settings *its) {
    const size_t aside = sizeof(struct hlseg_ring) + HLSEG_LINE;
    size_t most;
    if ((its->version != 1 && its->version != 2) || its->processors < 1 || its->processors > (its->version == 1 ? 64 : 256) ||
        its->segments < 2 || its->segment_bytes < hlseg_least_bytes(its->version) || !its->take) {
        return 0;
    }
    most = SIZE_MAX / its->processors - aside; /* of the segments of a ring */
    if (its->segment_bytes > most || its->segments > most / hlseg_stride(its)) {
        return 0;
    }
    return its->processors * (aside + its->segments * hlseg_stride(its));
}

/* Writes so many bytes of a number, the lowest first, and gives the place behind them. */
static inline unsigned char *hlseg_put(unsigned char *to, unsigned count, uint64_t number) {
#if HLSEG_LITTLE_ENDIAN
    memcpy(to, &number, count);
#else
    unsigned at;
    for (at = 0; at < count; at++) {
        to[at] = (unsigned char)(number >> (8 * at));
    }
#endif
    return to + count;
}

static inline void hlseg_put_frames(unsigned char *to, void *const *frames, size_t depth) {
    size_t at;
    for (at = 0; at < depth; at++) {
        to = hlseg_put(to, 8, (uint64_t)(uintptr_t)frames[at]);
    }
}

/* Writes a number of a segment's header in one step, after all that was written before. */
static inline void hlseg_publish(unsigned char *segment, unsigned offset, uint32_t number) {
    uint32_t little;
    hlseg_put((unsigned char *)&little, 4, number);
    HLSEG_STORE((uint32_t *)(void *)(segment + offset), little);
}

static inline unsigned char *hlseg_segment(const struct hlseg_trace *trace, const struct hlseg_ring *ring, uint32_t count) {
    return ring->segments + count % trace->settings.segments * hlseg_stride(&trace->settings);
}

/* Begins the segment that is written next. While its number changes it has no length that a segment can have. */
static inline void hlseg_start(const struct hlseg_trace *trace, struct hlseg_ring *ring) {
    ring->segment = hlseg_segment(trace, ring, ring->filled);
    ring->events = 0;
    ring->length = HLSEG_HEADER_BYTES;
    hlseg_publish(ring->segment, 28, 0);
    hlseg_publish(ring->segment, 12, ring->number);
    hlseg_publish(ring->segment, 24, 0);
    hlseg_publish(ring->segment, 28, ring->length);
}

/* What the headers of a ring's segments have in common. */
static inline void hlseg_put_headers(const struct hlseg_trace *trace, const struct hlseg_ring *ring, unsigned processor) {
    unsigned at;
    for (at = 0; at < trace->settings.segments; at++) {
        unsigned char *to = hlseg_segment(trace, ring, at);
        to = hlseg_put(to, 4, 0x31534C48); /* HLS1 */
        to = hlseg_put(to, 2, trace->settings.version);
        to = hlseg_put(to, 2, trace->settings.processors);
        to = hlseg_put(to, 4, processor); /* and the reserved field */
        to = hlseg_put(to, 4, 0);
        to = hlseg_put(to, 8, trace->settings.trace_id);
        hlseg_put(to, 8, 0); /* the length of no segment, until one is started */
    }
}

/* Begins a trace in so much memory as hlseg_size says, aligned as for a pointer and a uint64_t. 0 where the settings break a rule. */
static inline int hlseg_begin(struct hlseg_trace *trace, const struct hlseg_settings *settings, void *memory) {
    unsigned char *segments;
    unsigned at;
    if (!hlseg_size(settings) || !memory) {
        return 0;
    }
    trace->settings = *settings;
    trace->rings = (struct hlseg_ring *)memory;
    trace->sequence = 0;
    segments = (unsigned char *)(trace->rings + settings->processors);
    for (at = 0; at < settings->processors; at++) {
        struct hlseg_ring *ring = &trace->rings[at];
        memset(ring, 0, sizeof *ring);
        ring->segments = segments;
        hlseg_put_headers(trace, ring, at);
        hlseg_start(trace, ring);
        segments += settings->segments * hlseg_stride(settings) + HLSEG_LINE;
    }
    return 1;
}

/* The ring of a processor, once no other thread or processor has it. */
static inline struct hlseg_ring *hlseg_lock(struct hlseg_trace *trace, unsigned processor) {
    struct hlseg_ring *ring = &trace->rings[processor % trace->settings.processors];
    while (HLSEG_SWAP(&ring->lock, 1)) {
        while (HLSEG_LOAD(&ring->lock)) {
        }
    }
    return ring;
}

static inline void hlseg_unlock(struct hlseg_ring *ring) {
    HLSEG_STORE(&ring->lock, 0);
}

/* Whether the segment that is written has room for one more event. */
static inline int hlseg_has_room(const struct hlseg_trace *trace, const struct hlseg_ring *ring, size_t depth) {
    return ring->events < HLSEG_MOST_EVENTS && hlseg_record_bytes(depth) <= trace->settings.segment_bytes - ring->length;
}

/* Whether the segment that is written can wait: another of the ring is free, and a number is left for it. */
static inline int hlseg_can_end(const struct hlseg_trace *trace, const struct hlseg_ring *ring) {
    return ring->number != UINT32_MAX && ring->filled + 1 - HLSEG_LOAD(&ring->taken) < trace->settings.segments;
}

/* Ends the segment that is written, and begins the next: in its place where it is lost. */
static inline int hlseg_end(const struct hlseg_trace *trace, struct hlseg_ring *ring) {
    int is_kept = hlseg_can_end(trace, ring);
    if (is_kept) {
        HLSEG_STORE(&ring->filled, ring->filled + 1);
    } else {
        HLSEG_STORE(&ring->lost_segments, ring->lost_segments + 1);
        HLSEG_STORE(&ring->lost_events, ring->lost_events + ring->events);
    }
    ring->number += ring->number != UINT32_MAX;
    hlseg_start(trace, ring);
    return is_kept ? HLSEG_FILLED : HLSEG_LOST;
}

/* Whether the format has such an event. */
static inline int hlseg_is_valid(const struct hlseg_trace *trace, int kind, uint32_t handle, uint64_t object) {
    if (kind == HLSEG_OPEN || kind == HLSEG_CLOSE) {
        return handle >= 4;
    }
    if (kind == HLSEG_REFERENCE || kind == HLSEG_DEREFERENCE) {
        return object != 0;
    }
    return kind == HLSEG_BAD || kind == HLSEG_SNAPSHOT || (kind == HLSEG_EXIT && trace->settings.version == 2);
}

/* Writes an event into the ring's segment, which has room for it, and then the header's count and length. A tag stands in the order of
 * its letters. */
static inline void hlseg_write(struct hlseg_trace *trace, struct hlseg_ring *ring, int kind, const struct hlseg_origin *origin,
                               size_t depth, uint32_t handle, uint64_t object, const char *tag) {
    unsigned char *to = ring->segment + ring->length;
    size_t at;
    to = hlseg_put(to, 8, HLSEG_NEXT(&trace->sequence));
    to = hlseg_put(to, 4, (uint64_t)kind | (uint64_t)depth << 8); /* and the reserved field */
    to = hlseg_put(to, 4, origin->process);
    to = hlseg_put(to, 4, origin->thread);
    to = hlseg_put(to, 4, handle);
    to = hlseg_put(to, 8, object);
    for (at = 0; at < 4; at++) {
        to = hlseg_put(to, 1, tag ? (unsigned char)tag[at] : 0);
    }
    hlseg_put_frames(to, origin->frames, depth);
    ring->events++;
    ring->length += (uint32_t)hlseg_record_bytes(depth);
    hlseg_publish(ring->segment, 24, ring->events);
    hlseg_publish(ring->segment, 28, ring->length);
}

/* Records an event. A stack that is deeper than the version allows is cut at its outermost end. */
static inline int hlseg_add(struct hlseg_trace *trace, int kind, const struct hlseg_origin *origin, uint32_t handle, uint64_t object,
                            const char *tag) {
    size_t most = hlseg_most_frames(trace->settings.version), depth = origin->depth < most ? origin->depth : most;
    int added = HLSEG_ADDED;
    struct hlseg_ring *ring;
    HLSEG_STATE state;
    unsigned at;
    if (!hlseg_is_valid(trace, kind, handle, object)) {
        return HLSEG_REFUSED;
    }
    at = HLSEG_ENTER(trace, state);
    ring = hlseg_lock(trace, at);
    if (!hlseg_has_room(trace, ring, depth)) {
        added = hlseg_end(trace, ring);
    }
    hlseg_write(trace, ring, kind, origin, depth, handle, object, tag);
    hlseg_unlock(ring);
    HLSEG_LEAVE(trace, at, state);
    return added;
}

/* A handle was opened: call it once the handle is there. Of a HANDLE of 64 bits the lower 32 are all: (uint32_t)(uintptr_t)handle. */
static inline int hlseg_open(struct hlseg_trace *trace, const struct hlseg_origin *origin, uint32_t handle) {
    return hlseg_add(trace, HLSEG_OPEN, origin, handle, 0, NULL);
}

/* A handle is going to be closed: call it before the handle can be given out again. */
static inline int hlseg_close(struct hlseg_trace *trace, const struct hlseg_origin *origin, uint32_t handle) {
    return hlseg_add(trace, HLSEG_CLOSE, origin, handle, 0, NULL);
}

/* A handle was used or closed that isn't open. */
static inline int hlseg_bad(struct hlseg_trace *trace, const struct hlseg_origin *origin, uint32_t handle) {
    return hlseg_add(trace, HLSEG_BAD, origin, handle, 0, NULL);
}

/* From here on `hleak diff` counts the handles that the process opens. */
static inline int hlseg_snapshot(struct hlseg_trace *trace, const struct hlseg_origin *origin) {
    return hlseg_add(trace, HLSEG_SNAPSHOT, origin, 0, 0, NULL);
}

/* An object was referenced or dereferenced under a tag of four letters. One that is a ULONG is given as (const char *)&tag. */
static inline int hlseg_reference(struct hlseg_trace *trace, const struct hlseg_origin *origin, uint64_t object, const char *tag) {
    return hlseg_add(trace, HLSEG_REFERENCE, origin, 0, object, tag);
}

static inline int hlseg_dereference(struct hlseg_trace *trace, const struct hlseg_origin *origin, uint64_t object, const char *tag) {
    return hlseg_add(trace, HLSEG_DEREFERENCE, origin, 0, object, tag);
}

/* The process ended, and all its handles were closed. In version 2 alone. */
static inline int hlseg_exit(struct hlseg_trace *trace, const struct hlseg_origin *origin) {
    return hlseg_add(trace, HLSEG_EXIT, origin, 0, 0, NULL);
}

/* Records a tick, a snapshot of process 0, in the ring of a processor, and has its segment wait to be drained. Any thread may do so, for
 * any processor of the settings. Where a segment waits already or has no room, there is no tick, and the call gives 0: so ticks never
 * fill a ring. */
static inline int hlseg_tick(struct hlseg_trace *trace, unsigned processor) {
    struct hlseg_origin nobody = {0, 0, NULL, 0};
    HLSEG_STATE state;
    unsigned at = HLSEG_ENTER(trace, state);
    struct hlseg_ring *ring = hlseg_lock(trace, processor);
    int can_end = hlseg_can_end(trace, ring) && ring->filled == HLSEG_LOAD(&ring->taken);
    int has_room = hlseg_has_room(trace, ring, 0);
    if (can_end && has_room) {
        hlseg_write(trace, ring, HLSEG_SNAPSHOT, &nobody, 0, 0, 0, NULL);
    }
    if (can_end) {
        hlseg_end(trace, ring);
    }
    hlseg_unlock(ring);
    HLSEG_LEAVE(trace, at, state);
    return can_end && has_room;
}

/* Hands each segment that waits to the callback, and frees its place in the ring. One thread may do so at a time, while events come. */
static inline void hlseg_drain(struct hlseg_trace *trace) {
    unsigned at;
    for (at = 0; at < trace->settings.processors; at++) {
        struct hlseg_ring *ring = &trace->rings[at];
        while (ring->taken != HLSEG_LOAD(&ring->filled)) {
            const unsigned char *segment = hlseg_segment(trace, ring, ring->taken);
            size_t length = segment[28] | (size_t)segment[29] << 8 | (size_t)segment[30] << 16 | (size_t)segment[31] << 24;
            trace->settings.take(trace->settings.context, segment, length);
            HLSEG_STORE(&ring->taken, ring->taken + 1);
        }
    }
}

/* Hands out all events so far, with a tick of each processor behind them. Events may come meanwhile. */
static inline void hlseg_flush(struct hlseg_trace *trace) {
    unsigned at;
    for (at = 0; at < trace->settings.processors; at++) {
        hlseg_drain(trace);
        if (!hlseg_tick(trace, at)) { /* its segment had no room, and the next one has */
            hlseg_drain(trace);
            hlseg_tick(trace, at);
        }
    }
    hlseg_drain(trace);
}

/* How many segments were lost so far, since their rings were full. */
static inline uint64_t hlseg_lost_segments(const struct hlseg_trace *trace) {
    uint64_t lost = 0;
    unsigned at;
    for (at = 0; at < trace->settings.processors; at++) {
        lost += HLSEG_LOAD(&trace->rings[at].lost_segments);
    }
    return lost;
}

/* How many events these had; of each ring modulo 2^32. */
static inline uint64_t hlseg_lost_events(const struct hlseg_trace *trace) {
    uint64_t lost = 0;
    unsigned at;
    for (at = 0; at < trace->settings.processors; at++) {
        lost += HLSEG_LOAD(&trace->rings[at].lost_events);
    }
    return lost;
}

#endif

/* A thread for each object and for each source: PROGRAM TRACE [jitter]. Objects start one after another; the run ends where all sources
 * are done and all queues empty, or at an assertion; then what was recorded is written. With `jitter` threads meet more often. */
#include <pthread.h>
#include <sched.h>
#include <stdio.h>
#include <stdlib.h>
#include <time.h>

#include "stimuli.h"

enum { OBJECTS = 32, SOURCES = 16, PIECE = 4096, BYTES = 1 << 20, SETTLE_NS = 20000 };

__thread uint8_t threads_who;

static pthread_mutex_t l_section = PTHREAD_MUTEX_INITIALIZER;
static pthread_cond_t l_more[OBJECTS], l_moved = PTHREAD_COND_INITIALIZER;
static int l_is_waiting[OBJECTS], l_is_stopped, l_is_starting = 1, l_has_jitter;
static char const *l_trace;
static uint8_t l_bytes[QPR_BUFFERS][BYTES];

/* ---- the critical section ------------------------------------------------------------------------------------------------ */

static void jitter(void) {
    static __thread uint32_t state;
    if (state == 0) {
        struct timespec now;
        clock_gettime(CLOCK_MONOTONIC, &now);
        state = ((uint32_t)now.tv_nsec ^ (uint32_t)(uintptr_t)&state) | 1u;
    }
    state = state * 1664525u + 1013904223u;
    if (state >> 24 < 64u) sched_yield();
}
void threads_enter(void) { pthread_mutex_lock(&l_section); }
void threads_leave(void) {
    pthread_mutex_unlock(&l_section);
    if (l_has_jitter) jitter();
}
void threads_wake(unsigned o) { pthread_cond_signal(&l_more[o]); }

static void stop(void) {
    l_is_stopped = 1;
    for (unsigned o = 0; o < stimuli_object_count; ++o) pthread_cond_broadcast(&l_more[o]);
    pthread_cond_broadcast(&l_moved);
}

/* ---- what was recorded --------------------------------------------------------------------------------------------------- */

#ifndef QPB_CLOSE
#define QPB_CLOSE(who) ((void)(who)) /* qpr_close, where the recorder's pieces tell that a run has ended */
#endif

static void open_buffer(unsigned who) { qpr_open((uint8_t)who, l_bytes[who], BYTES); }
static void open_buffers(void) {
    if (QPR_BUFFERS == 1) {
        open_buffer(0);
        return;
    }
    for (unsigned o = 0; o < stimuli_object_count; ++o) open_buffer(QPR_OBJECT(qpb_objects[o].prio));
    for (unsigned i = 1; i <= stimuli_source_count; ++i) open_buffer(QPR_SOURCE(i));
}
static int write_trace(void) {
    static uint8_t piece[PIECE];
    FILE *const out = fopen(l_trace, "wb");
    int is_written = out != NULL;
    for (unsigned who = 0; is_written && who < QPR_BUFFERS; ++who) {
        if (qpr.buffers[who].size == 0) continue;
        QPB_CLOSE((uint8_t)who);
        for (uint32_t n; is_written && (n = qpr_take((uint8_t)who, piece, sizeof piece)) != 0;) {
            is_written = fwrite(piece, 1, n, out) == n;
        }
    }
    if (out == NULL || fclose(out) != 0 || !is_written) {
        fprintf(stderr, "%s: can't be written\n", l_trace);
        return 7;
    }
    return 0;
}

/* ---- what the interpreter calls ------------------------------------------------------------------------------------------ */

void qpb_on_say(unsigned o, qpb_int value) {
    (void)o;
    (void)value;
}
/* Its record stands already: this thread ends, and the others before their next step. */
void qpb_on_assert(unsigned code, unsigned where) {
    (void)where;
    if (code == QPB_ASSERT_VALUE) {
        fputs("a value doesn't fit 32 bits\n", stderr);
        exit(9);
    }
    stop();
    pthread_mutex_unlock(&l_section);
    if (l_is_starting) exit(write_trace());
    pthread_exit(NULL);
}

/* ---- objects and sources ------------------------------------------------------------------------------------------------- */

static void *object(void *arg) {
    unsigned const o = (unsigned)(uintptr_t)arg;
    QPR_BY(QPR_OBJECT(qpb_objects[o].prio));
    for (;;) {
        pthread_mutex_lock(&l_section);
        l_is_waiting[o] = 1;
        pthread_cond_signal(&l_moved);
        while (!l_is_stopped && qpb_actives[o].count == 0) pthread_cond_wait(&l_more[o], &l_section);
        l_is_waiting[o] = 0;
        if (l_is_stopped) break;
        qpb_step(o);
    }
    pthread_mutex_unlock(&l_section);
    return NULL;
}
/* Waits until all queues are empty at once. */
static void settle(void) {
    struct timespec const pause = { 0, SETTLE_NS };
    threads_enter();
    while (qpb_ready && !l_is_stopped) {
        threads_leave();
        nanosleep(&pause, NULL);
        threads_enter();
    }
    if (!l_is_stopped) {
        QPR_STIM_SETTLE();
        for (unsigned o = 0; o < stimuli_object_count; ++o) QPR_SEEN(qpb_objects[o].prio);
    }
    threads_leave();
}
static int is_over(void) {
    threads_enter();
    int const is_stopped = l_is_stopped;
    threads_leave();
    return is_stopped;
}
static void *source(void *arg) {
    unsigned const i = (unsigned)(uintptr_t)arg;
    stimuli_source const *const from = &stimuli_sources[i];
    QPR_BY(QPR_SOURCE(i + 1u));
    for (unsigned k = 0; k < from->count && !is_over(); ++k) {
        if (from->items[k].kind == STIMULUS_SETTLE) settle(); else stimulus_do(i + 1u, &from->items[k]);
    }
    return NULL;
}

/* ---- a run --------------------------------------------------------------------------------------------------------------- */

static int is_quiet(void) {
    for (unsigned o = 0; o < stimuli_object_count; ++o) {
        if (!l_is_waiting[o] || qpb_actives[o].count) return 0;
    }
    return 1;
}
static void wait_until_quiet(void) {
    pthread_mutex_lock(&l_section);
    while (!l_is_stopped && !is_quiet()) pthread_cond_wait(&l_moved, &l_section);
    stop();
    pthread_mutex_unlock(&l_section);
}
int main(int argc, char **argv) {
    static pthread_t objects[OBJECTS], sources[SOURCES];
    if (argc < 2) {
        fputs("usage: PROGRAM TRACE [jitter]\n", stderr);
        return 1;
    }
    l_trace = argv[1];
    l_has_jitter = argc > 2;
    open_buffers();
    for (unsigned o = 0; o < stimuli_object_count; ++o) pthread_cond_init(&l_more[o], NULL);
    qpb_start();
    l_is_starting = 0;
    for (uintptr_t o = 0; o < stimuli_object_count; ++o) pthread_create(&objects[o], NULL, object, (void *)o);
    for (uintptr_t i = 0; i < stimuli_source_count; ++i) pthread_create(&sources[i], NULL, source, (void *)i);
    for (unsigned i = 0; i < stimuli_source_count; ++i) pthread_join(sources[i], NULL);
    wait_until_quiet();
    for (unsigned o = 0; o < stimuli_object_count; ++o) pthread_join(objects[o], NULL);
    return write_trace();
}

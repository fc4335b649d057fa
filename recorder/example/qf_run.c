/* A run: PROGRAM STIMULI TRACE [FAULT]. Objects start one after another; then each has its thread, and so has each source. It
 * ends where all sources are done and all objects wait, or at an assertion. With QF_JITTER in the environment threads meet more
 * often. With QF_AT_ONCE, and one buffer, everything stops at an assertion as on a board, in the middle of what others do. */
#include <errno.h>
#include <stdio.h>
#include <stdlib.h>
#include <time.h>

#include <sched.h>

#include "qf_pkg.h"

#ifndef QF_RECORD_BYTES
#define QF_RECORD_BYTES 0x100000 /* of each of the recorder's buffers */
#endif

#ifndef QF_PIECE
#define QF_PIECE 4096 /* the most bytes of a piece of the trace */
#endif

enum { PATIENCE = 10 /* seconds */ };

QActive *QActive_registry_[QF_MAX_ACTIVE + 1];

static pthread_mutex_t l_section = PTHREAD_MUTEX_INITIALIZER;
static pthread_cond_t l_moved = PTHREAD_COND_INITIALIZER;
static bool l_isStopped;
static bool l_isStarting = true;
static bool l_hasJitter;
static bool l_stopsAtOnce;
static unsigned l_nSources;
static char const *l_trace;
static QEvt l_statics[QF_MAX_SIG];

#if QP_RECORD
QPR_STATE();
__thread uint8_t QF_who;
#endif

#ifdef QF_FAULTS
int QF_fault;
bool QF_everyNth_(int fault, unsigned n) {
    static unsigned count;
    return QF_fault == fault && __atomic_add_fetch(&count, 1u, __ATOMIC_RELAXED) % n == 0;
}
#endif

/* ---- the critical section ---- */

static void jitter(void) {
    static __thread uint32_t state;
    if (state == 0) {
        struct timespec now;
        clock_gettime(CLOCK_MONOTONIC, &now);
        state = ((uint32_t)now.tv_nsec ^ (uint32_t)(uintptr_t)&state) | 1u;
    }
    state = state * 1664525u + 1013904223u;
    if (state >> 24 < 48u) {
        sched_yield();
    } else if (state >> 24 < 80u) {
        struct timespec const pause = { 0, (long)(1000u + (state >> 8) % 60000u) };
        nanosleep(&pause, NULL);
    }
}

void QF_critEntry_(void) { pthread_mutex_lock(&l_section); }
void QF_critExit_(void) {
    pthread_mutex_unlock(&l_section);
    if (l_hasJitter) {
        jitter();
    }
}
void QF_wait_(pthread_cond_t *more) { pthread_cond_wait(more, &l_section); }
void QF_wakeWatcher_(void) { pthread_cond_signal(&l_moved); }
bool QF_isStopped_(void) { return l_isStopped; }

/* ---- the recorder's buffers ---- */

static void openBuffers(void) {
#if QP_RECORD == 1
    static uint8_t bytes[QF_RECORD_BYTES];
    qpr_open(0, bytes, sizeof bytes);
#elif QP_RECORD == 2
    static uint8_t bytes[QPR_WHOS][QF_RECORD_BYTES];
    for (unsigned p = 1; p <= QF_MAX_ACTIVE; ++p) {
        if (QActive_registry_[p] != NULL) {
            qpr_open(QPR_OBJECT(p), bytes[QPR_OBJECT(p)], sizeof bytes[0]);
        }
    }
    for (unsigned i = 1; i <= l_nSources; ++i) {
        qpr_open(QPR_SOURCE(i), bytes[QPR_SOURCE(i)], sizeof bytes[0]);
    }
#endif
}

/* The whole trace, at the end of the run: a piece of each buffer in turn. */
static int writeTrace(void) {
#if QP_RECORD
    static uint8_t piece[QF_PIECE];
    FILE *const out = fopen(l_trace, "wb");
    bool isWritten = out != NULL, hasMore = true;
    for (unsigned who = 0; who < QPR_BUFFERS; ++who) {
        if (qpr.buffers[who].size != 0) {
            qpr_close((uint8_t)who);
        }
    }
    while (isWritten && hasMore) {
        hasMore = false;
        for (unsigned who = 0; isWritten && who < QPR_BUFFERS; ++who) {
            uint32_t const n = qpr_take((uint8_t)who, piece, sizeof piece);
            isWritten = fwrite(piece, 1, n, out) == n;
            hasMore = hasMore || n != 0;
        }
    }
    if (out == NULL || fclose(out) != 0 || !isWritten) {
        fprintf(stderr, "%s: can't be written\n", l_trace);
        return 7;
    }
#endif
    return 0;
}

static void stop(void) {
    l_isStopped = true;
    for (unsigned p = 1; p <= QF_MAX_ACTIVE; ++p) {
        if (QActive_registry_[p] != NULL) {
            pthread_cond_broadcast(&QActive_registry_[p]->more);
        }
    }
    pthread_cond_broadcast(&l_moved);
}

void QF_onAssert_(void) {
    if (l_stopsAtOnce) {
        _Exit(writeTrace());
    }
    stop();
    QF_CRIT_EXIT();
    if (l_isStarting) {
        fputs("an assertion in a start\n", stderr);
        exit(3);
    }
    pthread_exit(NULL);
}

/* ---- objects ---- */

QEvt const *QF_static(QSignal sig) { return QF_app.signals[sig - Q_USER_SIG].isStatic ? &l_statics[sig] : NULL; }

void BSP_say(int64_t value) {
    (void)value;
    QPR_SAY(value);
}

void QActive_ctor(QActive *me, QStateHandler initial, QStateHandler const *states) {
    me->super.temp = initial;
    me->super.state = QHsm_top;
    me->super.states = states;
}

void QActive_start(QActive *me, char const *name, uint8_t prio, QEvt const **ring, uint16_t length, QEvt const **deferred,
                   uint16_t capacity) {
    me->name = name;
    me->prio = prio;
    QEQueue_init(&me->eQueue, ring, length, (uint16_t)(length + 1));
    QEQueue_init(&me->deferred, deferred, capacity, capacity);
    pthread_cond_init(&me->more, NULL);
    QActive_registry_[prio] = me;
}

static void startObjects(void) {
    for (unsigned p = 1; p <= QF_MAX_ACTIVE; ++p) {
        QActive *const a = QActive_registry_[p];
        if (a != NULL) {
            QPR_BY(QPR_OBJECT(p));
            QPR_BEGIN();
            QHsm_init_(&a->super);
            QPR_DONE();
        }
    }
    l_isStarting = false;
}

static void *eventLoop(void *arg) {
    QActive *const me = arg;
    QPR_BY(QPR_OBJECT(me->prio));
    for (QEvt const *e = QActive_get_(me); e != NULL; e = QActive_get_(me)) {
        QHsm_dispatch_(&me->super, e);
        QPR_DONE();
        QF_gc(e);
        if (FAULT_EVERY(FAULT_FREED_TWICE, 3)) {
            QF_gc(e);
        }
    }
    return NULL;
}

static bool isQuiet(void) {
    for (unsigned p = 1; p <= QF_MAX_ACTIVE; ++p) {
        QActive const *const a = QActive_registry_[p];
        if (a != NULL && (a->eQueue.frontEvt != NULL || !a->isWaiting)) {
            return false;
        }
    }
    return true;
}

static void waitUntilQuiet(void) {
    struct timespec until;
    clock_gettime(CLOCK_REALTIME, &until);
    until.tv_sec += PATIENCE;
    QF_CRIT_ENTRY();
    while (!isQuiet() && !l_isStopped) {
        if (pthread_cond_timedwait(&l_moved, &l_section, &until) == ETIMEDOUT) {
            fprintf(stderr, "not quiet after %d s\n", PATIENCE);
            break;
        }
    }
    stop();
    QF_CRIT_EXIT();
}

static void runObjects(void) {
    for (unsigned p = 1; p <= QF_MAX_ACTIVE; ++p) {
        QActive *const a = QActive_registry_[p];
        if (a != NULL) {
            pthread_create(&a->thread, NULL, eventLoop, a);
        }
    }
    QF_startSources_();
    QF_joinSources_();
    waitUntilQuiet();
    for (unsigned p = 1; p <= QF_MAX_ACTIVE; ++p) {
        if (QActive_registry_[p] != NULL) {
            pthread_join(QActive_registry_[p]->thread, NULL);
        }
    }
}

int main(int argc, char **argv) {
    if (argc < 3) {
        fprintf(stderr, "usage: %s STIMULI TRACE [FAULT]\n", argv[0]);
        return 1;
    }
#ifdef QF_FAULTS
    QF_fault = argc > 3 ? atoi(argv[3]) : 0;
#endif
    l_trace = argv[2];
    l_hasJitter = getenv("QF_JITTER") != NULL;
    l_stopsAtOnce = QP_RECORD == 1 && getenv("QF_AT_ONCE") != NULL;
    for (unsigned i = 0; i < QF_app.nSignals; ++i) {
        l_statics[Q_USER_SIG + i].sig = (QSignal)(Q_USER_SIG + i);
    }
    QF_poolInit_();
    QF_app.start();
    l_nSources = QF_readSources_(argv[1]);
    openBuffers();
    startObjects();
    runObjects();
    return writeTrace();
}

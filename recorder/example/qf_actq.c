/* Queues: an entry in front, and a ring behind it. */
#include <sched.h>
#include <stddef.h>

#include "qf_pkg.h"

void QEQueue_init(QEQueue *me, QEvt const **ring, uint16_t length, uint16_t capacity) {
    me->frontEvt = NULL;
    me->ring = ring;
    me->end = length;
    me->head = 0;
    me->tail = 0;
    me->nFree = capacity;
    me->nMax = capacity;
}

void QEQueue_put_(QEQueue *me, QEvt const *e) {
    bool const isFirst = me->frontEvt == NULL;
    --me->nFree;
    if (FAULT_IN_SOURCE(FAULT_NO_SECTION)) {
        sched_yield(); /* as an interrupt would */
    }
    if (isFirst) {
        me->frontEvt = e;
        return;
    }
    me->ring[me->head] = e;
    me->head = (uint16_t)(me->head == 0 ? me->end - 1 : me->head - 1);
}

void QEQueue_putFront_(QEQueue *me, QEvt const *e) {
    QEvt const *const former = me->frontEvt;
    --me->nFree;
    me->frontEvt = e;
    if (former != NULL) {
        me->tail = (uint16_t)(me->tail + 1 == me->end ? 0 : me->tail + 1);
        me->ring[me->tail] = former;
    }
}

QEvt const *QEQueue_get_(QEQueue *me) {
    QEvt const *const e = me->frontEvt;
    ++me->nFree;
    if (me->nFree == me->nMax) {
        me->frontEvt = NULL;
    } else {
        me->frontEvt = me->ring[me->tail];
        me->tail = (uint16_t)(me->tail == 0 ? me->end - 1 : me->tail - 1);
    }
    return e;
}

static bool hasRoom(QActive const *me, int margin) {
    if (margin == QF_NO_MARGIN) {
        return me->eQueue.nFree > 0;
    }
    if (FAULT(FAULT_PAST_MARGIN)) {
        return me->eQueue.nFree > 0 && me->eQueue.nFree >= margin;
    }
    return me->eQueue.nFree > margin;
}

static void wake(QActive *me) { pthread_cond_signal(&me->more); }

static void enterToPost(void) {
    if (!FAULT_IN_SOURCE(FAULT_NO_SECTION)) {
        QF_CRIT_ENTRY();
    }
}

static void exitFromPost(void) {
    if (!FAULT_IN_SOURCE(FAULT_NO_SECTION)) {
        QF_CRIT_EXIT();
    }
}

bool QActive_post_(QActive *me, QEvt const *e, int margin) {
    enterToPost();
    bool const isGranted = hasRoom(me, margin);
    QF_refUp_(e);
    if (!isGranted && margin == QF_NO_MARGIN) {
        QPR_ASSERT_QUEUE(me->prio);
        QF_onAssert_();
    }
    if (!isGranted) {
        QPR_FULL(me->prio, (uint32_t)margin);
        exitFromPost();
        QF_gc(e);
        return false;
    }
    if (FAULT(FAULT_QUEUE_UNLOCKED)) {
        uint16_t const counted = me->eQueue.nFree;
        QF_CRIT_EXIT();
        sched_yield();
        QF_CRIT_ENTRY();
        me->eQueue.nFree = (uint16_t)(counted == 0 ? 1 : counted);
    }
    if (FAULT(FAULT_RECORDED_OUTSIDE)) {
        QEQueue_put_(&me->eQueue, e);
        wake(me);
        QF_CRIT_EXIT();
        sched_yield();
        QF_CRIT_ENTRY();
    } else if (!FAULT_EVERY(FAULT_POST_LOST, 7)) {
        QEQueue_put_(&me->eQueue, e);
    }
    QPR_POST(me->prio, e->poolNum_, QF_what_(e));
    wake(me);
    exitFromPost();
    return true;
}

void QActive_postLIFO_(QActive *me, QEvt const *e) {
    QF_CRIT_ENTRY();
    QF_refUp_(e);
    if (me->eQueue.nFree == 0) {
        QPR_ASSERT_LIFO();
        QF_onAssert_();
    }
    if (FAULT(FAULT_LIFO_BEHIND)) {
        QEQueue_put_(&me->eQueue, e);
    } else {
        QEQueue_putFront_(&me->eQueue, e);
    }
    QPR_LIFO(e->poolNum_, QF_what_(e));
    QF_CRIT_EXIT();
}

#ifdef QF_FAULTS
/* FAULT_ORDER_LOST: where two entries are in the ring they change places. */
static void swapFirstTwo(QEQueue *me) {
    if (me->nFree + 3 > me->nMax) {
        return;
    }
    uint16_t const next = (uint16_t)(me->tail == 0 ? me->end - 1 : me->tail - 1);
    QEvt const *const first = me->ring[me->tail];
    me->ring[me->tail] = me->ring[next];
    me->ring[next] = first;
}
#endif

QEvt const *QActive_get_(QActive *me) {
    QF_CRIT_ENTRY();
    while (me->eQueue.frontEvt == NULL && !QF_isStopped_()) {
        QPR_NIL();
        me->isWaiting = true;
        QF_wakeWatcher_();
        QF_wait_(&me->more);
    }
    if (QF_isStopped_()) {
        QF_CRIT_EXIT();
        return NULL;
    }
    me->isWaiting = false;
#ifdef QF_FAULTS
    if (FAULT(FAULT_ORDER_LOST)) {
        swapFirstTwo(&me->eQueue);
    }
#endif
    QEvt const *const e = QEQueue_get_(&me->eQueue);
    QPR_TOOK(e->poolNum_, QF_what_(e));
    QF_CRIT_EXIT();
    return e;
}

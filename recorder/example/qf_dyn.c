/* Event pools and reference counters. A pool gives out first what came back last, as QMPool does. */
#include <sched.h>
#include <stddef.h>

#include "qf_pkg.h"

typedef struct {
    unsigned nFree;
    uint8_t free[2 * QF_MAX_BLOCKS]; /* of which no more than QF_MAX_BLOCKS are used, without a fault */
    QParEvt blocks[QF_MAX_BLOCKS];
} Pool;

static Pool l_pool[QF_MAX_POOL + 1];

void QF_poolInit_(void) {
    for (unsigned p = 1; p <= QF_app.nPools; ++p) {
        for (unsigned b = QF_app.pools[p - 1].blocks; b > 0; --b) {
            l_pool[p].free[l_pool[p].nFree++] = (uint8_t)(b - 1);
        }
    }
}

uint8_t QF_block_(QEvt const *e) { return (uint8_t)((QParEvt const *)e - l_pool[e->poolNum_].blocks); }

static unsigned paramsOf(QSignal sig) { return QF_app.signals[sig - Q_USER_SIG].params; }

QEvt *QF_newX_(QSignal sig, int margin) {
    uint8_t p = 1;
    while (QF_app.pools[p - 1].params < paramsOf(sig)) {
        ++p;
    }
    Pool *const pool = &l_pool[p];
    QF_CRIT_ENTRY();
    if (margin == QF_NO_MARGIN && pool->nFree == 0) {
        QPR_ASSERT_POOL(p, pool->nFree);
        QF_onAssert_();
    }
    if (margin != QF_NO_MARGIN && pool->nFree <= (unsigned)margin) {
        QPR_SHORT(p, pool->nFree, (uint32_t)margin);
        QF_CRIT_EXIT();
        return NULL;
    }
    uint8_t const b = pool->free[--pool->nFree];
    if (FAULT_EVERY(FAULT_GIVEN_WHILE_HELD, 3)) {
        ++pool->nFree;
    }
    QPR_NEW(p, b, sig);
    QF_CRIT_EXIT();
    QEvt *const e = &pool->blocks[b].super;
    e->sig = sig;
    e->poolNum_ = p;
    e->refCtr_ = 0;
    return e;
}

void QF_refUp_(QEvt const *e) {
    if (e->poolNum_ == 0) {
        return;
    }
    if (FAULT_EVERY(FAULT_NOT_COUNTED_NOR_TOLD, 3)) {
        return;
    }
    if (e->refCtr_ == 0) { QPR_EVENT(e->poolNum_, QF_block_(e), paramsOf(e->sig), ((QParEvt const *)e)->par); }
    QPR_INC(e->poolNum_, QF_block_(e));
    if (FAULT_EVERY(FAULT_NOT_COUNTED, 3)) {
        return;
    }
    if (FAULT(FAULT_COUNTER_UNLOCKED)) { /* read, others run, write */
        uint8_t const counter = e->refCtr_;
        QF_CRIT_EXIT();
        sched_yield();
        QF_CRIT_ENTRY();
        ((QEvt *)e)->refCtr_ = (uint8_t)(counter + 1);
        return;
    }
    ++((QEvt *)e)->refCtr_;
}

bool QF_refDown_(QEvt const *e) {
    QPR_DEC(e->poolNum_, QF_block_(e));
    if (e->refCtr_ > 1) {
        --((QEvt *)e)->refCtr_;
        return false;
    }
    ((QEvt *)e)->refCtr_ = 0;
    return true;
}

void QF_gc(QEvt const *e) {
    if (e->poolNum_ == 0) {
        return;
    }
    if (FAULT_EVERY(FAULT_NOT_RELEASED, 4)) {
        return;
    }
    QF_CRIT_ENTRY();
    if (QF_refDown_(e)) {
        Pool *const pool = &l_pool[e->poolNum_];
        pool->free[pool->nFree++ % (2 * QF_MAX_BLOCKS)] = QF_block_(e);
        QPR_BACK(e->poolNum_, QF_block_(e));
    }
    QF_CRIT_EXIT();
}

/* Publishing: a set of subscribers for each signal. */
#include "qf_pkg.h"

static uint32_t l_subscribers[QF_MAX_SIG]; /* bit p - 1: the object of priority p */

void QActive_publish_(QEvt const *e, uint8_t prio) {
    QF_CRIT_ENTRY();
    QF_refUp_(e); /* the event outlives its subscribers' steps while it is posted */
    uint32_t const set = l_subscribers[e->sig];
    QPR_PUB(e->sig, set);
    QF_CRIT_EXIT();
    if (FAULT(FAULT_RELEASED_EARLY)) {
        QF_gc(e);
    }
    (void)prio; /* a kernel with a ceiling would raise it here, where an object publishes */
    for (unsigned i = 0; i < QF_MAX_ACTIVE; ++i) {
        unsigned const p = FAULT(FAULT_LOWEST_FIRST) ? 1 + i : QF_MAX_ACTIVE - i;
        if ((set >> (p - 1) & 1u) != 0u) {
            QACTIVE_POST(QActive_registry_[p], e);
        }
    }
    if (!FAULT(FAULT_RELEASED_EARLY)) {
        QF_gc(e);
    }
}

static bool change(QActive const *me, QSignal sig, bool isMember) {
    uint32_t const bit = (uint32_t)1 << (me->prio - 1);
    QF_CRIT_ENTRY();
    bool const isChange = ((l_subscribers[sig] & bit) != 0) != isMember;
    if (!isChange) {
        QPR_SAME(sig);
    } else if (isMember) {
        l_subscribers[sig] |= bit;
        QPR_SUB(sig);
    } else {
        l_subscribers[sig] &= ~bit;
        QPR_UNSUB(sig);
    }
    QF_CRIT_EXIT();
    return isChange;
}

bool QActive_subscribe(QActive const *me, QSignal sig) { return change(me, sig, true); }
bool QActive_unsubscribe(QActive const *me, QSignal sig) { return change(me, sig, false); }

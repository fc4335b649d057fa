/* Time events: down-counters of four clocks. */
#include "qf_pkg.h"

enum { MAX_TICKS = 65535 };

QTimeEvt *QTimeEvt_registry_[QF_MAX_TIMERS + 1];
unsigned QTimeEvt_count_;

void QTimeEvt_ctorX(QTimeEvt *me, QActive *act, QSignal sig, uint8_t tickRate) {
    me->super.sig = sig;
    me->super.poolNum_ = 0;
    me->act = act;
    me->tickRate = tickRate;
    me->num = (uint8_t)++QTimeEvt_count_;
    QTimeEvt_registry_[me->num] = me;
}

void QTimeEvt_armX(QTimeEvt *me, uint32_t nTicks, uint32_t interval) {
    QF_CRIT_ENTRY();
    if (nTicks == 0 || nTicks > MAX_TICKS || interval > MAX_TICKS) {
        QPR_ASSERT_TICKS(me->num, nTicks, interval);
        QF_onAssert_();
    }
    if (me->ctr != 0) {
        QPR_ASSERT_ARMED(me->num, me->ctr);
        QF_onAssert_();
    }
    me->ctr = (uint16_t)nTicks;
    me->interval = (uint16_t)interval;
    QPR_ARM(me->num, nTicks, interval);
    QF_CRIT_EXIT();
}

bool QTimeEvt_disarm(QTimeEvt *me) {
    QF_CRIT_ENTRY();
    bool const wasArmed = me->ctr != 0;
    if (wasArmed) {
        QPR_DISARM(me->num, me->ctr);
    } else {
        QPR_IDLE(me->num);
    }
    me->ctr = 0;
    QF_CRIT_EXIT();
    return wasArmed;
}

bool QTimeEvt_rearm(QTimeEvt *me, uint32_t nTicks) {
    QF_CRIT_ENTRY();
    if (nTicks == 0 || nTicks > MAX_TICKS) {
        QPR_ASSERT_TICKS(me->num, nTicks, 0);
        QF_onAssert_();
    }
    bool const wasArmed = me->ctr != 0;
    QPR_REARM(me->num, me->ctr, nTicks);
    me->ctr = (uint16_t)nTicks;
    QF_CRIT_EXIT();
    return wasArmed;
}

/* Lowers the counter; true: the time event fires. */
static bool count(QTimeEvt *me) {
    if (me->ctr == 0) {
#if QP_RECORD == 2 /* with one buffer the host adds it */
        QPR_IDLE(me->num);
#endif
        return false;
    }
    --me->ctr;
    if (me->ctr != 0) {
        QPR_TICK(me->num, me->ctr);
        return false;
    }
    me->ctr = me->interval;
    QPR_FIRE(me->num, me->interval);
    return true;
}

#ifdef QF_FAULTS
/* FAULT_LATE: the counter's 0 is a value like others, and the tick behind it fires. */
static bool countLate(QTimeEvt *me) {
    static bool isAtZero[QF_MAX_TIMERS + 1];
    if (me->ctr == 0 && !isAtZero[me->num]) {
#if QP_RECORD == 2
        QPR_IDLE(me->num);
#endif
        return false;
    }
    if (me->ctr == 0) {
        isAtZero[me->num] = false;
        me->ctr = me->interval;
        QPR_FIRE(me->num, me->interval);
        return true;
    }
    --me->ctr;
    QPR_TICK(me->num, me->ctr);
    isAtZero[me->num] = me->ctr == 0;
    return false;
}
#endif

void QTimeEvt_tick_(uint8_t tickRate) {
    for (unsigned i = 1; i <= QTimeEvt_count_; ++i) {
        QTimeEvt *const t = QTimeEvt_registry_[i];
        if (t->tickRate != tickRate || FAULT_EVERY(FAULT_TICK_SKIPPED, 5)) {
            continue;
        }
        QF_CRIT_ENTRY();
#ifdef QF_FAULTS
        bool const isDue = FAULT(FAULT_LATE) ? countLate(t) : count(t);
#else
        bool const isDue = count(t);
#endif
        QF_CRIT_EXIT();
        if (isDue) {
            QACTIVE_POST(t->act, &t->super);
        }
    }
}

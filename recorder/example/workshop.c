/* The machine and the clerk of workshop.toml. */
#include <stddef.h>

#include "faults.h"
#include "qf.h"

enum { GO_SIG = Q_USER_SIG, LATE_SIG, JOB_SIG, OUT_SIG, NEWS_SIG };
enum { IDLE = 1, BUSY, ROUGH, FINE };
enum { OPEN = 1 };
enum { MACHINE_RING = 5, CLERK_RING = 4 };

typedef struct {
    QActive super;
    QTimeEvt limit;
    int64_t n;
} Machine;

static Machine l_machine;
static QActive l_clerk;

/* ---- the machine ---- */

static QState Machine_idle(QHsm *me, QEvt const *e);
static QState Machine_busy(QHsm *me, QEvt const *e);
static QState Machine_rough(QHsm *me, QEvt const *e);
static QState Machine_fine(QHsm *me, QEvt const *e);

static bool sendOut(int64_t n) {
    QParEvt *const out = Q_NEW_X(OUT_SIG, 1);
    if (out == NULL) {
        return false;
    }
    out->par[0] = (uint64_t)n;
    return QACTIVE_POST_X(&l_clerk, &out->super, 1);
}

static QState Machine_initial(QHsm *me, QEvt const *e) {
    (void)e;
    QActive_subscribe((QActive *)me, NEWS_SIG);
    return Q_TRAN(Machine_idle);
}

static QState Machine_idle(QHsm *me, QEvt const *e) {
    Machine *const machine = (Machine *)me;
    switch (e->sig) {
    case Q_ENTRY_SIG:
        QActive_recall(&machine->super);
        BSP_say(QTimeEvt_disarm(&machine->limit));
        return Q_HANDLED();
    case JOB_SIG:
        QPR_RUN(IDLE, 1);
        machine->n = (int64_t)Q_PAR(e, 1);
        BSP_say(sendOut(machine->n));
        QTimeEvt_armX(&machine->limit, 2, 3);
        return Q_TRAN(Machine_busy);
    case LATE_SIG:
        QPR_RUN(IDLE, 2);
        BSP_say(9);
        return Q_HANDLED();
    default:
        return Q_SUPER(QHsm_top);
    }
}

static QState Machine_busy(QHsm *me, QEvt const *e) {
    Machine *const machine = (Machine *)me;
    switch (e->sig) {
    case Q_ENTRY_SIG:
        BSP_say(1);
        return Q_HANDLED();
    case Q_EXIT_SIG:
        BSP_say(FAULT(FAULT_OTHER_CHART) ? 0 : 2);
        return Q_HANDLED();
    case Q_INIT_SIG:
        BSP_say(3);
        return Q_TRAN(Machine_rough);
    case LATE_SIG:
        QPR_RUN(BUSY, 1);
        BSP_say((int64_t)QActive_flushDeferred(&machine->super));
        return Q_TRAN(Machine_idle);
    case JOB_SIG:
        QPR_RUN(BUSY, 2);
        BSP_say(QActive_defer(&machine->super, e));
        return Q_HANDLED();
    case NEWS_SIG:
        QPR_RUN(BUSY, 3);
        BSP_say(QACTIVE_POST_X(&l_clerk, e, 2));
        return Q_HANDLED();
    default:
        return Q_SUPER(QHsm_top);
    }
}

static QState Machine_rough(QHsm *me, QEvt const *e) {
    switch (e->sig) {
    case GO_SIG:
        return Q_TRAN(Machine_fine);
    default:
        return Q_SUPER(Machine_busy);
    }
}

static QState Machine_fine(QHsm *me, QEvt const *e) {
    Machine *const machine = (Machine *)me;
    switch (e->sig) {
    case Q_ENTRY_SIG:
        BSP_say(-machine->n);
        return Q_HANDLED();
    case GO_SIG:
        if (machine->n > 3) {
            QPR_RUN(FINE, 1);
            BSP_say(QTimeEvt_rearm(&machine->limit, 2));
            return Q_TRAN(Machine_busy);
        }
        QPR_RUN(FINE, 2);
        QACTIVE_POST_LIFO(&machine->super, QF_static(LATE_SIG));
        return Q_HANDLED();
    default:
        return Q_SUPER(Machine_busy);
    }
}

/* ---- the clerk ---- */

static QState Clerk_open(QHsm *me, QEvt const *e) {
    switch (e->sig) {
    case OUT_SIG:
        BSP_say(QACTIVE_POST_X(&l_machine.super, QF_static(GO_SIG), 1));
        return Q_HANDLED();
    case NEWS_SIG:
        if (Q_PAR(e, 1) > 100) {
            QPR_RUN(OPEN, 2);
            BSP_say(QActive_unsubscribe((QActive *)me, NEWS_SIG));
        } else {
            QPR_RUN(OPEN, 3);
            BSP_say((int64_t)Q_PAR(e, 1));
        }
        return Q_HANDLED();
    default:
        return Q_SUPER(QHsm_top);
    }
}

static QState Clerk_initial(QHsm *me, QEvt const *e) {
    (void)e;
    QActive_subscribe((QActive *)me, NEWS_SIG);
    return Q_TRAN(Clerk_open);
}

/* ---- the system ---- */

static QStateHandler const l_machineStates[] = { Machine_idle, Machine_busy, Machine_rough, Machine_fine, NULL };
static QStateHandler const l_clerkStates[] = { Clerk_open, NULL };
static QEvt const *l_machineRing[MACHINE_RING], *l_clerkRing[CLERK_RING], *l_deferred[1];

static void start(void) {
    QActive_ctor(&l_machine.super, Machine_initial, l_machineStates);
    QTimeEvt_ctorX(&l_machine.limit, &l_machine.super, LATE_SIG, 0);
    QActive_ctor(&l_clerk, Clerk_initial, l_clerkStates);
    QActive_start(&l_machine.super, "machine", 1, l_machineRing, MACHINE_RING, l_deferred, 1);
    QActive_start(&l_clerk, "clerk", 3, l_clerkRing, CLERK_RING, NULL, 0);
}

static QF_Signal const l_signals[] = {
    { "GO", 0, true }, { "LATE", 0, true }, { "JOB", 2, false }, { "OUT", 1, false }, { "NEWS", 1, false }
};
static QF_Pool const l_pools[] = { { 1, 3 }, { 2, 4 } };
QF_App const QF_app = { l_signals, 5, l_pools, 2, start };

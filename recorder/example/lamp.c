/* The lamp of examples/lamp.toml: one state, then the other. Each state has one row for a signal, so the rows are looked up. */
#include <stddef.h>

#include "qf.h"

enum { GO_SIG = Q_USER_SIG };

static QActive l_lamp;
static QEvt const *l_ring[1];

static QState Lamp_off(QHsm *me, QEvt const *e);
static QState Lamp_on(QHsm *me, QEvt const *e);
static QStateHandler const l_states[] = { Lamp_off, Lamp_on, NULL };

static QState Lamp_initial(QHsm *me, QEvt const *e) {
    (void)e;
    return Q_TRAN(Lamp_off);
}

static QState Lamp_off(QHsm *me, QEvt const *e) {
    switch (e->sig) {
    case GO_SIG:
        return Q_TRAN(Lamp_on);
    default:
        return Q_SUPER(QHsm_top);
    }
}

static QState Lamp_on(QHsm *me, QEvt const *e) {
    (void)e;
    return Q_SUPER(QHsm_top);
}

static void start(void) {
    QActive_ctor(&l_lamp, Lamp_initial, l_states);
    QActive_start(&l_lamp, "lamp", 1, l_ring, 1, NULL, 0);
}

static QF_Signal const l_signals[] = { { "GO", 0, true } };
QF_App const QF_app = { l_signals, 1, NULL, 0, start };

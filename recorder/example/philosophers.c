/* The philosophers of examples/philosophers/table.toml: a fork is a bit, and one needs the two beside the own place at once. */
#include <stddef.h>

#include "faults.h"
#include "qf.h"

enum { TIMEOUT_SIG = Q_USER_SIG, EAT_SIG, HUNGRY_SIG, DONE_SIG };
enum { N_PHILO = 5, RING = 7, TABLE_SERVING = 1 };

typedef struct {
    QActive super;
    QTimeEvt timeEvt;
    uint64_t left, right;
} Philo;

typedef struct {
    QActive super;
    uint64_t used;
} Table;

static Philo l_philo[N_PHILO];
static Table l_table;

/* ---- a philosopher ---- */

static QState Philo_hungry(QHsm *me, QEvt const *e);
static QState Philo_eating(QHsm *me, QEvt const *e);

static void tellTable(Philo const *philo, QSignal sig) {
    QParEvt *const pe = Q_NEW(sig);
    pe->par[0] = philo->super.prio;
    pe->par[1] = philo->left;
    pe->par[2] = philo->right;
    QACTIVE_POST(&l_table.super, &pe->super);
}

static QState Philo_thinking(QHsm *me, QEvt const *e) {
    switch (e->sig) {
    case Q_ENTRY_SIG:
        QTimeEvt_armX(&((Philo *)me)->timeEvt, 1, 0);
        return Q_HANDLED();
    case TIMEOUT_SIG:
        return Q_TRAN(Philo_hungry);
    default:
        return Q_SUPER(QHsm_top);
    }
}

static QState Philo_hungry(QHsm *me, QEvt const *e) {
    switch (e->sig) {
    case Q_ENTRY_SIG:
        tellTable((Philo *)me, HUNGRY_SIG);
        return Q_HANDLED();
    case EAT_SIG:
        if (Q_PAR(e, 1) == ((Philo *)me)->super.prio) {
            return Q_TRAN(Philo_eating);
        }
        return Q_UNHANDLED();
    default:
        return Q_SUPER(QHsm_top);
    }
}

static QState Philo_eating(QHsm *me, QEvt const *e) {
    switch (e->sig) {
    case Q_ENTRY_SIG:
        QTimeEvt_armX(&((Philo *)me)->timeEvt, 1, 0);
        return Q_HANDLED();
    case Q_EXIT_SIG:
        if (!FAULT(FAULT_OTHER_CHART)) {
            tellTable((Philo *)me, DONE_SIG);
        }
        return Q_HANDLED();
    case TIMEOUT_SIG:
        return Q_TRAN(Philo_thinking);
    default:
        return Q_SUPER(QHsm_top);
    }
}

static QState Philo_initial(QHsm *me, QEvt const *e) {
    (void)e;
    QActive_subscribe((QActive *)me, EAT_SIG);
    return Q_TRAN(Philo_thinking);
}

/* ---- the table: two rows for HUNGRY, so each case names its own ---- */

static QState Table_serving(QHsm *me, QEvt const *e) {
    Table *const table = (Table *)me;
    switch (e->sig) {
    case HUNGRY_SIG:
        if ((table->used & (Q_PAR(e, 2) | Q_PAR(e, 3))) == 0) {
            QPR_RUN(TABLE_SERVING, 1);
            table->used += Q_PAR(e, 2) + Q_PAR(e, 3);
            QParEvt *const pe = Q_NEW(EAT_SIG);
            pe->par[0] = Q_PAR(e, 1);
            QACTIVE_PUBLISH(&pe->super, &table->super);
        } else {
            QPR_RUN(TABLE_SERVING, 2);
            QActive_defer(&table->super, e);
        }
        return Q_HANDLED();
    case DONE_SIG:
        QPR_RUN(TABLE_SERVING, 3);
        table->used -= Q_PAR(e, 2) + Q_PAR(e, 3);
        QActive_recall(&table->super);
        QActive_recall(&table->super);
        QActive_recall(&table->super);
        return Q_HANDLED();
    default:
        return Q_SUPER(QHsm_top);
    }
}

static QState Table_initial(QHsm *me, QEvt const *e) {
    (void)e;
    return Q_TRAN(Table_serving);
}

/* ---- the system ---- */

static QStateHandler const l_philoStates[] = { Philo_thinking, Philo_hungry, Philo_eating, NULL };
static QStateHandler const l_tableStates[] = { Table_serving, NULL };
static QEvt const *l_rings[N_PHILO + 1][RING];
static QEvt const *l_deferred[N_PHILO];

static void start(void) {
    static char const *const names[N_PHILO] = { "ann", "bob", "cat", "dan", "eve" };
    for (uint8_t i = 0; i < N_PHILO; ++i) {
        Philo *const p = &l_philo[i];
        p->left = (uint64_t)1 << i;
        p->right = (uint64_t)1 << (i + 1) % N_PHILO;
        QActive_ctor(&p->super, Philo_initial, l_philoStates);
        QTimeEvt_ctorX(&p->timeEvt, &p->super, TIMEOUT_SIG, 0);
        QActive_start(&p->super, names[i], (uint8_t)(i + 1), l_rings[i], RING, NULL, 0);
    }
    QActive_ctor(&l_table.super, Table_initial, l_tableStates);
    QActive_start(&l_table.super, "table", N_PHILO + 1, l_rings[N_PHILO], RING, l_deferred, N_PHILO);
}

static QF_Signal const l_signals[] = { { "TIMEOUT", 0, true }, { "EAT", 1, false }, { "HUNGRY", 3, false }, { "DONE", 3, false } };
static QF_Pool const l_pools[] = { { 1, 8 }, { 3, 8 } };
QF_App const QF_app = { l_signals, 4, l_pools, 2, start };

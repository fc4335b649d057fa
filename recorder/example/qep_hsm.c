/* Hierarchical state machines: an event goes from the current state outwards until one handles it. */
#include <stddef.h>

#include "qf_pkg.h"

enum { MAX_NEST = 6 };

static QEvt const l_reserved[] = { { Q_EMPTY_SIG, 0, 0 }, { Q_ENTRY_SIG, 0, 0 }, { Q_EXIT_SIG, 0, 0 }, { Q_INIT_SIG, 0, 0 } };

QState QHsm_top(QHsm *me, QEvt const *e) {
    (void)me;
    (void)e;
    return Q_RET_IGNORED;
}

static QStateHandler superOf(QHsm *me, QStateHandler s) {
    (void)s(me, &l_reserved[Q_EMPTY_SIG]);
    return me->temp;
}

#if QP_RECORD
/* A state's number in the system's file. */
static uint32_t numberOf(QHsm const *me, QStateHandler s) {
    uint32_t n = 0;
    while (me->states[n] != NULL && me->states[n] != s) {
        ++n;
    }
    return n + 1;
}
#endif

/* A state, the one around it, and so on without the top; answers how many. */
static unsigned pathOf(QHsm *me, QStateHandler s, QStateHandler *path) {
    unsigned n = 0;
    while (s != QHsm_top && n < MAX_NEST) {
        path[n++] = s;
        s = superOf(me, s);
    }
    return n;
}

/* Enters all states of the target's path below `within`. */
static void enterTo(QHsm *me, QStateHandler target, QStateHandler within) {
    QStateHandler path[MAX_NEST];
    unsigned const n = pathOf(me, target, path);
    unsigned i = 0;
    while (i < n && path[i] != within) {
        ++i;
    }
    while (i-- > 0) {
        QPR_ENTER(numberOf(me, path[i]));
        (void)path[i](me, &l_reserved[Q_ENTRY_SIG]);
    }
    me->state = target;
}

static void drill(QHsm *me) {
    for (;;) {
        QStateHandler const s = me->state;
        QPR_INIT(numberOf(me, s));
        if (s(me, &l_reserved[Q_INIT_SIG]) != Q_RET_TRAN) {
            QPR_NO_INIT();
            return;
        }
        enterTo(me, me->temp, s);
    }
}

void QHsm_init_(QHsm *me) {
    (void)me->temp(me, &l_reserved[Q_INIT_SIG]); /* the initial pseudo-state */
    enterTo(me, me->temp, QHsm_top);
    drill(me);
}

/* The innermost state that a transition neither leaves nor enters. */
static QStateHandler mainState(QHsm *me, QStateHandler source, QStateHandler target) {
    if (source == target) {
        return superOf(me, source);
    }
    QStateHandler from[MAX_NEST], to[MAX_NEST];
    unsigned const n = pathOf(me, source, from), k = pathOf(me, target, to);
    for (unsigned i = 0; i < n; ++i) {
        for (unsigned j = 0; j < k; ++j) {
            if (from[i] == to[j]) {
                return from[i];
            }
        }
    }
    return QHsm_top;
}

static void exitTo(QHsm *me, QStateHandler within) {
    QStateHandler path[MAX_NEST];
    unsigned const n = pathOf(me, me->state, path);
    unsigned left = 0;
    while (left < n && path[left] != within) {
        ++left;
    }
    for (unsigned i = 0; i < left; ++i) {
        QStateHandler const s = path[FAULT(FAULT_EXITS_INWARDS) ? left - 1 - i : i];
        QPR_EXIT(numberOf(me, s));
        (void)s(me, &l_reserved[Q_EXIT_SIG]);
    }
}

void QHsm_dispatch_(QHsm *me, QEvt const *e) {
    QStateHandler s = me->state;
    QState answer = s(me, e);
    while (answer == Q_RET_SUPER || answer == Q_RET_UNHANDLED) {
        s = answer == Q_RET_SUPER ? me->temp : superOf(me, s);
        answer = s(me, e);
    }
    if (answer == Q_RET_IGNORED) {
        QPR_NONE();
        return;
    }
    QPR_HANDLED(numberOf(me, s));
    if (answer == Q_RET_TRAN) {
        QStateHandler const target = me->temp;
        QStateHandler const within = mainState(me, s, target);
        exitTo(me, within);
        enterTo(me, target, within);
        drill(me);
    }
}

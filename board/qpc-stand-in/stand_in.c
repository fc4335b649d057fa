/* See qpc.h. QEP as docs/DEFINITIONS.md has it, and QF over the queues, pools and time events of qp_board.h, by the tables of the same
 * system: what the sources say of their objects and pools has to be what the tables say. */
#define QPB_OTHER_CHARTS
#include "tables.c"

#include <stdio.h>
#include <stdlib.h>

#include "qpc.h"

static QActive *l_active[QPB_OBJECTS];
static struct {
    char *blocks;
    uint_fast16_t size;
} l_pools[QPB_POOLS_ROOM];
static unsigned l_objects, l_timers, l_pool_count;
static uint8_t l_own[QPB_OBJECTS]; /* the ceiling that an object has raised */
/* The event that each object handles: a copy of its block, by which the sources see what a stimulus made as well. */
static struct {
    QEvt super;
    int64_t params[QPB_PARAMS];
} l_now[QPB_OBJECTS];
static qpb_entry l_now_entry[QPB_OBJECTS];
static QEvt const l_reserved[] = { { Q_EMPTY_SIG, 0, 0 }, { Q_ENTRY_SIG, 0, 0 }, { Q_EXIT_SIG, 0, 0 }, { Q_INIT_SIG, 0, 0 } };

static void require(int is_so, char const *what) {
    if (is_so) return;
    fprintf(stderr, "the sources and the tables differ: %s\n", what);
    exit(1);
}
static unsigned place_of(uint8_t prio) {
    unsigned o = 0;
    while (qpb_objects[o].prio != prio) ++o;
    return o;
}

/* ---- events -------------------------------------------------------------------------------------------------------------- */

static qpb_entry entry_of(QEvt const *e) {
    for (unsigned o = 0; o < QPB_OBJECTS; ++o) {
        if (e == &l_now[o].super) return l_now_entry[o];
    }
    qpb_entry found = { e->poolNum_, e->sig };
    if (e->poolNum_) found.what = (uint8_t)(((char const *)e - l_pools[e->poolNum_ - 1].blocks) / (ptrdiff_t)l_pools[e->poolNum_ - 1].size);
    return found;
}
static QEvt const *event_of(unsigned o, qpb_entry e) {
    l_now_entry[o] = e;
    l_now[o].super.sig = qpb_sig_of(e);
    l_now[o].super.poolNum_ = e.pool;
    unsigned const n = qpb_signals[l_now[o].super.sig - QPB_FIRST_SIG].params;
    for (unsigned i = 0; i < n; ++i) l_now[o].params[i] = qpb_params_of(e)[i];
    return &l_now[o].super;
}
/* An event that a handler made has its parameters where its first reference is counted. */
static qpb_entry with_params(QEvt const *e) {
    qpb_entry const found = entry_of(e);
    if (found.pool && qpb_block_of(found)->refs == 0) {
        unsigned const n = qpb_signals[e->sig - QPB_FIRST_SIG].params;
        for (unsigned i = 0; i < n; ++i) qpb_params_of(found)[i] = ((int64_t const *)(void const *)e)[i + 1u];
        qpb_tell_event(found, n);
    }
    return found;
}
void QF_poolInit(void * const sto, uint_fast32_t size, uint_fast16_t eventSize) {
    unsigned const p = l_pool_count++;
    require(p < QPB_POOLS && size / eventSize == qpb_pools[p].count && eventSize / 8u - 1u == qpb_pools[p].size, "a pool");
    l_pools[p].blocks = sto;
    l_pools[p].size = eventSize;
}
QEvt *QF_newX_(uint_fast16_t size, uint_fast16_t margin, int sig) {
    unsigned p = 0;
    while (l_pools[p].size < size) ++p;
    require(p + 1u == qpb_signals[sig - QPB_FIRST_SIG].pool, "the pool of an event");
    QPB_CRIT_ENTRY();
    unsigned const n = qpb_count(qpb_free[p]);
    if (margin != QF_NO_MARGIN && n <= margin) {
        QPR_SHORT(p + 1u, n, (uint32_t)margin);
        QPB_CRIT_EXIT();
        return NULL;
    }
    if (n == 0) {
        QPR_ASSERT_POOL(p + 1u, 0);
        qpb_on_assert(QPB_ASSERT_POOL, p + 1u);
    }
    qpb_entry const found = { (uint8_t)(p + 1u), (uint8_t)qpb_lowest(qpb_free[p]) };
    qpb_free[p] &= qpb_free[p] - 1u;
    qpb_block_of(found)->sig = (uint8_t)sig;
    qpb_block_of(found)->refs = 0;
    QPR_NEW(found.pool, found.what, (uint32_t)sig);
    QPB_CRIT_EXIT();
    QEvt *const e = (QEvt *)(void *)(l_pools[p].blocks + found.what * l_pools[p].size);
    e->sig = (QSignal)sig;
    e->poolNum_ = found.pool;
    return e;
}

/* ---- active objects ------------------------------------------------------------------------------------------------------ */

void QActive_ctor(QActive * const me, QStateHandler initial) { me->super.temp = initial; }
void QActive_psInit(QSubscrList * const sto, uint_fast16_t maxSignal) {
    (void)sto;
    require(maxSignal == QPB_SIGNALS + QPB_FIRST_SIG, "the count of signals");
}
void QEQueue_init(QEQueue * const me, QEvtPtr * const sto, uint_fast16_t length) {
    require((sto != NULL) == (length != 0), "a deferred list");
    me->length = (uint16_t)length;
}
void QActive_start(QActive * const me, uint16_t prioSpec, QEvtPtr * const qSto, uint_fast16_t qLen, void * const stkSto, uint32_t stkSize,
                   void const * const par) {
    qpb_object const *const o = &qpb_objects[l_objects];
    (void)stkSto, (void)stkSize, (void)par;
    me->prio = (uint8_t)prioSpec;
    require(o->prio == me->prio && o->threshold == prioSpec >> 8 && o->ring == qLen && (qSto != NULL) == (qLen != 0), "an object");
    l_active[l_objects++] = me;
}
bool QActive_post_(QActive * const me, QEvt const * const e, uint_fast16_t margin) {
    QPB_CRIT_ENTRY();
    uint8_t const is_posted = qpb_hand_in(place_of(me->prio), with_params(e), margin == QF_NO_MARGIN ? QPB_NONE_ASKED : (int)margin);
    QPB_CRIT_EXIT();
    return is_posted;
}
void QActive_postLIFO_(QActive * const me, QEvt const * const e) {
    QPB_CRIT_ENTRY();
    qpb_entry const entry = with_params(e);
    qpb_inc(entry);
    qpb_before(place_of(me->prio), entry);
    QPB_CRIT_EXIT();
}
void QActive_publish_(QEvt const * const e, uint8_t prio) {
    QPB_CRIT_ENTRY();
    qpb_entry const entry = with_params(e);
    QPB_CRIT_EXIT();
    qpb_multicast(e->sig, entry, 1, l_own[place_of(prio)]);
}
static void subscribe(QActive const *me, int sig, unsigned joins) {
    QPB_CRIT_ENTRY();
    (void)qpb_subscribe(place_of(me->prio), (uint8_t)sig, joins);
    QPB_CRIT_EXIT();
}
void QActive_subscribe(QActive const * const me, int sig) { subscribe(me, sig, 1); }
void QActive_unsubscribe(QActive const * const me, int sig) { subscribe(me, sig, 0); }
bool QActive_defer(QActive const * const me, QEQueue * const list, QEvt const * const e) {
    unsigned const o = place_of(me->prio);
    require(list->length + 1u == qpb_objects[o].defer, "the length of a deferred list");
    return qpb_defer(o, entry_of(e));
}
bool QActive_recall(QActive * const me, QEQueue * const list) {
    (void)list;
    return qpb_recall(place_of(me->prio));
}
uint_fast16_t QActive_flushDeferred(QActive const * const me, QEQueue * const list, uint_fast16_t most) {
    (void)list, (void)most;
    return qpb_flush(place_of(me->prio));
}
void qpc_lock(uint8_t prio, uint8_t ceiling) {
    l_own[place_of(prio)] = ceiling;
    if (ceiling) { QPR_LOCK(ceiling); } else { QPR_UNLOCK(0); }
}
void BSP_say(QActive const *who, int64_t value);
void BSP_say(QActive const *who, int64_t value) {
    QPR_SAY(value);
    qpb_on_say(place_of(who->prio), value);
}

/* ---- time events --------------------------------------------------------------------------------------------------------- */

void QTimeEvt_ctorX(QTimeEvt * const me, QActive * const act, int sig, uint_fast8_t rate) {
    (void)act;
    require(l_timers < QPB_TIMERS && qpb_timers[l_timers].sig == sig && qpb_timers[l_timers].rate == rate, "a time event");
    me->number = (uint8_t)l_timers++;
}
void QTimeEvt_armX(QTimeEvt * const me, int64_t ticks, int64_t interval) {
    QPB_CRIT_ENTRY();
    (void)qpb_arm(me->number, ticks, interval);
    QPB_CRIT_EXIT();
}
bool QTimeEvt_rearm(QTimeEvt * const me, int64_t ticks) {
    QPB_CRIT_ENTRY();
    uint8_t const was_armed = qpb_rearm(me->number, ticks);
    QPB_CRIT_EXIT();
    return was_armed;
}
bool QTimeEvt_disarm(QTimeEvt * const me) {
    QPB_CRIT_ENTRY();
    uint8_t const was_armed = qpb_disarm(me->number);
    QPB_CRIT_EXIT();
    return was_armed;
}

/* ---- statecharts --------------------------------------------------------------------------------------------------------- */

QState QHsm_top(void const * const me, QEvt const * const e) {
    (void)me, (void)e;
    return Q_RET_UNHANDLED;
}
static QStateHandler top(void) { return Q_STATE_CAST(&QHsm_top); }
static unsigned number_of(unsigned o, QStateHandler s) {
    unsigned n = 0;
    while (qpc_states[o][n] != s) ++n;
    return n + 1u;
}
static QStateHandler parent_of(QActive *a, QStateHandler s) {
    (void)s(a, &l_reserved[Q_EMPTY_SIG]);
    return a->super.temp;
}
static int is_around(QActive *a, QStateHandler outer, QStateHandler s) {
    while (s != outer && s != top()) s = parent_of(a, s);
    return s == outer;
}
static void enter(unsigned o, QStateHandler main, QStateHandler target) {
    QActive *const a = l_active[o];
    for (;;) {
        QStateHandler path[QPB_DEEPEST];
        unsigned n = 0;
        for (QStateHandler s = target; s != main; s = parent_of(a, s)) path[n++] = s;
        while (n-- > 0) {
            QPR_ENTER(number_of(o, path[n]));
            (void)path[n](a, &l_reserved[Q_ENTRY_SIG]);
        }
        a->super.state = main = target;
        QPR_INIT(number_of(o, target));
        if (target(a, &l_reserved[Q_INIT_SIG]) != Q_RET_TRAN) break;
        target = a->super.temp;
    }
    QPR_NO_INIT();
}
static void qpb_start_chart(unsigned o) {
    if (o == 0) {
        qpc_start();
        require(l_objects == QPB_OBJECTS && l_pool_count == QPB_POOLS && l_timers == QPB_TIMERS, "what there is");
    }
    QActive *const a = l_active[o];
    (void)a->super.temp(a, NULL);
    enter(o, top(), a->super.temp);
}
static void transition(unsigned o, QStateHandler source, QStateHandler target) {
    QActive *const a = l_active[o];
    QStateHandler main = source == target ? parent_of(a, source) : source;
    while (!is_around(a, main, target)) main = parent_of(a, main);
    for (QStateHandler s = a->super.state; s != main; s = parent_of(a, s)) {
        QPR_EXIT(number_of(o, s));
        (void)s(a, &l_reserved[Q_EXIT_SIG]);
    }
    enter(o, main, target);
}
static void qpb_dispatch(unsigned o, qpb_entry now) {
    QActive *const a = l_active[o];
    QEvt const *const e = event_of(o, now);
    for (QStateHandler s = a->super.state; s != top(); s = parent_of(a, s)) {
        QState const answer = s(a, e);
        QStateHandler const target = a->super.temp;
        if (answer == Q_RET_TRAN) transition(o, s, target);
        if (answer == Q_RET_TRAN || answer == Q_RET_HANDLED) return;
    }
    QPR_NONE();
}

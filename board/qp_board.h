/* qp_board.h -- runs a system of active objects from the const tables that board/qpc prints of the system's file.
 *
 * One header, C99: static memory, no malloc, no recursion but that of preemption. NAME.h includes it, and NAME.c once more behind
 * QPB_BODY, for the bodies. docs/BOARD.md says how it is used.
 *
 * What a board may choose, by the compiler's words or in a file that QPB_CONFIG names:
 *   QPB_KERNEL                          QPB_QK (the default): preemptive, on one stack; QPB_QV: cooperative; QPB_PORT: a thread
 *                                       for each object
 *   QPB_BITS                            64, as docs/DEFINITIONS.md has values; or 32, where one that doesn't fit is an assertion
 *   QPB_CRIT_ENTRY(), QPB_CRIT_EXIT()   the critical section; no section begins within another
 *   QPB_HOOKS                           the board defines qpb_hooks[]
 *   QPB_IDLE()                          QPB_QV: what is done in the critical section where no queue has an entry
 *   QPB_WAKE(o)                         QPB_PORT: what is done in the critical section where object o's queue gets an entry
 *   QPB_LOOK(floor)                     a host's: what is done where the kernel looks for an object above the floor
 *   QP_RECORD                           1 or 2: records by qp_record.h, in one buffer or one a thread; else nothing is recorded
 */
#ifndef QP_BOARD_H
#define QP_BOARD_H

#include <stddef.h>
#include <stdint.h>

#ifdef QPB_CONFIG
#include QPB_CONFIG
#endif

#define QPB_QV   1
#define QPB_QK   2
#define QPB_PORT 3
#ifndef QPB_KERNEL
#define QPB_KERNEL QPB_QK
#endif

#ifndef QPB_CRIT_ENTRY
#define QPB_CRIT_ENTRY() ((void)0)
#define QPB_CRIT_EXIT()  ((void)0)
#endif
#ifndef QPB_IDLE
#define QPB_IDLE() ((void)0)
#endif
#ifndef QPB_WAKE
#define QPB_WAKE(o) ((void)(o))
#endif
#ifndef QPB_LOOK
#define QPB_LOOK(floor) ((void)(floor))
#endif

#ifndef QPB_BITS
#define QPB_BITS 64
#endif
#if QPB_BITS == 64
typedef int64_t qpb_int;
typedef uint64_t qpb_uint;
#elif QPB_BITS != 32
#error "QPB_BITS is 64 or 32"
#elif defined(QPB_NEEDS_64)
#error "a number of this system needs 64 bits"
#else
typedef int32_t qpb_int;
typedef uint32_t qpb_uint;
#endif

/* A line that records. Notes stand outside of the critical section, operations within (recorder/qp_record.h). */
#if defined(QP_RECORD) && QP_RECORD
#if QP_RECORD == 1 && !defined(QPR_NOTE_ENTRY)
#define QPR_NOTE_ENTRY() QPB_CRIT_ENTRY()
#define QPR_NOTE_EXIT()  QPB_CRIT_EXIT()
#endif
#ifndef QPB_RECORDER
#define QPB_RECORDER "qp_record.h"
#endif
#include QPB_RECORDER
#define QPB_TELL(...) __VA_ARGS__
#define QPB_TELLS_IDLE (QP_RECORD == 2) /* with one buffer the host adds time events that a tick passes over */
#else
#define QPB_TELL(...)
#define QPB_TELLS_IDLE 0
#endif

enum {
    QPB_NONE_ASKED = -1,  /* in the place of a margin or a reserve */
    QPB_FIRST_SIG = 4,
    QPB_DEEPEST = 6,      /* states on a path */
    QPB_PARAMS = 8,       /* parameters of an event */
    QPB_STARTING = 255,   /* a threshold above all priorities */
    QPB_SOURCE = 255,     /* in the place of an object: a source of stimuli */
    QPB_MOST_TICKS = 65535
};

/* The assertions of docs/FORMATS.md; the last one is this header's own, with 32 bits alone, and has no record. */
enum { QPB_ASSERT_QUEUE = 1, QPB_ASSERT_POOL, QPB_ASSERT_ARMED, QPB_ASSERT_TICKS, QPB_ASSERT_LIFO, QPB_ASSERT_VALUE };

/* ---- tables -------------------------------------------------------------------------------------------------------------- */

/* The bytes of actions and guards. Values go on a stack; operands follow their byte. board/qpboard/numbers.py has the same. */
enum {
    QPB_OP_END,
    QPB_OP_N1, QPB_OP_N2, QPB_OP_N4, QPB_OP_N8, /* a number of so many bytes, the least significant first */
    QPB_OP_VAR, QPB_OP_PAR, QPB_OP_OK, QPB_OP_ME, QPB_OP_NEG, QPB_OP_NOT,
    QPB_OP_OR, QPB_OP_AND, QPB_OP_EQ, QPB_OP_NE, QPB_OP_LT, QPB_OP_LE, QPB_OP_GT, QPB_OP_GE,
    QPB_OP_ADD, QPB_OP_SUB, QPB_OP_MUL, QPB_OP_DIV, QPB_OP_MOD,
    QPB_OP_SET,                                 /* variable */
    QPB_OP_SAY,
    QPB_OP_POST,                                /* given, object, signal, margin, reserve */
    QPB_OP_LIFO,                                /* given, signal, reserve */
    QPB_OP_FORWARD,                             /* given, object, margin */
    QPB_OP_PUBLISH,                             /* given, signal, reserve */
    QPB_OP_DEFER, QPB_OP_RECALL, QPB_OP_FLUSH,
    QPB_OP_SUBSCRIBE, QPB_OP_UNSUBSCRIBE,       /* signal */
    QPB_OP_ARM, QPB_OP_REARM, QPB_OP_DISARM,    /* the chart's time event, from 0 */
    QPB_OP_LOCK,                                /* ceiling */
    QPB_OP_UNLOCK
};
enum { QPB_GIVEN_MARGIN = 1, QPB_GIVEN_RESERVE = 2, QPB_ME = 255 /* in the place of an object: the one that works */ };

#ifndef QPB_PLACE
#define QPB_PLACE uint16_t
#endif
typedef QPB_PLACE qpb_place; /* where a list's code begins; 0: there is none */

typedef struct {
    uint8_t parent, init, rows; /* states count from 1; 0 is the top, or none */
    uint16_t first_row;
    qpb_place entry, exit, init_do;
} qpb_state;

typedef struct {
    uint8_t on, to;
    qpb_place when, act;
} qpb_row;

typedef struct {
    qpb_state const *states; /* states[0] is the top */
    qpb_row const *rows;
    uint8_t const *code;
    qpb_place init_do;
    uint8_t init, vars;
} qpb_chart;

typedef struct {
    uint8_t pool, params; /* pool 0: static */
} qpb_signal;

typedef struct {
    uint16_t refs;
    uint8_t sig;
} qpb_block;

typedef struct {
    qpb_block *blocks;
    qpb_int *params; /* `size` of them for each block */
    uint8_t size, count;
} qpb_pool;

typedef struct {
    uint8_t owner, sig, rate; /* owner: an object's place */
} qpb_timer;

typedef struct {
    uint8_t pool, what; /* a block of a pool; or 0, and a signal */
} qpb_entry;

typedef struct {
    qpb_chart const *chart;
    qpb_int const *first; /* first values of its variables */
    qpb_int *vars;
    qpb_entry *queue, *deferred;
    uint8_t prio, threshold, ring, defer, timers; /* timers: how many time events the objects before it have */
} qpb_object;

/* The system, by places from 0: objects by ascending priority, pool 1, signal 4, time event 1 first. */
extern qpb_object const qpb_objects[];
extern qpb_pool const qpb_pools[];
extern qpb_signal const qpb_signals[];
extern qpb_timer const qpb_timers[];

/* ---- calls --------------------------------------------------------------------------------------------------------------- */

void qpb_start(void); /* the starts of all objects, lowest priority first */
void qpb_run(void);   /* QPB_QV, QPB_QK: steps of all objects above the floor, until no queue of theirs has an entry */
void qpb_step(unsigned o); /* one step of an object whose queue has an entry: called in the critical section, which it leaves */
unsigned qpb_state_of(unsigned o); /* the state that an object is in */

/* What a source of stimuli calls: an interrupt, a hook, another thread. Sources count from 1; two that may interrupt each other
 * need two numbers. A post answers 1, or 0 where the margin or the reserve refuses it. */
uint8_t qpb_post_from(unsigned source, unsigned o, uint8_t sig, qpb_int const *params, int margin, int reserve);
uint8_t qpb_publish_from(unsigned source, uint8_t sig, qpb_int const *params, int reserve);
void qpb_tick_from(unsigned source, uint8_t rate);

/* What the board provides. */
void qpb_on_say(unsigned o, qpb_int value);        /* an object's `say` */
/* In the critical section; doesn't return. `where` is a pool or a time event from 1, or an object from 0. */
void qpb_on_assert(unsigned code, unsigned where);
#ifdef QPB_HOOKS
/* Called in each step of an object that has one, behind what its chart does. */
typedef void (*qpb_hook)(uint8_t sig, qpb_int const *params);
extern qpb_hook const qpb_hooks[];
#endif

/* ---- state --------------------------------------------------------------------------------------------------------------- */

typedef struct {
    uint16_t count; /* entries of its queue */
    uint8_t head, held_head, held; /* the first of them; the first deferred entry, and how many there are */
    uint8_t leaf, ok;
} qpb_active;

extern qpb_active qpb_actives[];
extern uint32_t volatile qpb_ready; /* bit o: object o's queue has an entry */

#endif /* QP_BOARD_H */

#ifdef QPB_BODY
#ifndef QPB_BODY_IS_HERE
#define QPB_BODY_IS_HERE

enum {
    QPB_POOLS_ROOM = QPB_POOLS ? QPB_POOLS : 1,
    QPB_SIGNALS_ROOM = QPB_SIGNALS ? QPB_SIGNALS : 1,
    QPB_TIMERS_ROOM = QPB_TIMERS ? QPB_TIMERS : 1
};

qpb_active qpb_actives[QPB_OBJECTS];
uint32_t volatile qpb_ready;
static uint8_t volatile qpb_running = QPB_STARTING; /* the threshold of the step under way, 0 for none */
static uint8_t volatile qpb_ceiling;
static uint32_t qpb_free[QPB_POOLS_ROOM];           /* bit b: block b is free */
static uint32_t qpb_subscribers[QPB_SIGNALS_ROOM];  /* bit o: object o */
static struct { uint16_t counter, interval; } qpb_counters[QPB_TIMERS_ROOM];
QPB_TELL(QPR_STATE();)

#define QPB_BIT(n) (UINT32_C(1) << (n))
#define QPB_PRIO(o) (qpb_objects[o].prio)

/* ---- sets of 32 ---------------------------------------------------------------------------------------------------------- */

static unsigned qpb_count(uint32_t set) {
    unsigned n = 0;
    for (; set; set &= set - 1u) ++n;
    return n;
}
static unsigned qpb_lowest(uint32_t set) {
    unsigned n = 0;
    while (!(set >> n & 1u)) ++n;
    return n;
}
/* One more than the place of the highest bit; 0 where there is none. */
static unsigned qpb_above(uint32_t set) {
    unsigned n = 0;
    for (unsigned half = 16; half; half /= 2) {
        if (set >> half) {
            set >>= half;
            n += half;
        }
    }
    return n + (set != 0);
}
QPB_TELL(static uint32_t qpb_by_priority(uint32_t set) {
    uint32_t found = 0;
    for (unsigned o = 0; o < QPB_OBJECTS; ++o) {
        if (set >> o & 1u) found |= QPB_BIT(QPB_PRIO(o) - 1u);
    }
    return found;
})

/* ---- blocks and references: in the critical section ---------------------------------------------------------------------- */

static qpb_block *qpb_block_of(qpb_entry e) { return &qpb_pools[e.pool - 1].blocks[e.what]; }
static qpb_int *qpb_params_of(qpb_entry e) { return qpb_pools[e.pool - 1].params + (size_t)e.what * qpb_pools[e.pool - 1].size; }
static int qpb_is_pooled(qpb_entry e) { return QPB_POOLS && e.pool; }
static uint8_t qpb_sig_of(qpb_entry e) { return qpb_is_pooled(e) ? qpb_block_of(e)->sig : e.what; }

QPB_TELL(static void qpb_tell_event(qpb_entry e, unsigned n) {
    uint64_t params[QPB_PARAMS];
    for (unsigned i = 0; i < n; ++i) params[i] = (uint64_t)(int64_t)qpb_params_of(e)[i];
    QPR_EVENT(e.pool, e.what, n, params);
})

/* A block for an event, the least free one. Answers 0 where the reserve refuses it. */
static uint8_t qpb_give(uint8_t sig, qpb_int const *params, int reserve, qpb_entry *e) {
    qpb_signal const s = qpb_signals[sig - QPB_FIRST_SIG];
    uint32_t *const free = &qpb_free[s.pool - 1];
    if (reserve >= 0 && qpb_count(*free) <= (unsigned)reserve) {
        QPB_TELL(QPR_SHORT(s.pool, qpb_count(*free), (uint32_t)reserve));
        return 0;
    }
    if (*free == 0) {
        QPB_TELL(QPR_ASSERT_POOL(s.pool, 0));
        qpb_on_assert(QPB_ASSERT_POOL, s.pool);
    }
    e->pool = s.pool;
    e->what = (uint8_t)qpb_lowest(*free);
    *free &= *free - 1u;
    qpb_block_of(*e)->sig = sig;
    qpb_block_of(*e)->refs = 0;
    for (unsigned i = 0; i < s.params; ++i) qpb_params_of(*e)[i] = params[i];
    QPB_TELL(QPR_NEW(e->pool, e->what, sig));
    QPB_TELL(qpb_tell_event(*e, s.params));
    return 1;
}

/* An entry of a signal: static, or of a new block. */
static uint8_t qpb_make(uint8_t sig, qpb_int const *params, int reserve, qpb_entry *e) {
    e->pool = 0;
    e->what = sig;
    return QPB_POOLS == 0 || qpb_signals[sig - QPB_FIRST_SIG].pool == 0 || qpb_give(sig, params, reserve, e);
}
static void qpb_inc(qpb_entry e) {
    if (!qpb_is_pooled(e)) return;
    ++qpb_block_of(e)->refs;
    QPB_TELL(QPR_INC(e.pool, e.what));
}
static void qpb_dec(qpb_entry e) {
    if (!qpb_is_pooled(e)) return;
    QPB_TELL(QPR_DEC(e.pool, e.what));
    if (--qpb_block_of(e)->refs == 0) {
        QPB_TELL(QPR_BACK(e.pool, e.what));
        qpb_free[e.pool - 1] |= QPB_BIT(e.what);
    }
}
static void qpb_release(qpb_entry e) {
    QPB_CRIT_ENTRY();
    qpb_dec(e);
    QPB_CRIT_EXIT();
}

/* ---- queues: in the critical section ------------------------------------------------------------------------------------- */

static unsigned qpb_room(unsigned o) { return qpb_objects[o].ring + 1u; }
static unsigned qpb_within(unsigned at, unsigned room) { return at < room ? at : at - room; }

static void qpb_lay(unsigned o, unsigned at, qpb_entry e) {
    qpb_objects[o].queue[at] = e;
    ++qpb_actives[o].count;
    qpb_ready |= QPB_BIT(o);
}
/* Puts an entry behind all others. Answers 0 where its margin refuses it. */
static uint8_t qpb_behind(unsigned o, qpb_entry e, int margin) {
    qpb_active *const a = &qpb_actives[o];
    unsigned const room = qpb_room(o);
    if (room - a->count <= (margin < 0 ? 0u : (unsigned)margin)) {
        if (margin < 0) {
            QPB_TELL(QPR_ASSERT_QUEUE(QPB_PRIO(o)));
            qpb_on_assert(QPB_ASSERT_QUEUE, o);
        }
        QPB_TELL(QPR_FULL(QPB_PRIO(o), (uint32_t)margin));
        return 0;
    }
    qpb_lay(o, qpb_within(a->head + a->count, room), e);
    QPB_TELL(QPR_POST(QPB_PRIO(o), e.pool, e.what));
    QPB_WAKE(o);
    return 1;
}
/* Puts an entry in front of the object's own queue. */
static void qpb_before(unsigned o, qpb_entry e) {
    qpb_active *const a = &qpb_actives[o];
    unsigned const room = qpb_room(o);
    if (a->count == room) {
        QPB_TELL(QPR_ASSERT_LIFO());
        qpb_on_assert(QPB_ASSERT_LIFO, o);
    }
    a->head = (uint8_t)qpb_within(a->head + room - 1u, room);
    qpb_lay(o, a->head, e);
    QPB_TELL(QPR_LIFO(e.pool, e.what));
}
static qpb_entry qpb_take(unsigned o) {
    qpb_active *const a = &qpb_actives[o];
    qpb_entry const e = qpb_objects[o].queue[a->head];
    a->head = (uint8_t)qpb_within(a->head + 1u, qpb_room(o));
    if (--a->count == 0) qpb_ready &= ~QPB_BIT(o);
    QPB_TELL(QPR_TOOK(e.pool, e.what));
    return e;
}
/* A reference, and then the entry behind all others; where that is refused, no reference is left. */
static uint8_t qpb_hand_in(unsigned o, qpb_entry e, int margin) {
    qpb_inc(e);
    if (qpb_behind(o, e, margin)) return 1;
    qpb_dec(e);
    return 0;
}

/* ---- calls of objects and sources ---------------------------------------------------------------------------------------- */

static void qpb_point(void);

static uint8_t qpb_post(unsigned o, uint8_t sig, qpb_int const *params, int margin, int reserve) {
    qpb_entry e;
    return qpb_make(sig, params, reserve, &e) && qpb_hand_in(o, e, margin);
}
static uint8_t qpb_post_lifo(unsigned o, uint8_t sig, qpb_int const *params, int reserve) {
    qpb_entry e;
    if (!qpb_make(sig, params, reserve, &e)) return 0;
    qpb_inc(e);
    qpb_before(o, e);
    return 1;
}

/* Raises the ceiling of the kernel, and answers the former one. Only the preemptive kernel has one. */
static uint8_t qpb_raise(unsigned ceiling) {
    uint8_t former = 0;
    if (QPB_KERNEL == QPB_QK) {
        former = qpb_ceiling;
        if (former < ceiling) qpb_ceiling = (uint8_t)ceiling;
    }
    return former;
}
static void qpb_restore(uint8_t former) {
    if (QPB_KERNEL == QPB_QK) qpb_ceiling = former;
}

/* Posts an entry to each of a set, the highest first. */
static void qpb_post_all(uint32_t set, qpb_entry e, int is_handler) {
    for (unsigned above; (above = qpb_above(set)) != 0; set &= ~QPB_BIT(above - 1u)) {
        QPB_CRIT_ENTRY();
        qpb_inc(e);
        (void)qpb_behind(above - 1u, e, QPB_NONE_ASKED);
        QPB_CRIT_EXIT();
        if (is_handler) qpb_point();
    }
}
/* Posts an event to its subscribers. A handler's posts stand below a ceiling; `own` is what the object has raised by itself. */
static void qpb_multicast(uint8_t sig, qpb_entry e, int is_handler, uint8_t own) {
    QPB_CRIT_ENTRY();
    qpb_inc(e);
    uint32_t const set = qpb_subscribers[sig - QPB_FIRST_SIG];
    QPB_TELL(QPR_PUB(sig, qpb_by_priority(set)));
    QPB_CRIT_EXIT();
    if (set && is_handler) {
        uint8_t const highest = QPB_PRIO(qpb_above(set) - 1u);
        uint8_t const former = qpb_raise(highest);
        (void)own;
        QPB_TELL(QPR_LOCK(own < highest ? highest : own));
        qpb_post_all(set, e, 1);
        qpb_restore(former);
        QPB_TELL(QPR_UNLOCK(own));
    } else {
        qpb_post_all(set, e, 0);
    }
    qpb_release(e);
}
static uint8_t qpb_publish(uint8_t sig, qpb_int const *params, int reserve, int is_handler, uint8_t own) {
    qpb_entry e;
    QPB_CRIT_ENTRY();
    uint8_t const is_made = qpb_make(sig, params, reserve, &e);
    QPB_CRIT_EXIT();
    if (is_made) qpb_multicast(sig, e, is_handler, own);
    return is_made;
}

static uint8_t qpb_subscribe(unsigned o, uint8_t sig, unsigned joins) {
    uint32_t *const set = &qpb_subscribers[sig - QPB_FIRST_SIG];
    if ((*set >> o & 1u) == joins) {
        QPB_TELL(QPR_SAME(sig));
        return 0;
    }
    *set ^= QPB_BIT(o);
    QPB_TELL(if (joins) { QPR_SUB(sig); } else { QPR_UNSUB(sig); });
    return 1;
}

/* ---- deferred events ----------------------------------------------------------------------------------------------------- */

static uint8_t qpb_defer(unsigned o, qpb_entry e) {
    qpb_active *const a = &qpb_actives[o];
    unsigned const room = qpb_objects[o].defer;
    if (a->held == room) {
        QPB_TELL(QPR_NODEFER());
        return 0;
    }
    QPB_CRIT_ENTRY();
    qpb_inc(e);
    QPB_CRIT_EXIT();
    qpb_objects[o].deferred[qpb_within((unsigned)a->held_head + a->held, room)] = e;
    ++a->held;
    QPB_TELL(QPR_DEFER(e.pool, e.what));
    return 1;
}
static qpb_entry qpb_oldest(unsigned o) {
    qpb_active *const a = &qpb_actives[o];
    qpb_entry const e = qpb_objects[o].deferred[a->held_head];
    a->held_head = (uint8_t)qpb_within(a->held_head + 1u, qpb_objects[o].defer);
    --a->held;
    return e;
}
static uint8_t qpb_recall(unsigned o) {
    if (qpb_actives[o].held == 0) {
        QPB_TELL(QPR_NORECALL());
        return 0;
    }
    qpb_entry const e = qpb_oldest(o);
    QPB_TELL(QPR_RECALL(e.pool, e.what));
    QPB_CRIT_ENTRY();
    qpb_inc(e);
    qpb_before(o, e);
    qpb_dec(e);
    QPB_CRIT_EXIT();
    return 1;
}
static uint8_t qpb_flush(unsigned o) {
    uint8_t n = 0;
    for (; qpb_actives[o].held; ++n) {
        qpb_entry const e = qpb_oldest(o);
        QPB_TELL(QPR_FLUSH(e.pool, e.what));
        qpb_release(e);
    }
    return n;
}

/* ---- time events: in the critical section; they count from 0 here, and from 1 in records ---------------------------------- */

static void qpb_check_ticks(unsigned t, qpb_int ticks, qpb_int interval) {
    if (ticks >= 1 && ticks <= QPB_MOST_TICKS && interval >= 0 && interval <= QPB_MOST_TICKS) return;
    QPB_TELL(QPR_ASSERT_TICKS(t + 1u, ticks, interval));
    qpb_on_assert(QPB_ASSERT_TICKS, t + 1u);
}
static uint8_t qpb_arm(unsigned t, qpb_int ticks, qpb_int interval) {
    qpb_check_ticks(t, ticks, interval);
    if (qpb_counters[t].counter) {
        QPB_TELL(QPR_ASSERT_ARMED(t + 1u, qpb_counters[t].counter));
        qpb_on_assert(QPB_ASSERT_ARMED, t + 1u);
    }
    qpb_counters[t].counter = (uint16_t)ticks;
    qpb_counters[t].interval = (uint16_t)interval;
    QPB_TELL(QPR_ARM(t + 1u, (uint32_t)ticks, (uint32_t)interval));
    return 1;
}
static uint8_t qpb_rearm(unsigned t, qpb_int ticks) {
    qpb_check_ticks(t, ticks, 0);
    uint16_t const former = qpb_counters[t].counter;
    qpb_counters[t].counter = (uint16_t)ticks;
    QPB_TELL(QPR_REARM(t + 1u, former, (uint32_t)ticks));
    return former != 0;
}
static uint8_t qpb_disarm(unsigned t) {
    uint16_t const former = qpb_counters[t].counter;
    qpb_counters[t].counter = 0;
    QPB_TELL(if (former) { QPR_DISARM(t + 1u, former); } else { QPR_IDLE(t + 1u); });
    return former != 0;
}
static void qpb_count_down(unsigned t) {
    if (qpb_counters[t].counter == 0) {
        QPB_TELL(if (QPB_TELLS_IDLE) { QPR_IDLE(t + 1u); });
        return;
    }
    if (--qpb_counters[t].counter) {
        QPB_TELL(QPR_TICK(t + 1u, qpb_counters[t].counter));
        return;
    }
    qpb_counters[t].counter = qpb_counters[t].interval;
    QPB_TELL(QPR_FIRE(t + 1u, qpb_counters[t].interval));
    qpb_entry const e = { 0, qpb_timers[t].sig };
    (void)qpb_behind(qpb_timers[t].owner, e, QPB_NONE_ASKED);
}

/* ---- sources ------------------------------------------------------------------------------------------------------------- */

uint8_t qpb_post_from(unsigned source, unsigned o, uint8_t sig, qpb_int const *params, int margin, int reserve) {
    (void)source;
    QPB_TELL(QPR_SWITCH(QPR_SOURCE(source)));
    QPB_CRIT_ENTRY();
    QPB_TELL(QPR_STIM_POST(QPB_PRIO(o), sig, margin, reserve));
    uint8_t const is_posted = qpb_post(o, sig, params, margin, reserve);
    QPB_CRIT_EXIT();
    QPB_TELL(QPR_RESTORE());
    return is_posted;
}
uint8_t qpb_publish_from(unsigned source, uint8_t sig, qpb_int const *params, int reserve) {
    (void)source;
    QPB_TELL(QPR_SWITCH(QPR_SOURCE(source)));
    QPB_TELL(QPB_CRIT_ENTRY(); QPR_STIM_PUBLISH(sig, reserve); QPB_CRIT_EXIT());
    uint8_t const is_published = qpb_publish(sig, params, reserve, 0, 0);
    QPB_TELL(QPR_RESTORE());
    return is_published;
}
void qpb_tick_from(unsigned source, uint8_t rate) {
    unsigned const timers = QPB_TIMERS;
    (void)source;
    QPB_TELL(QPR_SWITCH(QPR_SOURCE(source)));
    QPB_CRIT_ENTRY();
    QPB_TELL(QPR_STIM_TICK(rate));
    for (unsigned t = 0; t < timers; ++t) {
        if (qpb_timers[t].rate == rate) qpb_count_down(t);
    }
    QPB_CRIT_EXIT();
    QPB_TELL(QPR_RESTORE());
}

/* ---- charts: the interpreter --------------------------------------------------------------------------------------------- */

static void qpb_start_chart(unsigned o);
static void qpb_dispatch(unsigned o, qpb_entry now);

#ifndef QPB_OTHER_CHARTS /* who defines it has these two functions by himself */

/* What no chart of the system does is left out of the interpreter. */
#define QPB_DOES(op) ((QPB_USED >> (op) & 1u) != 0)

/* Code at work: for which object, and in whose step; the next byte, and the next free place of the stack. */
struct qpb_work {
    unsigned o;
    qpb_entry now;
    uint8_t const *at;
    qpb_int *top;
    uint8_t own, former; /* within `locked`: its ceiling, and the kernel's before */
};

#if QPB_BITS == 32
static qpb_int qpb_fitting(unsigned o, int64_t value) {
    if (value < INT32_MIN || value > INT32_MAX) {
        QPB_CRIT_ENTRY();
        qpb_on_assert(QPB_ASSERT_VALUE, o);
    }
    return (qpb_int)value;
}
#define QPB_VALUE(o, a, operator, b) qpb_fitting((o), (int64_t)(a) operator (b))
#else
#define QPB_VALUE(o, a, operator, b) ((void)(o), (qpb_int)((qpb_uint)(a) operator (qpb_uint)(b)))
#endif

/* Towards zero; a divisor 0 gives 0, and the least number divided by -1 itself, or an assertion. */
static qpb_int qpb_divided(unsigned o, qpb_int a, qpb_int b) {
    return b == 0 ? 0 : b == -1 ? QPB_VALUE(o, 0, -, a) : a / b;
}
static qpb_int qpb_rest(qpb_int a, qpb_int b) { return b == 0 || b == -1 ? 0 : a % b; }

static qpb_int qpb_joined(unsigned o, uint8_t op, qpb_int a, qpb_int b) {
    switch (op) {
    case QPB_OP_OR:  return a || b;
    case QPB_OP_AND: return a && b;
    case QPB_OP_EQ:  return a == b;
    case QPB_OP_NE:  return a != b;
    case QPB_OP_LT:  return a < b;
    case QPB_OP_LE:  return a <= b;
    case QPB_OP_GT:  return a > b;
    case QPB_OP_GE:  return a >= b;
    case QPB_OP_ADD: return QPB_VALUE(o, a, +, b);
    case QPB_OP_SUB: return QPB_VALUE(o, a, -, b);
    case QPB_OP_MUL: return QPB_DOES(QPB_OP_MUL) ? QPB_VALUE(o, a, *, b) : 0;
    case QPB_OP_DIV: return QPB_DOES(QPB_OP_DIV) ? qpb_divided(o, a, b) : 0;
    default:         return QPB_DOES(QPB_OP_MOD) ? qpb_rest(a, b) : 0;
    }
}
/* A number of so many bytes with a sign. */
static qpb_int qpb_number(struct qpb_work *w, unsigned bytes) {
    qpb_uint value = w->at[bytes - 1] & 0x80u ? ~(qpb_uint)0 : 0;
    for (unsigned i = bytes; i-- > 0;) value = (qpb_uint)(value << 8 | w->at[i]);
    w->at += bytes;
    return (qpb_int)value;
}
static void qpb_evaluate(struct qpb_work *w, uint8_t op) {
    qpb_int *const top = w->top;
    switch (op) {
    case QPB_OP_N1: case QPB_OP_N2: case QPB_OP_N4: case QPB_OP_N8:
        *w->top++ = qpb_number(w, 1u << (op - QPB_OP_N1));
        break;
    case QPB_OP_VAR: *w->top++ = qpb_objects[w->o].vars[*w->at++]; break;
    case QPB_OP_PAR: *w->top++ = qpb_params_of(w->now)[*w->at++]; break;
    case QPB_OP_OK:  *w->top++ = qpb_actives[w->o].ok; break;
    case QPB_OP_ME:  *w->top++ = QPB_PRIO(w->o); break;
    case QPB_OP_NEG: top[-1] = QPB_VALUE(w->o, 0, -, top[-1]); break;
    case QPB_OP_NOT: top[-1] = !top[-1]; break;
    default:
        top[-2] = qpb_joined(w->o, op, top[-2], top[-1]);
        --w->top;
        break;
    }
}

static unsigned qpb_receiver(struct qpb_work const *w, uint8_t object) { return object == QPB_ME ? w->o : object; }
static int qpb_given(uint8_t given, uint8_t which, uint8_t value) { return given & which ? value : QPB_NONE_ASKED; }
/* Takes the parameters of an event off the stack. */
static qpb_int const *qpb_pop(struct qpb_work *w, uint8_t sig) { return w->top -= qpb_signals[sig - QPB_FIRST_SIG].params; }

static uint8_t qpb_call_post(struct qpb_work *w, uint8_t const *c) {
    w->at += 5;
    return qpb_post(qpb_receiver(w, c[1]), c[2], qpb_pop(w, c[2]), qpb_given(c[0], QPB_GIVEN_MARGIN, c[3]),
                    qpb_given(c[0], QPB_GIVEN_RESERVE, c[4]));
}
static uint8_t qpb_call_lifo(struct qpb_work *w, uint8_t const *c) {
    w->at += 3;
    return qpb_post_lifo(w->o, c[1], qpb_pop(w, c[1]), qpb_given(c[0], QPB_GIVEN_RESERVE, c[2]));
}
static uint8_t qpb_call_forward(struct qpb_work *w, uint8_t const *c) {
    w->at += 3;
    return qpb_hand_in(qpb_receiver(w, c[1]), w->now, qpb_given(c[0], QPB_GIVEN_MARGIN, c[2]));
}
static uint8_t qpb_call_publish(struct qpb_work *w, uint8_t const *c) {
    w->at += 3;
    return qpb_publish(c[1], qpb_pop(w, c[1]), qpb_given(c[0], QPB_GIVEN_RESERVE, c[2]), 1, w->own);
}

/* A call that is one critical section. Answers what `ok` becomes. */
static uint8_t qpb_call_short(struct qpb_work *w, uint8_t op) {
    uint8_t const *const c = w->at;
    unsigned const t = qpb_objects[w->o].timers + c[0]; /* of the calls on time events */
    switch (op) {
    case QPB_OP_POST:    return QPB_DOES(QPB_OP_POST) ? qpb_call_post(w, c) : 0;
    case QPB_OP_LIFO:    return QPB_DOES(QPB_OP_LIFO) ? qpb_call_lifo(w, c) : 0;
    case QPB_OP_FORWARD: return QPB_DOES(QPB_OP_FORWARD) ? qpb_call_forward(w, c) : 0;
    case QPB_OP_SUBSCRIBE: case QPB_OP_UNSUBSCRIBE:
        if (!QPB_DOES(QPB_OP_SUBSCRIBE) && !QPB_DOES(QPB_OP_UNSUBSCRIBE)) return 0;
        ++w->at;
        return qpb_subscribe(w->o, c[0], op == QPB_OP_SUBSCRIBE);
    case QPB_OP_ARM:
        if (!QPB_DOES(QPB_OP_ARM)) return 0;
        ++w->at;
        w->top -= 2;
        return qpb_arm(t, w->top[0], w->top[1]);
    case QPB_OP_REARM:
        if (!QPB_DOES(QPB_OP_REARM)) return 0;
        ++w->at;
        return qpb_rearm(t, *--w->top);
    default:
        if (!QPB_DOES(QPB_OP_DISARM)) return 0;
        ++w->at;
        return qpb_disarm(t);
    }
}
static uint8_t qpb_call(struct qpb_work *w, uint8_t op) {
    switch (op) {
    case QPB_OP_PUBLISH: return QPB_DOES(QPB_OP_PUBLISH) ? qpb_call_publish(w, w->at) : 0;
    case QPB_OP_DEFER:   return QPB_DOES(QPB_OP_DEFER) ? qpb_defer(w->o, w->now) : 0;
    case QPB_OP_RECALL:  return QPB_DOES(QPB_OP_RECALL) ? qpb_recall(w->o) : 0;
    case QPB_OP_FLUSH:   return QPB_DOES(QPB_OP_FLUSH) ? qpb_flush(w->o) : 0;
    default: break;
    }
    QPB_CRIT_ENTRY();
    uint8_t const ok = qpb_call_short(w, op);
    QPB_CRIT_EXIT();
    return ok;
}
/* An action. Behind it stands a scheduling point, but not behind the beginning of `locked`. */
static void qpb_act(struct qpb_work *w, uint8_t op) {
    switch (op) {
    case QPB_OP_SET: qpb_objects[w->o].vars[*w->at++] = *--w->top; break;
    case QPB_OP_SAY:
        if (!QPB_DOES(QPB_OP_SAY)) return;
        --w->top;
        QPB_TELL(QPR_SAY(*w->top));
        qpb_on_say(w->o, *w->top);
        break;
    case QPB_OP_LOCK:
        if (!QPB_DOES(QPB_OP_LOCK)) return;
        w->own = *w->at++;
        w->former = qpb_raise(w->own);
        QPB_TELL(QPR_LOCK(w->own));
        return;
    case QPB_OP_UNLOCK:
        if (!QPB_DOES(QPB_OP_LOCK)) return;
        qpb_restore(w->former);
        w->own = 0;
        QPB_TELL(QPR_UNLOCK(0));
        break;
    default: qpb_actives[w->o].ok = qpb_call(w, op); break;
    }
    qpb_point();
}
/* Does the code at a place. Answers the value that is left: that of a guard. */
static qpb_int qpb_do(unsigned o, qpb_place place, qpb_entry now) {
    qpb_int stack[QPB_STACK];
    struct qpb_work w = { o, now, qpb_objects[o].chart->code + place, stack, 0, 0 };
    for (uint8_t op; (op = *w.at++) != QPB_OP_END;) {
        if (op < QPB_OP_SET) {
            qpb_evaluate(&w, op);
        } else {
            qpb_act(&w, op);
        }
    }
    return w.top == stack ? 0 : stack[0];
}
static void qpb_do_list(unsigned o, qpb_place place, qpb_entry now) {
    if (place) (void)qpb_do(o, place, now);
}

/* Enters the states of the target's path below `main`, and takes initial transitions until a state has none. */
static void qpb_enter(unsigned o, uint8_t main, uint8_t target, qpb_entry now) {
    qpb_state const *const states = qpb_objects[o].chart->states;
    for (; target; target = states[main].init) {
        uint8_t path[QPB_DEEPEST];
        unsigned n = 0;
        for (uint8_t s = target; s != main; s = states[s].parent) path[n++] = s;
        while (n-- > 0) {
            QPB_TELL(QPR_ENTER(path[n]));
            qpb_do_list(o, states[path[n]].entry, now);
        }
        main = target;
        if (states[main].init) {
            QPB_TELL(QPR_INIT(main));
            qpb_do_list(o, states[main].init_do, now);
        }
    }
    qpb_actives[o].leaf = main;
}
static void qpb_exit(unsigned o, uint8_t main, qpb_entry now) {
    qpb_state const *const states = qpb_objects[o].chart->states;
    for (uint8_t s = qpb_actives[o].leaf; s != main; s = states[s].parent) {
        QPB_TELL(QPR_EXIT(s));
        qpb_do_list(o, states[s].exit, now);
    }
}
/* The innermost state that a transition neither leaves nor enters; 0 is the top. */
static uint8_t qpb_main(qpb_state const *states, uint8_t source, uint8_t target) {
    for (uint8_t main = source == target ? states[source].parent : source;; main = states[main].parent) {
        uint8_t s = target;
        while (s != main && s != 0) s = states[s].parent;
        if (s == main) return main;
    }
}
/* The first row of a state for a signal whose guard isn't 0, from 1; 0 where there is none. */
static unsigned qpb_row_of(unsigned o, qpb_state const *state, uint8_t sig, qpb_entry now) {
    qpb_row const *const rows = qpb_objects[o].chart->rows + state->first_row;
    for (unsigned i = 0; i < state->rows; ++i) {
        if (rows[i].on == sig && (rows[i].when == 0 || qpb_do(o, rows[i].when, now))) return i + 1u;
    }
    return 0;
}
static void qpb_start_chart(unsigned o) {
    qpb_chart const *const chart = qpb_objects[o].chart;
    qpb_entry const none = { 0, 0 };
    for (unsigned i = 0; i < chart->vars; ++i) qpb_objects[o].vars[i] = qpb_objects[o].first[i];
    qpb_do_list(o, chart->init_do, none);
    qpb_enter(o, 0, chart->init, none);
}
static void qpb_dispatch(unsigned o, qpb_entry now) {
    qpb_chart const *const chart = qpb_objects[o].chart;
    uint8_t source = qpb_actives[o].leaf;
    unsigned number = 0;
    for (; source && (number = qpb_row_of(o, &chart->states[source], qpb_sig_of(now), now)) == 0;) {
        source = chart->states[source].parent;
    }
    if (source == 0) {
        QPB_TELL(QPR_NONE());
        return;
    }
    qpb_row const *const row = &chart->rows[chart->states[source].first_row + number - 1u];
    QPB_TELL(QPR_RUN(source, number));
    qpb_do_list(o, row->act, now);
    if (row->to == 0) return;
    uint8_t const main = qpb_main(chart->states, source, row->to);
    qpb_exit(o, main, now);
    qpb_enter(o, main, row->to, now);
}
#endif /* QPB_OTHER_CHARTS */

/* ---- steps and kernels --------------------------------------------------------------------------------------------------- */

unsigned qpb_state_of(unsigned o) { return qpb_actives[o].leaf; }

void qpb_step(unsigned o) {
    QPB_TELL(QPR_SWITCH(QPR_OBJECT(QPB_PRIO(o))));
    uint8_t preempted = 0;
    if (QPB_KERNEL == QPB_QK) {
        preempted = qpb_running;
        qpb_running = qpb_objects[o].threshold;
    }
    qpb_entry const e = qpb_take(o);
    QPB_CRIT_EXIT();
    qpb_dispatch(o, e);
#ifdef QPB_HOOKS
    if (qpb_hooks[o]) {
        qpb_hooks[o](qpb_sig_of(e), qpb_is_pooled(e) ? qpb_params_of(e) : NULL);
        qpb_point();
    }
#endif
    QPB_TELL(QPR_DONE());
    QPB_CRIT_ENTRY();
    qpb_dec(e);
    if (QPB_KERNEL == QPB_QK) qpb_running = preempted;
    QPB_TELL(QPR_RESTORE());
    QPB_CRIT_EXIT();
}

/* Under QPB_QK an interrupt's end calls it too. Steps run above the floor: the larger of the threshold and the ceiling. */
void qpb_run(void) {
    if (qpb_running == QPB_STARTING) return;
    for (;;) {
        QPB_CRIT_ENTRY();
        unsigned const floor = qpb_running > qpb_ceiling ? qpb_running : qpb_ceiling;
        QPB_LOOK(floor);
        unsigned const above = qpb_above(qpb_ready);
        if (above == 0 || QPB_PRIO(above - 1u) <= floor) break;
        qpb_step(above - 1u);
    }
    if (QPB_KERNEL == QPB_QV) QPB_IDLE();
    QPB_CRIT_EXIT();
}
/* A scheduling point of a step. In the cooperative kernel none is above it. */
static void qpb_point(void) {
    if (QPB_KERNEL == QPB_QK) qpb_run();
    if (QPB_KERNEL == QPB_QV && qpb_running != QPB_STARTING) QPB_LOOK(32u);
}

void qpb_start(void) {
    unsigned const pools = QPB_POOLS;
    for (unsigned p = 0; p < pools; ++p) qpb_free[p] = UINT32_MAX >> (32u - qpb_pools[p].count);
    for (unsigned o = 0; o < QPB_OBJECTS; ++o) {
        QPB_TELL(QPR_BY(QPR_OBJECT(QPB_PRIO(o))));
        QPB_TELL(QPR_BEGIN());
        qpb_start_chart(o);
        QPB_TELL(QPR_DONE());
    }
    QPB_TELL(QPR_BY(0));
    qpb_running = 0;
}

#endif /* QPB_BODY_IS_HERE */
#endif /* QPB_BODY */

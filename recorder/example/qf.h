/* A small framework of active objects, in QP's names where they fit: statecharts, event pools, queues, publishing, deferral and
 * time events, with a thread for each object. It is here to be recorded: each QPR_ line is one that a framework would add. */
#ifndef QF_H
#define QF_H

#include <stdbool.h>
#include <stdint.h>

#include "qf_port.h"

/* ---- events ---- */

typedef uint16_t QSignal;
enum { Q_EMPTY_SIG, Q_ENTRY_SIG, Q_EXIT_SIG, Q_INIT_SIG, Q_USER_SIG };

typedef struct {
    QSignal sig;
    uint8_t poolNum_; /* 0: the event lies in no pool */
    uint8_t refCtr_;
} QEvt;

enum { QF_MAX_PARAMS = 8, QF_MAX_POOL = 15, QF_MAX_BLOCKS = 32, QF_MAX_ACTIVE = 32, QF_MAX_SIG = 204, QF_MAX_TIMERS = 64 };

/* An event with parameters; a block has room for those of its pool alone. */
typedef struct {
    QEvt super;
    uint64_t par[QF_MAX_PARAMS];
} QParEvt;
#define Q_PAR(e_, i_) (((QParEvt const *)(e_))->par[(i_) - 1])

#define QF_NO_MARGIN (-1)

QEvt *QF_newX_(QSignal sig, int margin); /* NULL: refused, with a margin alone */
void QF_gc(QEvt const *e);
#define Q_NEW(sig_)           ((QParEvt *)QF_newX_((sig_), QF_NO_MARGIN))
#define Q_NEW_X(sig_, margin_) ((QParEvt *)QF_newX_((sig_), (margin_)))

/* ---- statecharts ---- */

typedef enum { Q_RET_HANDLED, Q_RET_UNHANDLED, Q_RET_SUPER, Q_RET_TRAN, Q_RET_IGNORED } QState;
typedef struct QHsm QHsm;
typedef QState (*QStateHandler)(QHsm *me, QEvt const *e);
struct QHsm {
    QStateHandler state, temp;
    QStateHandler const *states; /* in the order of the system's file, ended by NULL: their numbers */
};
#define Q_HANDLED()   (Q_RET_HANDLED)
#define Q_UNHANDLED() (Q_RET_UNHANDLED)
#define Q_TRAN(target_) (me->temp = (target_), Q_RET_TRAN)
#define Q_SUPER(super_) (me->temp = (super_), Q_RET_SUPER)

QState QHsm_top(QHsm *me, QEvt const *e);
void QHsm_init_(QHsm *me);
void QHsm_dispatch_(QHsm *me, QEvt const *e);

/* ---- queues and active objects ---- */

typedef struct {
    QEvt const *frontEvt;
    QEvt const **ring;
    uint16_t end, head, tail, nFree, nMax;
} QEQueue;

void QEQueue_init(QEQueue *me, QEvt const **ring, uint16_t length, uint16_t capacity);

typedef struct QActive {
    QHsm super;
    char const *name;
    uint8_t prio;
    bool isWaiting;
    QEQueue eQueue;
    QEQueue deferred;
    pthread_cond_t more;
    pthread_t thread;
} QActive;

/* An object's queue has one place more than its ring. */
void QActive_ctor(QActive *me, QStateHandler initial, QStateHandler const *states);
void QActive_start(QActive *me, char const *name, uint8_t prio, QEvt const **ring, uint16_t length, QEvt const **deferred,
                   uint16_t capacity);

bool QActive_post_(QActive *me, QEvt const *e, int margin);
void QActive_postLIFO_(QActive *me, QEvt const *e);
QEvt const *QActive_get_(QActive *me); /* NULL: the run is over */
void QActive_publish_(QEvt const *e, uint8_t prio); /* prio 0: a source publishes */
#define QACTIVE_POST(me_, e_)            ((void)QActive_post_((me_), (e_), QF_NO_MARGIN))
#define QACTIVE_POST_X(me_, e_, margin_) QActive_post_((me_), (e_), (margin_))
#define QACTIVE_POST_LIFO(me_, e_)       QActive_postLIFO_((me_), (e_))
#define QACTIVE_PUBLISH(e_, sender_)     QActive_publish_((e_), (sender_)->prio)

bool QActive_subscribe(QActive const *me, QSignal sig); /* false: there was nothing to change */
bool QActive_unsubscribe(QActive const *me, QSignal sig);
bool QActive_defer(QActive *me, QEvt const *e);
bool QActive_recall(QActive *me);
unsigned QActive_flushDeferred(QActive *me);

/* ---- time events ---- */

typedef struct {
    QEvt super;
    QActive *act;
    uint16_t ctr, interval;
    uint8_t tickRate;
    uint8_t num; /* by ascending priority of the objects: the system's file numbers them so */
} QTimeEvt;

void QTimeEvt_ctorX(QTimeEvt *me, QActive *act, QSignal sig, uint8_t tickRate); /* in the order of their numbers */
void QTimeEvt_armX(QTimeEvt *me, uint32_t nTicks, uint32_t interval);
bool QTimeEvt_disarm(QTimeEvt *me);
bool QTimeEvt_rearm(QTimeEvt *me, uint32_t nTicks);
void QTimeEvt_tick_(uint8_t tickRate);
#define QTIMEEVT_TICK_X(rate_) QTimeEvt_tick_(rate_)

/* ---- a run ---- */

typedef struct {
    char const *name;
    uint8_t params;
    bool isStatic;
} QF_Signal;

typedef struct {
    uint8_t params, blocks;
} QF_Pool;

/* What an application provides; `signals` begin with number Q_USER_SIG. */
typedef struct {
    QF_Signal const *signals;
    unsigned nSignals;
    QF_Pool const *pools;
    unsigned nPools;
    void (*start)(void);
} QF_App;
extern QF_App const QF_app;

QEvt const *QF_static(QSignal sig); /* the one event of a static signal */

void BSP_say(int64_t value);

#endif

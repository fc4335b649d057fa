/* Stands in for QP/C 8's qpc.h, where QP/C isn't at hand: as much of its interface as the sources use that board/qpc prints. It is
 * written from the interface as its manual gives it; the sources weren't compiled against QP/C itself. stand_in.c has the bodies. */
#ifndef QPC_H
#define QPC_H

#include <stdbool.h>
#include <stddef.h>
#include <stdint.h>

#include "qp_board.h"

/* ---- events -------------------------------------------------------------------------------------------------------------- */

typedef uint8_t QSignal;
typedef struct {
    QSignal sig;
    uint8_t poolNum_; /* 0: the event lies in no pool */
    uint8_t refCtr_;
} QEvt;
typedef QEvt const *QEvtPtr;

enum { Q_EMPTY_SIG, Q_ENTRY_SIG, Q_EXIT_SIG, Q_INIT_SIG, Q_USER_SIG };
#define QEVT_INITIALIZER(sig_) { (QSignal)(sig_), 0U, 0U }
#define Q_EVT_CAST(class_)     ((class_ const *)(void const *)e)
#define Q_DIM(array_)          (sizeof(array_) / sizeof((array_)[0]))

/* ---- statecharts --------------------------------------------------------------------------------------------------------- */

typedef uint_fast8_t QState;
typedef QState (*QStateHandler)(void * const me, QEvt const * const e);
typedef struct {
    QStateHandler state, temp;
} QAsm;
enum { Q_RET_SUPER, Q_RET_UNHANDLED, Q_RET_HANDLED, Q_RET_TRAN };
#define Q_STATE_CAST(handler_) ((QStateHandler)(void (*)(void))(handler_))
#define Q_HANDLED()            ((QState)Q_RET_HANDLED)
#define Q_UNHANDLED()          ((QState)Q_RET_UNHANDLED)
#define Q_TRAN(target_)        (((QAsm *)(void *)me)->temp = Q_STATE_CAST(target_), (QState)Q_RET_TRAN)
#define Q_SUPER(super_)        (((QAsm *)(void *)me)->temp = Q_STATE_CAST(super_), (QState)Q_RET_SUPER)
QState QHsm_top(void const * const me, QEvt const * const e);

/* ---- active objects ------------------------------------------------------------------------------------------------------ */

typedef struct {
    QAsm super;
    uint8_t prio;
} QActive;
typedef struct {
    uint16_t length;
} QEQueue;
typedef struct {
    uint32_t set;
} QSubscrList;

#define QF_NO_MARGIN 0xFFFFU
#define QF_MPOOL_EL(event_) struct { void *sto_[((sizeof(event_) - 1U) / sizeof(void *)) + 1U]; }
#define Q_PRIO(prio_, threshold_) ((uint16_t)((prio_) | ((threshold_) << 8U)))

void QActive_ctor(QActive * const me, QStateHandler initial);
void QActive_start(QActive * const me, uint16_t prioSpec, QEvtPtr * const qSto, uint_fast16_t qLen, void * const stkSto, uint32_t stkSize,
                   void const * const par);
bool QActive_post_(QActive * const me, QEvt const * const e, uint_fast16_t margin);
void QActive_postLIFO_(QActive * const me, QEvt const * const e);
void QActive_publish_(QEvt const * const e, uint8_t prio);
void QActive_subscribe(QActive const * const me, int sig);
void QActive_unsubscribe(QActive const * const me, int sig);
bool QActive_defer(QActive const * const me, QEQueue * const list, QEvt const * const e);
bool QActive_recall(QActive * const me, QEQueue * const list);
uint_fast16_t QActive_flushDeferred(QActive const * const me, QEQueue * const list, uint_fast16_t most);
void QActive_psInit(QSubscrList * const sto, uint_fast16_t maxSignal);
void QEQueue_init(QEQueue * const me, QEvtPtr * const sto, uint_fast16_t length);
void QF_poolInit(void * const sto, uint_fast32_t size, uint_fast16_t eventSize);
QEvt *QF_newX_(uint_fast16_t size, uint_fast16_t margin, int sig);

#define QACTIVE_POST(me_, e_, sender_)            ((void)QActive_post_((me_), (e_), QF_NO_MARGIN))
#define QACTIVE_POST_X(me_, e_, margin_, sender_) QActive_post_((me_), (e_), (margin_))
#define QACTIVE_POST_LIFO(me_, e_)                QActive_postLIFO_((me_), (e_))
#define QACTIVE_PUBLISH(e_, sender_)              QActive_publish_((e_), (sender_)->prio)
#define Q_NEW(event_, sig_)                       ((event_ *)(void *)QF_newX_(sizeof(event_), QF_NO_MARGIN, (sig_)))
#define Q_NEW_X(event_, margin_, sig_)            ((event_ *)(void *)QF_newX_(sizeof(event_), (margin_), (sig_)))

/* ---- time events --------------------------------------------------------------------------------------------------------- */

typedef struct {
    uint8_t number; /* from 0, in the order of their constructors */
} QTimeEvt;
void QTimeEvt_ctorX(QTimeEvt * const me, QActive * const act, int sig, uint_fast8_t rate);
void QTimeEvt_armX(QTimeEvt * const me, int64_t ticks, int64_t interval);
bool QTimeEvt_rearm(QTimeEvt * const me, int64_t ticks);
bool QTimeEvt_disarm(QTimeEvt * const me);
#define qpc_ticks(n_, least_) (n_) /* asserted behind the call, where it is recorded */

/* ---- what the sources need to be judged ---------------------------------------------------------------------------------- */

void qpc_lock(uint8_t prio, uint8_t ceiling);
#define QPC_LOCK(ceiling_) qpc_lock(me->super.prio, (ceiling_))
#define QPC_UNLOCK()       qpc_lock(me->super.prio, 0)
#define QPC_STATES         /* the sources say the numbers of the states */
extern QStateHandler const * const qpc_states[];
void qpc_start(void); /* that of the sources */

#endif

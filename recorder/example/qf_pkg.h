/* What the framework's files share. */
#ifndef QF_PKG_H
#define QF_PKG_H

#include "faults.h"
#include "qf.h"

extern QActive *QActive_registry_[QF_MAX_ACTIVE + 1];
extern QTimeEvt *QTimeEvt_registry_[QF_MAX_TIMERS + 1];
extern unsigned QTimeEvt_count_;

void QF_poolInit_(void);
uint8_t QF_block_(QEvt const *e); /* which block of its pool an event lies in */

/* In the critical section; each counts or drops one reference. */
void QF_refUp_(QEvt const *e);
bool QF_refDown_(QEvt const *e); /* true: none is left */

/* In the critical section. */
void QEQueue_put_(QEQueue *me, QEvt const *e);
void QEQueue_putFront_(QEQueue *me, QEvt const *e);
QEvt const *QEQueue_get_(QEQueue *me);

/* An assertion whose record stands already: leaves the critical section and ends this thread. The run stops. */
void QF_onAssert_(void);
void QF_wakeWatcher_(void);
bool QF_isStopped_(void);
void QF_wait_(pthread_cond_t *more);

/* Sources of stimuli: a thread each, which does the lines of its source. */
unsigned QF_readSources_(char const *file);
void QF_startSources_(void);
void QF_joinSources_(void);

/* The number of an event in a record: its block, or its signal where it lies in no pool. */
static inline uint32_t QF_what_(QEvt const *e) { return e->poolNum_ != 0u ? QF_block_(e) : e->sig; }

#endif

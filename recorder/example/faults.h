/* Faults that are seeded on purpose, by number at run time. Without QF_FAULTS nothing is left of them. */
#ifndef FAULTS_H
#define FAULTS_H

enum {
    FAULT_NONE,
    FAULT_FREED_TWICE,       /* an event is released twice */
    FAULT_NOT_COUNTED,       /* a reference is recorded, and the counter doesn't rise */
    FAULT_NOT_COUNTED_NOR_TOLD, /* neither is it recorded */
    FAULT_PAST_MARGIN,       /* a post is granted where as many entries are free as its margin says */
    FAULT_GIVEN_WHILE_HELD,  /* a block stays in the list of free ones when it is given out */
    FAULT_ORDER_LOST,        /* the later of two entries is taken first */
    FAULT_LOWEST_FIRST,      /* a publication goes from the lowest subscriber up */
    FAULT_LATE,              /* a time event fires a tick too late */
    FAULT_TICK_SKIPPED,      /* a tick passes over a time event */
    FAULT_COUNTER_UNLOCKED,  /* the reference counter is read and written in two critical sections */
    FAULT_QUEUE_UNLOCKED,    /* the count of free entries is */
    FAULT_NOT_RELEASED,      /* the step's event isn't released */
    FAULT_POST_LOST,         /* a post is recorded, and nothing is in the queue */
    FAULT_LIFO_BEHIND,       /* a last-in post puts its event behind the others */
    FAULT_EXITS_INWARDS,     /* exit actions run from the outermost state in */
    FAULT_OTHER_CHART,       /* a handler differs from the chart */
    FAULT_RELEASED_EARLY,    /* a publication releases its event before it is posted */
    FAULT_RECORDED_OUTSIDE,  /* a post is recorded behind its critical section */
    FAULT_NO_SECTION,        /* a source posts without a critical section */
    FAULT_COUNT
};

#ifdef QF_FAULTS
#include <stdbool.h>
extern int QF_fault;
bool QF_everyNth_(int fault, unsigned n);
bool QF_isSource_(void); /* this thread is a source of stimuli */
#define FAULT(fault_)           (QF_fault == (fault_))
#define FAULT_EVERY(fault_, n_) QF_everyNth_((fault_), (n_)) /* each n-th time */
#define FAULT_IN_SOURCE(fault_) (FAULT(fault_) && QF_isSource_())
#else
#define FAULT(fault_)           0
#define FAULT_EVERY(fault_, n_) 0
#define FAULT_IN_SOURCE(fault_) 0
#endif

#endif

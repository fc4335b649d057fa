/* Goes with sources that board/qpc prints for QP/C: values of 64 bits that wrap, and a division that is always defined. */
#ifndef QPC_VALUES_H
#define QPC_VALUES_H

#include <stdint.h>

static inline int64_t qpc_add(int64_t a, int64_t b) { return (int64_t)((uint64_t)a + (uint64_t)b); }
static inline int64_t qpc_sub(int64_t a, int64_t b) { return (int64_t)((uint64_t)a - (uint64_t)b); }
static inline int64_t qpc_mul(int64_t a, int64_t b) { return (int64_t)((uint64_t)a * (uint64_t)b); }
static inline int64_t qpc_div(int64_t a, int64_t b) { return (b == 0) ? 0 : (b == -1) ? qpc_sub(0, a) : (a / b); }
static inline int64_t qpc_mod(int64_t a, int64_t b) { return ((b == 0) || (b == -1)) ? 0 : (a % b); }

/* The row that handles an event, for recorder/qp_record.h. */
#ifndef QPR_RUN
#define QPR_RUN(state, row) ((void)0)
#endif

#ifndef QPC_LOCK
#ifdef QK_H_
#define QPC_LOCK(ceiling) QSchedStatus const lock_ = QK_schedLock(ceiling)
#define QPC_UNLOCK()      QK_schedUnlock(lock_)
#else /* the other kernels preempt by no ceiling */
#define QPC_LOCK(ceiling) ((void)0)
#define QPC_UNLOCK()      ((void)0)
#endif
#endif

/* A count of ticks, or an interval: assertion 4 of docs/FORMATS.md where it is out of its range. */
#ifndef qpc_ticks
static inline uint32_t qpc_ticks(int64_t n, int64_t least) {
    if ((n < least) || (65535 < n)) {
        Q_onError("qpc_values", 4);
    }
    return (uint32_t)n;
}
#endif

#endif

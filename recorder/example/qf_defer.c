/* Deferred events: a list of an object's own. */
#include <stddef.h>

#include "qf_pkg.h"

bool QActive_defer(QActive *me, QEvt const *e) {
    QF_CRIT_ENTRY();
    bool const hasRoom = me->deferred.nFree > 0;
    if (hasRoom) {
        QF_refUp_(e);
        QEQueue_put_(&me->deferred, e);
    }
    QF_CRIT_EXIT();
    if (hasRoom) {
        QPR_DEFER(e->poolNum_, QF_what_(e));
    } else {
        QPR_NODEFER();
    }
    return hasRoom;
}

/* The oldest deferred event, NULL where there is none. */
static QEvt const *takeDeferred(QActive *me) {
    QF_CRIT_ENTRY();
    QEvt const *const e = me->deferred.frontEvt != NULL ? QEQueue_get_(&me->deferred) : NULL;
    QF_CRIT_EXIT();
    return e;
}

bool QActive_recall(QActive *me) {
    QEvt const *const e = takeDeferred(me);
    if (e == NULL) {
        QPR_NORECALL();
        return false;
    }
    QPR_RECALL(e->poolNum_, QF_what_(e));
    QActive_postLIFO_(me, e);
    QF_gc(e); /* the list's own reference; the queue has another one */
    return true;
}

unsigned QActive_flushDeferred(QActive *me) {
    unsigned n = 0;
    for (QEvt const *e = takeDeferred(me); e != NULL; e = takeDeferred(me)) {
        QPR_FLUSH(e->poolNum_, QF_what_(e));
        QF_gc(e);
        ++n;
    }
    return n;
}

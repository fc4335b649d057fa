/* The port: POSIX threads. One mutex is the critical section; the recorder knows by a thread's own variable who works. */
#ifndef QF_PORT_H
#define QF_PORT_H

#include <pthread.h>
#include <stdint.h>

void QF_critEntry_(void);
void QF_critExit_(void);
#define QF_CRIT_ENTRY() QF_critEntry_()
#define QF_CRIT_EXIT()  QF_critExit_()

#if QP_RECORD
extern __thread uint8_t QF_who;
#define QPR_WHO() QF_who
#if QP_RECORD == 1 /* one buffer: notes need the critical section too */
#define QPR_NOTE_ENTRY() QF_critEntry_()
#define QPR_NOTE_EXIT()  QF_critExit_()
#endif
#endif
#include "../qp_record.h"

#endif

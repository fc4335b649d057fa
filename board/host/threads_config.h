/* POSIX threads: one mutex is the critical section, and each object and each source has a thread. */
#ifndef THREADS_CONFIG_H
#define THREADS_CONFIG_H

#include <stdint.h>

void threads_enter(void);
void threads_leave(void);
void threads_wake(unsigned o);
extern __thread uint8_t threads_who;

#define QPB_KERNEL       QPB_PORT
#define QPB_CRIT_ENTRY() threads_enter()
#define QPB_CRIT_EXIT()  threads_leave()
#define QPB_WAKE(o)      threads_wake(o)
#define QPR_WHO()        threads_who

#endif

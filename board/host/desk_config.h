/* The desk: one thread, the kernel chosen at its call, stimuli in the kernel's looks, and records as the journal of `qp run`. */
#ifndef DESK_CONFIG_H
#define DESK_CONFIG_H

extern unsigned desk_kernel;
void desk_look(unsigned floor);

#define QPB_KERNEL      desk_kernel
#define QPB_LOOK(floor) desk_look(floor)
#define QP_RECORD       2 /* as with lanes, all is told */
#define QPB_RECORDER    "journal.h"

#endif

/* The board: a Cortex-M3, as QEMU's mps2-an385 has it. It is QPB_CONFIG of what runs there. */
#ifndef BOARD_H
#define BOARD_H

#include <stdint.h>

#define QPB_CRIT_ENTRY() __asm__ volatile("cpsid i" ::: "memory")
#define QPB_CRIT_EXIT()  __asm__ volatile("cpsie i" ::: "memory")
#ifdef BOARD_SLEEPS
#define QPB_IDLE() __asm__ volatile("wfi")
#endif

#ifdef BOARD_COUNTS
void board_look(unsigned floor);
#define QPB_LOOK(floor) board_look(floor)
#endif

/* An interrupt calls it at its end: under QPB_QK a step that may preempt what was interrupted begins behind it, by PendSV. */
#define BOARD_INTERRUPT_END() do { \
    if (QPB_KERNEL == QPB_QK) *(uint32_t volatile *)0xE000ED04u = 1u << 28; \
} while (0)

/* Ends the program: on a board a reset would stand here, in QEMU the status is its own. */
void board_leave(int status);
void board_say(char const *text);

/* Bytes of the stack that have been in use. */
uint32_t board_stack_used(void);

#endif

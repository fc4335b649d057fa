/* What a Cortex-M3 needs before main(): vectors, memory; and the way by which QK preempts. */
#include "board.h"

extern uint32_t board_stack_top[], board_stack_painted[], board_paint_end[]; /* by link.ld */
extern uint32_t board_data_from[], board_data[], board_data_end[], board_bss[], board_bss_end[];
int main(void);
void Reset_Handler(void), SVC_Handler(void), PendSV_Handler(void), SysTick_Handler(void), Timer_Handler(void);

enum { PAINT = 0x5A5A5A5A, TIMER_IRQ = 8 };
enum { SEMI_WRITE0 = 4, SEMI_EXIT_EXTENDED = 0x20, APPLICATION_EXIT = 0x20026 };

/* ---- the debugger, or QEMU, by semihosting ------------------------------------------------------------------------------- */

static void semihost(int operation, void const *argument) {
    register int r0 __asm__("r0") = operation;
    register void const *r1 __asm__("r1") = argument;
    __asm__ volatile("bkpt 0xAB" : "+r"(r0) : "r"(r1) : "memory");
}
void board_say(char const *text) { semihost(SEMI_WRITE0, text); }
void board_leave(int status) {
    uint32_t const argument[] = { APPLICATION_EXIT, (uint32_t)status };
    for (;;) semihost(SEMI_EXIT_EXTENDED, argument);
}
static void Fault_Handler(void) {
    board_say("fault\n");
    board_leave(99);
}

/* ---- memory -------------------------------------------------------------------------------------------------------------- */

uint32_t board_stack_used(void) {
    uint32_t const *at = board_stack_painted;
    while (*at == PAINT) ++at;
    return (uint32_t)((uintptr_t)board_stack_top - (uintptr_t)at);
}
void Reset_Handler(void) {
    for (uint32_t *from = board_data_from, *to = board_data; to < board_data_end;) *to++ = *from++;
    for (uint32_t *to = board_bss; to < board_bss_end;) *to++ = 0;
    for (uint32_t *to = board_stack_painted; to < board_paint_end;) *to++ = PAINT; /* this function's own part isn't painted */
    board_leave(main());
}

/* ---- preemption ---------------------------------------------------------------------------------------------------------- */

/* PendSV has the lowest priority, so it comes when no other interrupt is at work. It doesn't return to what was interrupted, but into
 * qpb_run as an ordinary function; when that returns, SVC drops its own frame, and the one of PendSV is what the hardware goes on by. */
__attribute__((naked, used)) static void after_run(void) { __asm__ volatile("svc #0\n"); }

__attribute__((naked)) void PendSV_Handler(void) {
    __asm__ volatile("movs r3, #1\n"
                     "lsls r3, r3, #24\n"   /* the program status: Thumb */
                     "ldr r2, =qpb_run\n"   /* where to go on */
                     "bic r2, r2, #1\n"
                     "ldr r1, =after_run\n" /* and then */
                     "sub sp, sp, #32\n"    /* a frame like that of an interrupt */
                     "add r0, sp, #20\n"
                     "stm r0!, {r1-r3}\n"
                     "mvn r0, #6\n"         /* return to a thread, on the same stack */
                     "bx r0\n"
                     ".ltorg\n");
}
__attribute__((naked)) void SVC_Handler(void) { __asm__ volatile("add sp, sp, #32\n bx lr\n"); }

static void Unused_Handler(void) {}
void SysTick_Handler(void) __attribute__((weak, alias("Unused_Handler")));
void Timer_Handler(void) __attribute__((weak, alias("Unused_Handler")));

__attribute__((section(".vectors"), used)) static void (*const vectors[16 + TIMER_IRQ + 1])(void) = {
    (void (*)(void))board_stack_top, Reset_Handler, Fault_Handler, Fault_Handler, Fault_Handler, Fault_Handler, Fault_Handler,
    0, 0, 0, 0, SVC_Handler, 0, 0, PendSV_Handler, SysTick_Handler,
    [16 + TIMER_IRQ] = Timer_Handler,
};

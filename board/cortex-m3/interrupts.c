/* Interrupts are the sources of stimuli: SysTick is source 1 and ticks rate 0, a timer is source 2 and calls board_press(). What was
 * recorded goes out by the UART; at the end the bytes of the stack that were in use are said. */
#include "board.h"
#include "qp_board.h"

#define REGISTER(at) (*(uint32_t volatile *)(at))
enum { PIECE = 256, BYTES = 0x8000, ENABLE = 1 };

/* What the timer's interrupt does; how many ticks and presses there were. */
void board_press(unsigned source, unsigned presses);
static unsigned volatile l_ticks, l_presses;

void SysTick_Handler(void) {
    qpb_tick_from(1, 0);
    ++l_ticks;
    BOARD_INTERRUPT_END();
}
void Timer_Handler(void) {
    REGISTER(0x4000000Cu) = ENABLE; /* the timer's interrupt is met */
    board_press(2, l_presses++);
    BOARD_INTERRUPT_END();
}

#ifdef BOARD_COUNTS
/* Called where the kernel looks: counts the steps that begin within another. */
static unsigned volatile l_within;
void board_look(unsigned floor) {
    for (unsigned o = 0; floor && o < 32u; ++o) {
        if (qpb_ready >> o & 1u && qpb_objects[o].prio > floor) {
            ++l_within;
            return;
        }
    }
}
#endif

#if defined(QP_RECORD) && QP_RECORD
#ifndef QPB_CLOSE
#define QPB_CLOSE(who) ((void)(who)) /* qpr_close, where the recorder's pieces tell that a run has ended */
#endif
static uint8_t l_bytes[BYTES];
static void open_trace(void) {
    qpr_open(0, l_bytes, BYTES);
    REGISTER(0x40004010u) = 16;     /* the UART's speed */
    REGISTER(0x40004008u) = ENABLE; /* it sends */
}
static void close_trace(void) { QPB_CLOSE(0); }
static void send_trace(void) {
    static uint8_t piece[PIECE];
    for (;;) {
        QPB_CRIT_ENTRY();
        uint32_t const n = qpr_take(0, piece, PIECE);
        QPB_CRIT_EXIT();
        if (n == 0) return;
        for (uint32_t i = 0; i < n; ++i) {
            while (REGISTER(0x40004004u) & 1u) {}
            REGISTER(0x40004000u) = piece[i];
        }
    }
}
#else
static void open_trace(void) {}
static void close_trace(void) {}
static void send_trace(void) {}
#endif

static void start_interrupts(void) {
    REGISTER(0xE000ED20u) = 0x40FF0000u; /* SysTick above all, PendSV lowest */
    REGISTER(0xE000E408u) = 0x80u;       /* the timer between them */
    REGISTER(0xE000E100u) = 1u << 8;
    REGISTER(0x40000008u) = BOARD_PRESS_CYCLES;
    REGISTER(0x40000004u) = BOARD_PRESS_CYCLES;
    REGISTER(0x40000000u) = 9u;          /* the timer runs, and interrupts */
    REGISTER(0xE000E014u) = BOARD_TICK_CYCLES;
    REGISTER(0xE000E018u) = 0;
    REGISTER(0xE000E010u) = 7u;          /* so does SysTick */
}
static void stop_interrupts(void) {
    REGISTER(0xE000E010u) = 0;
    REGISTER(0x40000000u) = 0;
}
static void say_number(char const *what, uint32_t value) {
    char text[12] = "          \n";
    unsigned at = 10;
    board_say(what);
    do text[--at] = (char)('0' + value % 10u); while (value /= 10u);
    board_say(text + at);
}

void qpb_on_say(unsigned o, qpb_int value) {
    (void)o;
    (void)value;
}
void qpb_on_assert(unsigned code, unsigned where) {
    (void)where;
    stop_interrupts();
    QPB_CRIT_EXIT();
    close_trace();
    send_trace();
    say_number("assertion ", code);
    board_leave(3);
}
int main(void) {
    open_trace();
    qpb_start();
    start_interrupts();
    while (l_ticks < BOARD_TICKS) {
        qpb_run();
        send_trace();
    }
    stop_interrupts();
    qpb_run();
    close_trace();
    send_trace();
    say_number("ticks ", l_ticks);
    say_number("presses ", l_presses);
#ifdef BOARD_COUNTS
    say_number("within ", l_within);
#endif
    say_number("stack ", board_stack_used());
    return 0;
}

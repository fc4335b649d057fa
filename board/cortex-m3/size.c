/* A board with nothing on it but the system, to measure: SysTick ticks, and one event is posted. */
#include "board.h"
#include "qp_board.h"

void qpb_on_say(unsigned o, qpb_int value) {
    (void)o;
    (void)value;
}
void qpb_on_assert(unsigned code, unsigned where) {
    (void)code;
    (void)where;
    for (;;) {}
}
#ifdef SIZE_TICKS
void SysTick_Handler(void) { qpb_tick_from(1, 0); }
#else
void SysTick_Handler(void) {}
#endif
static void none(void) {}
extern uint32_t board_stack_top[];
void Reset_Handler(void);
void Reset_Handler(void) {
    qpb_start();
    (void)qpb_post_from(1, 0, 4, (qpb_int const[QPB_PARAMS]){ 0 }, 0, 0);
    for (;;) qpb_run();
}
__attribute__((section(".vectors"), used)) static void (*const vectors[16])(void) = {
    (void (*)(void))board_stack_top, Reset_Handler, none, none, [15] = SysTick_Handler,
};

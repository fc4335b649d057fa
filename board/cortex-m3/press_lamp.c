/* The lamp on the board: the timer's interrupt is its button, and a hook of the lamp lights the LED. */
#include "board.h"
#include "lamp.h"

#define LED (*(uint32_t volatile *)0x40028000u)

void board_press(unsigned source, unsigned presses);
void board_press(unsigned source, unsigned presses) {
    (void)presses;
    (void)qpb_post_from(source, AO_lamp, GO_SIG, NULL, 0, QPB_NONE_ASKED);
}

/* Called in each step of the lamp. */
static void lamp_step(uint8_t sig, qpb_int const *params) {
    (void)sig;
    (void)params;
    LED = qpb_state_of(AO_lamp) == lamp_on_STATE;
}
qpb_hook const qpb_hooks[QPB_OBJECTS] = { [AO_lamp] = lamp_step };

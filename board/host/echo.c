/* An object of the board, as its tests have it: what it shows it says back as a stimulus of source 2. */
#include "tables.h"

static void display_step(uint8_t sig, qpb_int const *params) {
    if (sig == SHOW_SIG) (void)qpb_post_from(2, AO_counter, SHOWN_SIG, params, 0, 0);
}
qpb_hook const qpb_hooks[QPB_OBJECTS] = { [AO_display] = display_step };

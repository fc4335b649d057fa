/* The timer's interrupt hands in the posts and publications of source 1 of a file of stimuli, one after another, over and over. */
#include "stimuli.h"

void board_press(unsigned source, unsigned presses);
void board_press(unsigned source, unsigned presses) {
    stimuli_source const *const from = &stimuli_sources[0];
    for (unsigned n = 0; stimuli_source_count && n < from->count; ++n) {
        stimulus const *const s = &from->items[(presses + n) % from->count];
        if (s->kind == STIMULUS_POST || s->kind == STIMULUS_PUBLISH) {
            stimulus_do(source, s);
            return;
        }
    }
}

/* The desk: PROGRAM KERNEL BUDGET FORM. Runs the system of the tables on the stimuli of theirs, in one thread, and writes the journal
 * that `qp run` writes of them. KERNEL is a number of a journal: 0 for sim, 3 for qv. Stimuli happen as docs/DEFINITIONS.md says. */
#include <stdio.h>
#include <stdlib.h>

#include "stimuli.h"

enum { DESK_SIM = 0, DESK_QV = 3, DESK_VALUE = 9 /* a value had no room in 32 bits */ };

unsigned desk_kernel;
static unsigned l_form;
static uint32_t l_budget, l_looks;
static unsigned l_next[17], l_last; /* the next stimulus of each source; the source that acted last */
static int l_has_happened;          /* in the last look */

static void leave(void) {
    exit(journal_write(l_form, desk_kernel == QPB_QV ? DESK_QV : DESK_SIM, l_budget, stimuli_source_count));
}
void qpb_on_assert(unsigned code, unsigned where) {
    (void)where;
    if (code == QPB_ASSERT_VALUE) {
        fputs("desk: a value doesn't fit 32 bits\n", stderr);
        exit(DESK_VALUE);
    }
    leave();
}
void qpb_on_say(unsigned o, qpb_int value) {
    (void)o;
    (void)value;
}

static void settle(unsigned source) {
    QPR_SWITCH(QPR_SOURCE(source));
    QPR_STIM_SETTLE();
    for (unsigned o = 0; o < stimuli_object_count; ++o) QPR_SEEN(qpb_objects[o].prio);
    QPR_RESTORE();
}
/* At most one stimulus: of the first source behind the one that acted last which may act. */
static int poll(int is_base) {
    for (unsigned d = 0; d < stimuli_source_count; ++d) {
        unsigned const i = (l_last + d) % stimuli_source_count;
        if (l_next[i] == stimuli_sources[i].count) continue;
        stimulus const *const s = &stimuli_sources[i].items[l_next[i]];
        if (s->kind == STIMULUS_SETTLE && !(is_base && qpb_ready == 0)) continue;
        ++l_next[i];
        l_last = i + 1u;
        if (s->kind == STIMULUS_SETTLE) settle(i + 1u); else stimulus_do(i + 1u, s);
        return 1;
    }
    return 0;
}
/* The kernel looks: it shows each object's queue above the floor, down to the first that has an entry. */
void desk_look(unsigned floor) {
    QPR_SWITCH(0);
    journal_look(++l_looks, floor);
    l_has_happened = poll(floor == 0);
    for (unsigned o = stimuli_object_count; o-- > 0 && qpb_objects[o].prio > floor;) {
        uint8_t const prio = qpb_objects[o].prio;
        QPR_SEEN(prio);
        if (!journal_has_entry(prio)) continue;
        if (journal_taken(prio) == l_budget) {
            journal_spent(prio);
            leave();
        }
        break;
    }
    QPR_RESTORE();
}

int main(int argc, char **argv) {
    if (argc != 4) {
        fputs("usage: PROGRAM KERNEL BUDGET FORM\n", stderr);
        return 1;
    }
    desk_kernel = atoi(argv[1]) == DESK_QV ? QPB_QV : QPB_QK;
    l_budget = (uint32_t)atol(argv[2]);
    l_form = (unsigned)atoi(argv[3]);
    journal_form(l_form);
    qpb_start();
    do {
        qpb_run();
        QPR_BY(0);
        if (desk_kernel == QPB_QV) journal_rest(l_looks);
    } while (l_has_happened);
    leave();
    return 0;
}

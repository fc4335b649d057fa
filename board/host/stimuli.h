/* Stimuli as const tables, which board/desk prints of a file of stimuli: what interrupts and other threads would do. */
#ifndef STIMULI_H
#define STIMULI_H

#include "qp_board.h"

enum stimulus_kind { STIMULUS_POST, STIMULUS_PUBLISH, STIMULUS_TICK, STIMULUS_SETTLE };

typedef struct {
    uint8_t kind, to, sig;   /* to: an object's place, or a rate */
    int16_t margin, reserve; /* or QPB_NONE_ASKED */
    qpb_int params[QPB_PARAMS];
} stimulus;

typedef struct {
    stimulus const *items;
    unsigned count;
} stimuli_source;

extern stimuli_source const stimuli_sources[]; /* source 1 first */
extern unsigned const stimuli_source_count, stimuli_object_count;

/* What a stimulus of a source does, but for a settle, which its host does. */
static inline void stimulus_do(unsigned source, stimulus const *s) {
    switch (s->kind) {
    case STIMULUS_POST: (void)qpb_post_from(source, s->to, s->sig, s->params, s->margin, s->reserve); break;
    case STIMULUS_PUBLISH: (void)qpb_publish_from(source, s->sig, s->params, s->reserve); break;
    case STIMULUS_TICK: qpb_tick_from(source, s->to); break;
    default: break;
    }
}

#endif

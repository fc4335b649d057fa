/* See journal.h. */
#include "journal.h"

#include <stdio.h>
#include <stdlib.h>
#include <string.h>

enum {
    J_POOLS = 16, J_BLOCKS = 32, J_SIGNALS = 256, J_TIMERS = 65, J_WHOS = 49, J_PRIOS = 33, J_ENTRIES = 256, J_LOCKS = 80,
    J_LONGEST = 400,        /* bytes of a line */
    J_FULL_LANE = 999992,   /* records; `qp run` ends such a lane with a spill */
    J_NO_SPILL = 9          /* the status of a run that this program doesn't show to its end */
};

uint8_t journal_who;

typedef struct {
    char *text;
    size_t size, room;
    uint32_t records;
} lane_text;
static lane_text l_lanes[17];

typedef struct {
    uint32_t pool, what, ref;
} entry;
/* A list of entries with a place in front; it grows and shrinks at either end. */
typedef struct {
    entry at[2 * J_ENTRIES];
    unsigned first, count;
} entries;

static struct {
    uint32_t pools[J_POOLS], blocks[J_POOLS][J_BLOCKS], signals[J_SIGNALS], timers[J_TIMERS];
} l_operations;
static struct {
    uint32_t f, l, m;
    entries line;
} l_queues[J_PRIOS];
static entries l_deferred[J_PRIOS], l_hands[J_WHOS];
static uint64_t l_ceilings[J_LOCKS]; /* the former ones, of locks that stand */
static unsigned l_locks;
static uint64_t l_ceiling;
static entry l_made;
static uint32_t l_stimuli[17], l_looks;
static int l_status;
static unsigned l_code, l_ended_in;
static uint8_t l_is_form_2;

/* ---- lines --------------------------------------------------------------------------------------------------------------- */

static unsigned lane_of(unsigned who) { return who > 32u ? who - 32u : 0u; }
static uint64_t object_of(unsigned who) { return who <= 32u ? who : 0u; }

static void put(char const *line, size_t n) {
    lane_text *const lane = &l_lanes[lane_of(journal_who)];
    if (lane->size + n > lane->room) {
        lane->room = 2u * (lane->size + n);
        lane->text = realloc(lane->text, lane->room);
        if (lane->text == NULL) {
            fputs("desk: no memory for the journal\n", stderr);
            exit(5);
        }
    }
    memcpy(lane->text + lane->size, line, n);
    lane->size += n;
    if (++lane->records > J_FULL_LANE) {
        fprintf(stderr, "desk: lane %u is full; `qp run` ends such a run with a spill, and this program has none\n", lane_of(journal_who));
        exit(J_NO_SPILL);
    }
}
static size_t digits(char *to, uint64_t value) {
    char reversed[20];
    size_t n = 0;
    do {
        reversed[n++] = (char)('0' + value % 10u);
        value /= 10u;
    } while (value);
    for (size_t i = 0; i < n; ++i) to[i] = reversed[n - 1u - i];
    return n;
}
static void line(char const *word, unsigned count, uint64_t const *numbers) {
    char text[J_LONGEST];
    size_t at = strlen(word);
    memcpy(text, word, at);
    for (unsigned i = 0; i < count; ++i) {
        text[at++] = ' ';
        at += digits(text + at, numbers[i]);
    }
    text[at++] = '\n';
    put(text, at);
}
#define LINE(word, ...) do { \
    uint64_t const numbers_[] = { __VA_ARGS__ }; \
    line((word), (unsigned)(sizeof numbers_ / sizeof numbers_[0]), numbers_); \
} while (0)
#define WHO object_of(journal_who)
#define COUNTS(prio) l_queues[prio].f, l_queues[prio].l, l_queues[prio].m

void journal_note(char const *word) { LINE(word, WHO); }
void journal_note_1(char const *word, uint64_t a) { LINE(word, WHO, a); }
void journal_note_2(char const *word, uint64_t a, uint64_t b) { LINE(word, WHO, a, b); }
void journal_say(int64_t value) {
    char text[J_LONGEST];
    size_t at = (size_t)sprintf(text, "say %u ", (unsigned)WHO);
    uint64_t bits = (uint64_t)value;
    if (l_is_form_2 && value < 0) {
        text[at++] = '-';
        bits = 0u - bits;
    }
    at += digits(text + at, bits);
    text[at++] = '\n';
    put(text, at);
}
/* In one order a lock raises the kernel's ceiling, to which the object's own may be too low. */
void journal_lock(unsigned ceiling) {
    l_ceilings[l_locks++ % J_LOCKS] = l_ceiling;
    if (l_ceiling < ceiling) l_ceiling = ceiling;
    LINE("lock", WHO, l_ceiling);
}
void journal_unlock(void) {
    l_ceiling = l_ceilings[--l_locks % J_LOCKS];
    LINE("unlock", WHO, l_ceiling);
}
void journal_stim(void) { LINE("stim", 0, ++l_stimuli[lane_of(journal_who)], l_looks); }

/* ---- entries ------------------------------------------------------------------------------------------------------------- */

/* A list never has more than a queue's entries; where it would, the framework is wrong, and what it does further is told without it. */
static int is_full(entries const *list) { return list->count >= J_ENTRIES; }
static void push(entries *list, entry e) {
    if (is_full(list)) return;
    if (list->first + list->count == 2 * J_ENTRIES) {
        memmove(list->at, list->at + list->first, list->count * sizeof list->at[0]);
        list->first = 0;
    }
    list->at[list->first + list->count++] = e;
}
static void push_front(entries *list, entry e) {
    if (is_full(list)) return;
    if (list->first == 0) {
        memmove(list->at + J_ENTRIES / 2, list->at, list->count * sizeof list->at[0]);
        list->first = J_ENTRIES / 2;
    }
    list->at[--list->first] = e;
    ++list->count;
}
/* Takes out the first or the last entry of an event; where there is none the entry names no reference. */
static entry remove_of(entries *list, int is_last, unsigned pool, unsigned what) {
    for (unsigned n = 0; n < list->count; ++n) {
        unsigned const i = list->first + (is_last ? list->count - 1u - n : n);
        entry const e = list->at[i];
        if (e.pool == pool && e.what == what) {
            memmove(list->at + i, list->at + i + 1, (list->first + list->count - 1u - i) * sizeof e);
            --list->count;
            return e;
        }
    }
    return (entry){ pool, what, UINT32_MAX };
}
/* The reference that a call has in hand, by the last `inc` or take of the block. */
static entry in_hand(unsigned pool, unsigned what) {
    return pool ? remove_of(&l_hands[journal_who], 1, pool, what) : (entry){ 0, what, 0 };
}
static void take_in_hand(entry e) {
    if (e.pool) push(&l_hands[journal_who], e);
}
#define ENTRY(e) (e).pool, (e).what, (e).ref

/* ---- pools and blocks ---------------------------------------------------------------------------------------------------- */

void journal_new(unsigned pool, unsigned block, unsigned sig) { l_made = (entry){ pool, block, sig }; }
void journal_event(unsigned n, uint64_t const *params) {
    unsigned const pool = l_made.pool, block = l_made.what;
    uint64_t numbers[6 + 8] = { WHO, pool, l_operations.pools[pool]++, block, l_operations.blocks[pool][block], l_made.ref };
    for (unsigned i = 0; i < n; ++i) numbers[6 + i] = params[i];
    line("new", 6 + n, numbers);
}
void journal_short(unsigned pool, unsigned free, unsigned reserve) { LINE("short", WHO, pool, l_operations.pools[pool], free, reserve); }
void journal_inc(unsigned pool, unsigned block) {
    entry const e = { pool, block, l_operations.blocks[pool][block]++ };
    take_in_hand(e);
    LINE("inc", WHO, ENTRY(e));
}
void journal_dec(unsigned pool, unsigned block) {
    uint32_t const number = l_operations.blocks[pool][block]++;
    LINE("dec", WHO, pool, block, number, in_hand(pool, block).ref);
}
void journal_back(unsigned pool, unsigned block) {
    LINE("back", WHO, pool, l_operations.pools[pool]++, block, l_operations.blocks[pool][block]);
}

/* ---- queues and deferred lists ------------------------------------------------------------------------------------------- */

void journal_post(unsigned prio, unsigned pool, unsigned what) {
    entry const e = in_hand(pool, what);
    push(&l_queues[prio].line, e);
    ++l_queues[prio].f;
    LINE("post", WHO, prio, COUNTS(prio), ENTRY(e));
}
void journal_lifo(unsigned pool, unsigned what) {
    entry const e = in_hand(pool, what);
    push_front(&l_queues[journal_who].line, e);
    ++l_queues[journal_who].l;
    LINE("lifo", WHO, COUNTS(journal_who), ENTRY(e));
}
void journal_took(unsigned pool, unsigned what) {
    entry const e = remove_of(&l_queues[journal_who].line, 0, pool, what);
    take_in_hand(e);
    ++l_queues[journal_who].m;
    LINE("took", WHO, COUNTS(journal_who), ENTRY(e));
}
void journal_full(unsigned prio, unsigned margin) { LINE("full", WHO, prio, COUNTS(prio), margin); }
void journal_seen(unsigned prio) { LINE("seen", 0, prio, COUNTS(prio)); }
void journal_defer(unsigned pool, unsigned what) {
    entry const e = in_hand(pool, what);
    push(&l_deferred[journal_who], e);
    LINE("defer", WHO, ENTRY(e));
}
void journal_undefer(char const *word, unsigned pool, unsigned what) {
    entry const e = remove_of(&l_deferred[journal_who], 0, pool, what);
    LINE(word, WHO, ENTRY(e));
    take_in_hand(e);
}

/* ---- signals and time events --------------------------------------------------------------------------------------------- */

void journal_pub(unsigned sig, uint32_t set) { LINE("pub", WHO, sig, l_operations.signals[sig], set); }
void journal_sub(char const *word, unsigned sig, int draws) {
    LINE(word, WHO, sig, l_operations.signals[sig]);
    if (draws) ++l_operations.signals[sig];
}
void journal_timer(char const *word, unsigned t, int draws, unsigned count, uint64_t a, uint64_t b) {
    uint64_t const numbers[] = { WHO, t, l_operations.timers[t], a, b };
    line(word, 3 + count, numbers);
    if (draws) ++l_operations.timers[t];
}

/* ---- ends ---------------------------------------------------------------------------------------------------------------- */

static void ended(int status, unsigned code) {
    l_status = status;
    l_code = code;
    l_ended_in = lane_of(journal_who);
}
void journal_assert(unsigned code, unsigned count, uint64_t const *numbers) {
    uint64_t all[8] = { WHO, code };
    memcpy(all + 2, numbers, count * sizeof all[0]);
    line("assert", 2 + count, all);
    ended(3, code);
}
void journal_assert_queue(unsigned code, unsigned prio) { journal_assert(code, 4, (uint64_t const[]){ prio, COUNTS(prio) }); }
void journal_assert_pool(unsigned pool, unsigned free) { journal_assert(2, 3, (uint64_t const[]){ pool, l_operations.pools[pool], free }); }
void journal_assert_armed(unsigned t, unsigned counter) { journal_assert(3, 3, (uint64_t const[]){ t, l_operations.timers[t], counter }); }

void journal_look(uint32_t number, unsigned floor) {
    l_looks = number;
    LINE("look", 0, number, floor);
}
void journal_rest(uint32_t number) { LINE("rest", 0, number); }
void journal_spent(unsigned prio) {
    LINE("spent", prio);
    ended(4, 0);
}
int journal_has_entry(unsigned prio) { return l_queues[prio].f + l_queues[prio].l != l_queues[prio].m; }
uint32_t journal_taken(unsigned prio) { return l_queues[prio].m; }
void journal_form(unsigned form) { l_is_form_2 = form == 2; }

int journal_write(unsigned form, unsigned kernel, uint32_t budget, unsigned sources) {
    printf("qp %u %u %lu\n", form, kernel, (unsigned long)budget);
    for (unsigned i = 0; i <= sources; ++i) {
        printf("lane %u\n", i);
        if (l_lanes[i].size) fwrite(l_lanes[i].text, 1, l_lanes[i].size, stdout);
    }
    printf("end %d\n", l_status);
    if (fflush(stdout) != 0 || ferror(stdout)) {
        fputs("qp: write fault\n", stderr);
        return 7;
    }
    if (l_status == 3) fprintf(stderr, "qp: assertion %u in lane %u\n", l_code, l_ended_in);
    if (l_status == 4) fprintf(stderr, "qp: spent in lane %u\n", l_ended_in);
    return l_status;
}

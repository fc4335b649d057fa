/* A journal as docs/FORMATS.md has it, in the place of recorder/qp_record.h: the same macros, whose records become lines of text.
 *
 * What a record of the recorder leaves out is kept here: how many operations each word had, which reference an entry holds, and the
 * ceiling of the kernel. A line says what the framework did, and never what it should have done. */
#ifndef JOURNAL_H
#define JOURNAL_H

#include <stdint.h>

#define QPR_OBJECT(prio) ((uint8_t)(prio))
#define QPR_SOURCE(i)    ((uint8_t)(32 + (i)))

/* Who works: an object by its priority, 0 for the kernel, a source behind 32. */
extern uint8_t journal_who;
#define QPR_WHO() (journal_who)
#define QPR_STATE() struct journal_has_no_state /* of this file's own */
#define QPR_BY(whom) ((void)(journal_who = (whom)))
#define QPR_SWITCH(whom) uint8_t const qpr_former_ = journal_who; journal_who = (whom)
#define QPR_RESTORE() ((void)(journal_who = qpr_former_))

void journal_note(char const *word);
void journal_note_1(char const *word, uint64_t a);
void journal_note_2(char const *word, uint64_t a, uint64_t b);
void journal_say(int64_t value);
void journal_lock(unsigned ceiling);
void journal_unlock(void);

#define QPR_BEGIN() journal_note("begin")
#define QPR_DONE() journal_note("done")
#define QPR_NONE() journal_note("none")
#define QPR_RUN(state, row) journal_note_2("run", (state), (row))
#define QPR_EXIT(state) journal_note_1("exit", (state))
#define QPR_ENTER(state) journal_note_1("enter", (state))
#define QPR_INIT(state) journal_note_1("init", (state))
#define QPR_SAY(value) journal_say(value)
#define QPR_LOCK(ceiling) journal_lock(ceiling)
#define QPR_UNLOCK(ceiling) ((void)(ceiling), journal_unlock())

/* Which call a source makes stands in its records. */
void journal_stim(void);
#define QPR_STIM_POST(prio, sig, margin, reserve) journal_stim()
#define QPR_STIM_PUBLISH(sig, reserve) journal_stim()
#define QPR_STIM_TICK(rate) journal_stim()
#define QPR_STIM_SETTLE() (journal_stim(), journal_note("settle"))

void journal_new(unsigned pool, unsigned block, unsigned sig);
void journal_event(unsigned n, uint64_t const *params);
void journal_short(unsigned pool, unsigned free, unsigned reserve);
void journal_inc(unsigned pool, unsigned block);
void journal_dec(unsigned pool, unsigned block);
void journal_back(unsigned pool, unsigned block);
#define QPR_NEW(pool, block, sig) journal_new((pool), (block), (sig))
#define QPR_EVENT(pool, block, n, params) journal_event((n), (params)) /* right behind its QPR_NEW */
#define QPR_SHORT(pool, free, reserve) journal_short((pool), (free), (reserve))
#define QPR_INC(pool, block) journal_inc((pool), (block))
#define QPR_DEC(pool, block) journal_dec((pool), (block))
#define QPR_BACK(pool, block) journal_back((pool), (block))

void journal_post(unsigned prio, unsigned pool, unsigned what);
void journal_lifo(unsigned pool, unsigned what);
void journal_took(unsigned pool, unsigned what);
void journal_full(unsigned prio, unsigned margin);
void journal_seen(unsigned prio);
#define QPR_POST(prio, pool, what) journal_post((prio), (pool), (what))
#define QPR_LIFO(pool, what) journal_lifo((pool), (what))
#define QPR_TOOK(pool, what) journal_took((pool), (what))
#define QPR_FULL(prio, margin) journal_full((prio), (margin))
#define QPR_SEEN(prio) journal_seen(prio)

void journal_defer(unsigned pool, unsigned what);
void journal_undefer(char const *word, unsigned pool, unsigned what);
#define QPR_DEFER(pool, what) journal_defer((pool), (what))
#define QPR_NODEFER() journal_note("nodefer")
#define QPR_RECALL(pool, what) journal_undefer("recall", (pool), (what))
#define QPR_NORECALL() journal_note("norecall")
#define QPR_FLUSH(pool, what) journal_undefer("flush", (pool), (what))

void journal_pub(unsigned sig, uint32_t set);
void journal_sub(char const *word, unsigned sig, int draws);
#define QPR_PUB(sig, set) journal_pub((sig), (set))
#define QPR_SUB(sig) journal_sub("sub", (sig), 1)
#define QPR_UNSUB(sig) journal_sub("unsub", (sig), 1)
#define QPR_SAME(sig) journal_sub("same", (sig), 0)

void journal_timer(char const *word, unsigned t, int draws, unsigned count, uint64_t a, uint64_t b);
#define QPR_ARM(t, ticks, interval) journal_timer("arm", (t), 1, 2, (ticks), (interval))
#define QPR_DISARM(t, former) journal_timer("disarm", (t), 1, 1, (former), 0)
#define QPR_REARM(t, former, ticks) journal_timer("rearm", (t), 1, 2, (former), (ticks))
#define QPR_TICK(t, counter) journal_timer("tick", (t), 1, 1, (counter), 0)
#define QPR_FIRE(t, reload) journal_timer("fire", (t), 1, 1, (reload), 0)
#define QPR_IDLE(t) journal_timer("idle", (t), 0, 0, 0, 0)

void journal_assert_queue(unsigned code, unsigned prio);
void journal_assert(unsigned code, unsigned count, uint64_t const *numbers);
void journal_assert_pool(unsigned pool, unsigned free);
void journal_assert_armed(unsigned t, unsigned counter);
#define QPR_ASSERT_QUEUE(prio) journal_assert_queue(1, (prio))
#define QPR_ASSERT_LIFO() journal_assert_queue(5, journal_who)
#define QPR_ASSERT_POOL(pool, free) journal_assert_pool((pool), (free))
#define QPR_ASSERT_ARMED(t, counter) journal_assert_armed((t), (counter))
#define QPR_ASSERT_TICKS(t, ticks, interval) \
    journal_assert(4, 3, (uint64_t const[]){ (t), (uint64_t)(int64_t)(ticks), (uint64_t)(int64_t)(interval) })

/* The kernel's own, in lane 0. */
void journal_look(uint32_t number, unsigned floor);
void journal_rest(uint32_t number);
void journal_spent(unsigned prio);
int journal_has_entry(unsigned prio);
uint32_t journal_taken(unsigned prio);

/* The form, before the first record; and at the end the journal, with a line on standard error of how it ended. Answers the status. */
void journal_form(unsigned form);
int journal_write(unsigned form, unsigned kernel, uint32_t budget, unsigned sources);

#endif

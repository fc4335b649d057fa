/* qp_record.h -- records what a framework of active objects does, so that `qp check` can judge the run.
 *
 * One header, C99. It allocates nothing, takes no lock, and calls nothing. docs/RECORDER.md has the table of a framework's
 * functions with the macro for each; recorder/qp_journal makes a journal of the bytes.
 *
 * QP_RECORD chooses the form:
 *   QPR_OFF    (the default) every macro is nothing, and its arguments aren't evaluated;
 *   QPR_ONE    one buffer for all, without numbers: one core, where a critical section makes one order of all records;
 *   QPR_LANES  a buffer for each thread, with the numbers of operations: threads, several cores.
 * All files of a program need the same form.
 *
 * Two sorts of macros:
 *   operations  stand inside the framework's own critical section, where the operation happens;
 *   notes       stand outside of any, in the code that works for the object. With QPR_ONE a note is wrapped in
 *               QPR_NOTE_ENTRY() and QPR_NOTE_EXIT(), which are to be the critical section's entry and exit.
 *
 * A record is written whole or not at all. One for whose longest form there is no room is lost and counted, and the numbers
 * of the records that follow show the gap. A record writes at most QPR_LONGEST bytes.
 *
 * Three functions, which are there in each form and do nothing where recording is off: qpr_open() gives a buffer its bytes,
 * qpr_take() takes them out in pieces, and qpr_close() says that the run has ended.
 */
#ifndef QP_RECORD_H
#define QP_RECORD_H

#include <stdint.h>

#define QPR_OFF   0
#define QPR_ONE   1
#define QPR_LANES 2

#ifndef QP_RECORD
#define QP_RECORD QPR_OFF
#endif
#if QP_RECORD != QPR_OFF && QP_RECORD != QPR_ONE && QP_RECORD != QPR_LANES
#error "QP_RECORD is 0, 1 or 2"
#endif

/* Who works: an object by its priority, 1 to 32, or a source of stimuli (an interrupt, a thread) by its number, 1 to 16. */
#define QPR_OBJECT(prio) ((uint8_t)(prio))
#define QPR_SOURCE(i)    ((uint8_t)(32 + (i)))

/* A post without a margin, an event without a reserve: what finds no room is an assertion. */
#define QPR_NONE_ASKED (-1)

/* The bytes before those of a piece, see qpr_take(). */
enum { QPR_HEAD = 24 };

#if QP_RECORD != QPR_OFF

/* ---- what the framework provides --------------------------------------------------------------------------------------- */

/* Who works right now: something that can be assigned, of type uint8_t. With threads it is to be a thread's own. */
#ifndef QPR_WHO
#define QPR_WHO() (qpr.who)
#endif

/* The critical section for notes. A buffer of a thread's own needs none; one buffer for all does. */
#ifndef QPR_NOTE_ENTRY
#if QP_RECORD == QPR_ONE
#error "with one buffer QPR_NOTE_ENTRY() and QPR_NOTE_EXIT() have to be the entry and the exit of the critical section"
#endif
#define QPR_NOTE_ENTRY() ((void)0)
#define QPR_NOTE_EXIT()  ((void)0)
#endif

/* ---- state ------------------------------------------------------------------------------------------------------------- */

enum {
    QPR_WHOS = 49,      /* 1 to 32 objects, 33 to 48 sources */
    QPR_PARAMS = 8,     /* the most parameters of an event */
    QPR_LAYOUT = 2,     /* of a piece: the first one had neither a number nor a check */
    QPR_MOST = 0xFFFF,  /* the most bytes of records in a piece */
    QPR_RECORD_HEAD = 3, /* bytes before those of a record's numbers */
    QPR_NUMBER = 5,     /* the most bytes of a number of 32 bits */
    QPR_LONG = 10,      /* of one of 64 bits */
    QPR_LONGEST = QPR_RECORD_HEAD + 3 * QPR_NUMBER + QPR_PARAMS * QPR_LONG,
    QPR_BUFFERS = QP_RECORD == QPR_ONE ? 1 : QPR_WHOS
};

/* Operations are counted on words: pools 0 to 15, blocks 0 to 31 of each, queues 0 to 32, signals 0 to 203, time events 0 to 64.
 * What is out of these ranges is counted on the last word. */
enum {
    QPR_POOLS_AT = 0,
    QPR_BLOCKS_AT = 16,
    QPR_QUEUES_AT = QPR_BLOCKS_AT + 16 * 32,
    QPR_SIGNALS_AT = QPR_QUEUES_AT + 33,
    QPR_TIMERS_AT = QPR_SIGNALS_AT + 204,
    QPR_STRAY_AT = QPR_TIMERS_AT + 65,
    QPR_WORDS
};

/* A ring of bytes whose size is a power of two; `written` and `read` only rise. */
struct qpr_buffer {
    uint8_t *bytes;
    uint32_t size;
    uint32_t written;
    uint32_t read;
    uint32_t lost;      /* records that found no room */
    uint32_t told;      /* how many of them a piece has told */
    uint32_t whole;     /* the bytes written before the first lost one */
    uint32_t pieces;    /* how many were taken */
    uint8_t next;       /* the number of the next record, which a lost one draws too */
    uint8_t end;        /* one of QPR_RUNS, QPR_ENDS, QPR_ENDED */
};

enum { QPR_RUNS, QPR_ENDS /* the last piece isn't taken yet */, QPR_ENDED };

struct qpr_state {
    struct qpr_buffer buffers[QPR_BUFFERS];
#if QP_RECORD == QPR_LANES
    uint32_t words[QPR_WORDS];
#endif
    uint8_t who;
    uint8_t opened; /* buffers */
};

/* Stands once, at the outermost level of one file. */
#define QPR_STATE() struct qpr_state qpr
extern struct qpr_state qpr;

/* Kinds of records: 4 to 42 are the ids of journal items (docs/FORMATS.md), the last three are the recorder's own. */
enum {
    QPR_K_BEGIN = 4, QPR_K_TOOK, QPR_K_NIL, QPR_K_SEEN, QPR_K_RUN, QPR_K_NONE, QPR_K_EXIT, QPR_K_ENTER, QPR_K_INIT, QPR_K_SAY,
    QPR_K_DONE, QPR_K_NEW, QPR_K_SHORT, QPR_K_INC, QPR_K_DEC, QPR_K_BACK, QPR_K_POST, QPR_K_LIFO, QPR_K_FULL, QPR_K_PUB,
    QPR_K_LOCK, QPR_K_UNLOCK, QPR_K_DEFER, QPR_K_NODEFER, QPR_K_RECALL, QPR_K_NORECALL, QPR_K_FLUSH, QPR_K_SUB, QPR_K_UNSUB,
    QPR_K_SAME, QPR_K_ARM, QPR_K_DISARM, QPR_K_REARM, QPR_K_IDLE, QPR_K_TICK, QPR_K_FIRE, QPR_K_STIM, QPR_K_SETTLE,
    QPR_K_ASSERT,
    QPR_K_NO_INIT = 47, QPR_K_EVENT, QPR_K_HANDLED
};

enum { QPR_STIM_IS_POST = 1, QPR_STIM_IS_PUBLISH, QPR_STIM_IS_TICK };
enum { QPR_ASSERT_IS_QUEUE = 1, QPR_ASSERT_IS_POOL, QPR_ASSERT_IS_ARMED, QPR_ASSERT_IS_TICKS, QPR_ASSERT_IS_LIFO };

/* ---- writing ----------------------------------------------------------------------------------------------------------- */

struct qpr_cursor {
    struct qpr_buffer *to;
    uint32_t at;
};

static inline void qpr_byte(struct qpr_cursor *c, uint8_t value) { c->to->bytes[c->at++ & (c->to->size - 1u)] = value; }

/* A number in groups of 7 bits, the least significant first: at most QPR_NUMBER bytes, or QPR_LONG. */
static inline void qpr_number(struct qpr_cursor *c, uint32_t value) {
    while (value >= 0x80u) {
        qpr_byte(c, (uint8_t)(value | 0x80u));
        value >>= 7;
    }
    qpr_byte(c, (uint8_t)value);
}

static inline void qpr_long(struct qpr_cursor *c, uint64_t value) {
    while (value >= 0x80u) {
        qpr_byte(c, (uint8_t)(value | 0x80u));
        value >>= 7;
    }
    qpr_byte(c, (uint8_t)value);
}

/* Begins a record behind whose head at most so many bytes stand. Answers 0 where there is no room: the record is lost. */
static inline int qpr_open_record(struct qpr_cursor *c, uint8_t kind, uint32_t most) {
    uint8_t const who = QPR_WHO();
#if QP_RECORD == QPR_ONE
    struct qpr_buffer *const to = &qpr.buffers[0];
#else
    struct qpr_buffer *const to = &qpr.buffers[who < QPR_WHOS ? who : 0];
#endif
    uint8_t const number = to->next++;
    if (to->size - (to->written - to->read) < QPR_RECORD_HEAD + most) {
        if (to->lost++ == 0u) {
            to->whole = to->written;
        }
        return 0;
    }
    c->to = to;
    c->at = to->written;
    qpr_byte(c, number);
    qpr_byte(c, kind);
#if QP_RECORD == QPR_ONE
    qpr_byte(c, who);
#endif
    return 1;
}

static inline void qpr_close_record(struct qpr_cursor const *c) { c->to->written = c->at; }

static inline void qpr_put(uint8_t kind, unsigned count, uint32_t const *values) {
    struct qpr_cursor c;
    if (qpr_open_record(&c, kind, (uint32_t)(count * QPR_NUMBER))) {
        for (unsigned i = 0; i < count; ++i) {
            qpr_number(&c, values[i]);
        }
        qpr_close_record(&c);
    }
}

#define QPR_PUT_(kind, ...) do { \
    uint32_t const qpr_values_[] = { __VA_ARGS__ }; \
    qpr_put((kind), (unsigned)(sizeof qpr_values_ / sizeof qpr_values_[0]), qpr_values_); \
} while (0)

#define QPR_NOTE_(call) do { QPR_NOTE_ENTRY(); call; QPR_NOTE_EXIT(); } while (0)

/* The last number of a record on a word is which operation it is, or how many there were, with QPR_LANES alone. */
#if QP_RECORD == QPR_LANES
static inline uint32_t *qpr_word(uint32_t first, uint32_t index, uint32_t next) {
    return &qpr.words[index < next - first ? first + index : (uint32_t)QPR_STRAY_AT];
}
static inline uint32_t *qpr_pool(uint32_t p)   { return qpr_word(QPR_POOLS_AT, p, QPR_BLOCKS_AT); }
static inline uint32_t *qpr_block(uint32_t p, uint32_t b) {
    return qpr_word(QPR_BLOCKS_AT, b < 32u ? 32u * p + b : (uint32_t)QPR_WORDS, QPR_QUEUES_AT);
}
static inline uint32_t *qpr_queue(uint32_t a)  { return qpr_word(QPR_QUEUES_AT, a, QPR_SIGNALS_AT); }
static inline uint32_t *qpr_signal(uint32_t s) { return qpr_word(QPR_SIGNALS_AT, s, QPR_TIMERS_AT); }
static inline uint32_t *qpr_timer(uint32_t t)  { return qpr_word(QPR_TIMERS_AT, t, QPR_STRAY_AT); }
#define QPR_DREW_(word)  , (*(word))++
#define QPR_SHOWS_(word) , *(word)
#else
#define QPR_DREW_(word)
#define QPR_SHOWS_(word)
#endif

/* ---- buffers ----------------------------------------------------------------------------------------------------------- */

/* Gives a buffer its bytes; of `size` the largest power of two is used. With QPR_ONE `who` is 0, with QPR_LANES there is a
 * buffer for each who that works; the records of one without are lost and counted. Before the first record. */
static inline void qpr_open(uint8_t who, uint8_t *bytes, uint32_t size) {
    struct qpr_buffer *b = &qpr.buffers[who < QPR_BUFFERS ? who : 0];
    while ((size & (size - 1u)) != 0u) {
        size &= size - 1u;
    }
    qpr.opened = (uint8_t)(qpr.opened + (b->size == 0u));
    b->bytes = bytes;
    b->size = size;
}

/* The run has ended, quietly or at an assertion: the piece that takes this buffer's last bytes says so, and one without bytes does
 * where they are taken already. A buffer that isn't closed is one of a run that just stops. */
static inline void qpr_close(uint8_t who) {
    struct qpr_buffer *b = &qpr.buffers[who < QPR_BUFFERS ? who : 0];
    if (b->end == QPR_RUNS) {
        b->end = QPR_ENDS;
    }
}

static inline void qpr_two(uint8_t *out, uint32_t value) {
    out[0] = (uint8_t)value;
    out[1] = (uint8_t)(value >> 8);
}

static inline void qpr_four(uint8_t *out, uint32_t value) {
    qpr_two(out, value);
    qpr_two(out + 2, value >> 16);
}

/* The CRC-32 of IEEE 802.3 over these bytes too, by halves of a byte: 64 bytes of constants. Begins with ~0, ends with ~. */
static inline uint32_t qpr_crc(uint32_t crc, uint8_t const *bytes, uint32_t n) {
    static uint32_t const of[16] = {
        0x00000000u, 0x1DB71064u, 0x3B6E20C8u, 0x26D930ACu, 0x76DC4190u, 0x6B6B51F4u, 0x4DB26158u, 0x5005713Cu,
        0xEDB88320u, 0xF00F9344u, 0xD6D6A3E8u, 0xCB61B38Cu, 0x9B64C2B0u, 0x86D3D2D4u, 0xA00AE278u, 0xBDBDF21Cu
    };
    for (uint32_t i = 0; i < n; ++i) {
        crc ^= bytes[i];
        crc = of[crc & 15u] ^ (crc >> 4);
        crc = of[crc & 15u] ^ (crc >> 4);
    }
    return crc;
}

/* Moves what a buffer has into `out`, at most `room` bytes (more than QPR_HEAD), as one piece of a trace, and answers how many bytes
 * were written, 0 where there is nothing to tell. To be called where no record of this buffer is being written: in the critical
 * section, or by the thread whose buffer it is, or behind its end. A piece has, each number with its least significant byte first:
 *
 *    0  "QPR"                           8  4 bytes: its number in its buffer, from 0
 *    3  QPR_LAYOUT and the form        12  4 bytes: records lost so far
 *    4  who                            16  4 bytes: the bytes of records before the first lost one
 *    5  how many buffers there are,    20  4 bytes: the CRC-32 of the 20 bytes before and of the records
 *       and 128 in the last piece      24  the records
 *    6  2 bytes: those of its records
 */
static inline uint32_t qpr_take(uint8_t who, uint8_t *out, uint32_t room) {
    struct qpr_buffer *b = &qpr.buffers[who < QPR_BUFFERS ? who : 0];
    uint32_t const held = b->written - b->read;
    if (room <= (uint32_t)QPR_HEAD || (held == 0u && b->lost == b->told && b->end != QPR_ENDS)) {
        return 0u;
    }
    uint32_t const fits = room - (uint32_t)QPR_HEAD < QPR_MOST ? room - (uint32_t)QPR_HEAD : QPR_MOST;
    uint32_t const n = held < fits ? held : fits;
    int const is_last = b->end == QPR_ENDS && n == held;
    out[0] = (uint8_t)'Q';
    out[1] = (uint8_t)'P';
    out[2] = (uint8_t)'R';
    out[3] = (uint8_t)(QPR_LAYOUT << 4 | QP_RECORD);
    out[4] = who;
    out[5] = (uint8_t)(qpr.opened | (is_last ? 0x80u : 0u));
    qpr_two(out + 6, n);
    qpr_four(out + 8, b->pieces++);
    qpr_four(out + 12, b->lost);
    qpr_four(out + 16, b->whole);
    uint8_t const *const bytes = b->bytes;
    uint32_t const first = b->read, mask = b->size - 1u;
    for (uint32_t i = 0; i < n; ++i) {
        out[QPR_HEAD + i] = bytes[(first + i) & mask];
    }
    qpr_four(out + 20, ~qpr_crc(qpr_crc(~(uint32_t)0, out, 20u), out + QPR_HEAD, n));
    b->read += n;
    b->told = b->lost;
    if (is_last) {
        b->end = QPR_ENDED;
    }
    return (uint32_t)QPR_HEAD + n;
}

/* ---- who works --------------------------------------------------------------------------------------------------------- */

#define QPR_BY(whom)      ((void)(QPR_WHO() = (whom)))
/* Around an interrupt, or a step that preempts another: both in one block. */
#define QPR_SWITCH(whom)  uint8_t const qpr_former_ = QPR_WHO(); QPR_WHO() = (whom)
#define QPR_RESTORE()     ((void)(QPR_WHO() = qpr_former_))

/* ---- notes: an object's start and its steps ---------------------------------------------------------------------------- */

static inline void qpr_note(uint8_t kind) { qpr_put(kind, 0u, 0); }
static inline void qpr_note_1(uint8_t kind, uint32_t a) { qpr_put(kind, 1u, &a); }
static inline void qpr_note_2(uint8_t kind, uint32_t a, uint32_t b) { QPR_PUT_(kind, a, b); }
static inline void qpr_say(int64_t value) {
    struct qpr_cursor c;
    if (qpr_open_record(&c, QPR_K_SAY, QPR_LONG)) {
        qpr_long(&c, ((uint64_t)value << 1) ^ (value < 0 ? UINT64_MAX : 0u)); /* small numbers of either sign take one byte */
        qpr_close_record(&c);
    }
}

#define QPR_BEGIN()         QPR_NOTE_(qpr_note(QPR_K_BEGIN))            /* the object starts */
#define QPR_DONE()          QPR_NOTE_(qpr_note(QPR_K_DONE))             /* its start or step is done; the event isn't released yet */
#define QPR_RUN(state, row) QPR_NOTE_(qpr_note_2(QPR_K_RUN, (state), (row)))  /* the row that handles the event, before its actions */
#define QPR_HANDLED(state)  QPR_NOTE_(qpr_note_1(QPR_K_HANDLED, (state)))     /* the state did, behind its actions: the row is looked up */
#define QPR_NONE()          QPR_NOTE_(qpr_note(QPR_K_NONE))             /* no state handles the event */
#define QPR_EXIT(state)     QPR_NOTE_(qpr_note_1(QPR_K_EXIT, (state)))  /* before the exit action, also where there is none */
#define QPR_ENTER(state)    QPR_NOTE_(qpr_note_1(QPR_K_ENTER, (state))) /* before the entry action, also where there is none */
#define QPR_INIT(state)     QPR_NOTE_(qpr_note_1(QPR_K_INIT, (state)))  /* before the state is asked for its initial transition */
#define QPR_NO_INIT()       QPR_NOTE_(qpr_note(QPR_K_NO_INIT))          /* it has none */
#define QPR_SAY(value)      QPR_NOTE_(qpr_say(value))                   /* a value that the chart says */
#define QPR_LOCK(ceiling)   QPR_NOTE_(qpr_note_1(QPR_K_LOCK, (ceiling)))      /* may be left out around a publication's posts */
#define QPR_UNLOCK(ceiling) QPR_NOTE_(qpr_note_1(QPR_K_UNLOCK, (ceiling)))

/* ---- operations: what a source is about to do, by itself, before the call ---------------------------------------------- */

#define QPR_STIM_POST(prio, sig, margin, reserve) \
    qpr_stim_post((uint32_t)(prio), (uint32_t)(sig), (int32_t)(margin), (int32_t)(reserve))
#define QPR_STIM_PUBLISH(sig, reserve) qpr_stim_publish((uint32_t)(sig), (int32_t)(reserve))
#define QPR_STIM_TICK(rate)            qpr_note_2(QPR_K_STIM, QPR_STIM_IS_TICK, (rate))
/* All queues are empty: this, and QPR_SEEN of every object ascending, in one critical section. */
#define QPR_STIM_SETTLE()              qpr_note(QPR_K_SETTLE)
#define QPR_SEEN(prio)                 qpr_seen(prio)

static inline void qpr_stim_post(uint32_t prio, uint32_t sig, int32_t margin, int32_t reserve) {
    QPR_PUT_(QPR_K_STIM, QPR_STIM_IS_POST, prio, sig, (uint32_t)(margin + 1), (uint32_t)(reserve + 1));
}
static inline void qpr_stim_publish(uint32_t sig, int32_t reserve) {
    QPR_PUT_(QPR_K_STIM, QPR_STIM_IS_PUBLISH, sig, (uint32_t)(reserve + 1));
}
static inline void qpr_seen(uint32_t prio) { QPR_PUT_(QPR_K_SEEN, prio QPR_SHOWS_(qpr_queue(prio))); }

/* ---- operations: pools and references ---------------------------------------------------------------------------------- */

#define QPR_NEW(pool, block, sig)         qpr_new((pool), (block), (sig))     /* a block is given out */
#define QPR_EVENT(pool, block, n, params) qpr_event((pool), (block), (n), (params)) /* its parameters, before its first reference */
#define QPR_SHORT(pool, free, reserve)    qpr_short((pool), (free), (reserve))      /* none is, since no more than `reserve` are free */
#define QPR_INC(pool, block)              qpr_inc((pool), (block))            /* the reference counter rises */
#define QPR_DEC(pool, block)              qpr_dec((pool), (block))            /* it falls, to 0 too */
#define QPR_BACK(pool, block)             qpr_back((pool), (block))           /* the block comes back */

static inline void qpr_new(uint32_t pool, uint32_t block, uint32_t sig) {
    QPR_PUT_(QPR_K_NEW, pool, block, sig QPR_DREW_(qpr_pool(pool)) QPR_SHOWS_(qpr_block(pool, block)));
}
static inline void qpr_event(uint32_t pool, uint32_t block, uint32_t n, uint64_t const *params) {
    uint32_t const count = n < (uint32_t)QPR_PARAMS ? n : (uint32_t)QPR_PARAMS;
    struct qpr_cursor c;
    if (qpr_open_record(&c, QPR_K_EVENT, 3u * QPR_NUMBER + count * QPR_LONG)) {
        qpr_number(&c, pool);
        qpr_number(&c, block);
        qpr_number(&c, count);
        for (uint32_t i = 0; i < count; ++i) {
            qpr_long(&c, params[i]);
        }
        qpr_close_record(&c);
    }
}
static inline void qpr_short(uint32_t pool, uint32_t free, uint32_t reserve) {
    QPR_PUT_(QPR_K_SHORT, pool, free, reserve QPR_SHOWS_(qpr_pool(pool)));
}
static inline void qpr_inc(uint32_t pool, uint32_t block) { QPR_PUT_(QPR_K_INC, pool, block QPR_DREW_(qpr_block(pool, block))); }
static inline void qpr_dec(uint32_t pool, uint32_t block) { QPR_PUT_(QPR_K_DEC, pool, block QPR_DREW_(qpr_block(pool, block))); }
static inline void qpr_back(uint32_t pool, uint32_t block) {
    QPR_PUT_(QPR_K_BACK, pool, block QPR_DREW_(qpr_pool(pool)) QPR_SHOWS_(qpr_block(pool, block)));
}

/* ---- operations: queues. An event is its pool and its block, or 0 and its signal where it lies in no pool -------------- */

#define QPR_POST(prio, pool, what) qpr_post((prio), (pool), (what))    /* behind all others in the queue of `prio` */
#define QPR_LIFO(pool, what)       qpr_lifo((pool), (what))            /* in front of the object's own queue */
#define QPR_TOOK(pool, what)       qpr_took((pool), (what))            /* the object takes the first */
#define QPR_NIL()                  qpr_nil()                           /* it finds its queue empty; may be left out */
#define QPR_FULL(prio, margin)     qpr_full((prio), (margin))          /* refused, since no more than `margin` entries are free */

static inline void qpr_post(uint32_t prio, uint32_t pool, uint32_t what) {
    QPR_PUT_(QPR_K_POST, prio, pool, what QPR_DREW_(qpr_queue(prio)));
}
static inline void qpr_lifo(uint32_t pool, uint32_t what) { QPR_PUT_(QPR_K_LIFO, pool, what QPR_DREW_(qpr_queue(QPR_WHO()))); }
static inline void qpr_took(uint32_t pool, uint32_t what) { QPR_PUT_(QPR_K_TOOK, pool, what QPR_DREW_(qpr_queue(QPR_WHO()))); }
static inline void qpr_full(uint32_t prio, uint32_t margin) { QPR_PUT_(QPR_K_FULL, prio, margin QPR_SHOWS_(qpr_queue(prio))); }
static inline void qpr_nil(void) {
#if QP_RECORD == QPR_LANES
    qpr_put(QPR_K_NIL, 1u, qpr_queue(QPR_WHO()));
#else
    qpr_put(QPR_K_NIL, 0u, 0);
#endif
}

/* ---- notes: deferred events -------------------------------------------------------------------------------------------- */

#define QPR_DEFER(pool, what)  QPR_NOTE_(qpr_note_2(QPR_K_DEFER, (pool), (what)))   /* behind the operation on its counter */
#define QPR_NODEFER()          QPR_NOTE_(qpr_note(QPR_K_NODEFER))                   /* no room */
#define QPR_RECALL(pool, what) QPR_NOTE_(qpr_note_2(QPR_K_RECALL, (pool), (what)))  /* the oldest, before it is posted */
#define QPR_NORECALL()         QPR_NOTE_(qpr_note(QPR_K_NORECALL))                  /* there is none */
#define QPR_FLUSH(pool, what)  QPR_NOTE_(qpr_note_2(QPR_K_FLUSH, (pool), (what)))   /* the oldest, before it is released */

/* ---- operations: publishing -------------------------------------------------------------------------------------------- */

#define QPR_PUB(sig, set) qpr_pub((sig), (set))             /* the subscribers, bit p - 1 for the object of priority p */
#define QPR_SUB(sig)      qpr_sub(QPR_K_SUB, (sig))         /* the object joins them */
#define QPR_UNSUB(sig)    qpr_sub(QPR_K_UNSUB, (sig))       /* it leaves them */
#define QPR_SAME(sig)     qpr_same(sig)                     /* it is, or isn't, one of them already */

static inline void qpr_pub(uint32_t sig, uint32_t set) { QPR_PUT_(QPR_K_PUB, sig, set QPR_SHOWS_(qpr_signal(sig))); }
static inline void qpr_sub(uint8_t kind, uint32_t sig) { QPR_PUT_(kind, sig QPR_DREW_(qpr_signal(sig))); }
static inline void qpr_same(uint32_t sig) { QPR_PUT_(QPR_K_SAME, sig QPR_SHOWS_(qpr_signal(sig))); }

/* ---- operations: time events, by the number that the system's file gives each ------------------------------------------ */

#define QPR_ARM(t, ticks, interval) qpr_timer_2(QPR_K_ARM, (t), (ticks), (interval))
#define QPR_DISARM(t, former)       qpr_timer_1(QPR_K_DISARM, (t), (former))          /* its counter before */
#define QPR_REARM(t, former, ticks) qpr_timer_2(QPR_K_REARM, (t), (former), (ticks))
#define QPR_TICK(t, counter)        qpr_timer_1(QPR_K_TICK, (t), (counter))           /* a tick lowers the counter to this */
#define QPR_FIRE(t, reload)         qpr_timer_1(QPR_K_FIRE, (t), (reload))            /* to 0: it is loaded anew, and posts */
#define QPR_IDLE(t)                 qpr_idle(t)  /* it isn't armed: where it is disarmed, and in a tick, there not with QPR_ONE */

static inline void qpr_timer_1(uint8_t kind, uint32_t t, uint32_t a) { QPR_PUT_(kind, t, a QPR_DREW_(qpr_timer(t))); }
static inline void qpr_timer_2(uint8_t kind, uint32_t t, uint32_t a, uint32_t b) { QPR_PUT_(kind, t, a, b QPR_DREW_(qpr_timer(t))); }
static inline void qpr_idle(uint32_t t) { QPR_PUT_(QPR_K_IDLE, t QPR_SHOWS_(qpr_timer(t))); }

/* ---- operations: assertions, in the place of what isn't done ----------------------------------------------------------- */

#define QPR_ASSERT_QUEUE(prio)               qpr_assert_queue(QPR_ASSERT_IS_QUEUE, (prio))   /* a post finds no room */
#define QPR_ASSERT_LIFO()                    qpr_assert_queue(QPR_ASSERT_IS_LIFO, QPR_WHO()) /* a last-in post finds none */
#define QPR_ASSERT_POOL(pool, free)          qpr_assert_pool((pool), (free))                 /* no block is free */
#define QPR_ASSERT_ARMED(t, counter)         qpr_assert_armed((t), (counter))                /* armed already */
#define QPR_ASSERT_TICKS(t, ticks, interval) qpr_assert_ticks((t), (ticks), (interval))      /* out of range */

static inline void qpr_assert_queue(uint32_t code, uint32_t prio) {
    QPR_PUT_(QPR_K_ASSERT, code, prio QPR_SHOWS_(qpr_queue(prio)));
}
static inline void qpr_assert_pool(uint32_t pool, uint32_t free) {
    QPR_PUT_(QPR_K_ASSERT, QPR_ASSERT_IS_POOL, pool, free QPR_SHOWS_(qpr_pool(pool)));
}
static inline void qpr_assert_armed(uint32_t t, uint32_t counter) {
    QPR_PUT_(QPR_K_ASSERT, QPR_ASSERT_IS_ARMED, t, counter QPR_SHOWS_(qpr_timer(t)));
}
static inline void qpr_assert_ticks(uint32_t t, uint32_t ticks, uint32_t interval) {
    QPR_PUT_(QPR_K_ASSERT, QPR_ASSERT_IS_TICKS, t, ticks, interval);
}

#else /* QPR_OFF */

struct qpr_off;
#define QPR_STATE() struct qpr_off

static inline void qpr_open(uint8_t who, uint8_t *bytes, uint32_t size) {
    (void)who;
    (void)bytes;
    (void)size;
}
static inline void qpr_close(uint8_t who) { (void)who; }
static inline uint32_t qpr_take(uint8_t who, uint8_t *out, uint32_t room) {
    (void)who;
    (void)out;
    (void)room;
    return 0u;
}

#define QPR_BY(whom) ((void)0)
#define QPR_SWITCH(whom) ((void)0)
#define QPR_RESTORE() ((void)0)
#define QPR_BEGIN() ((void)0)
#define QPR_DONE() ((void)0)
#define QPR_RUN(state, row) ((void)0)
#define QPR_HANDLED(state) ((void)0)
#define QPR_NONE() ((void)0)
#define QPR_EXIT(state) ((void)0)
#define QPR_ENTER(state) ((void)0)
#define QPR_INIT(state) ((void)0)
#define QPR_NO_INIT() ((void)0)
#define QPR_SAY(value) ((void)0)
#define QPR_LOCK(ceiling) ((void)0)
#define QPR_UNLOCK(ceiling) ((void)0)
#define QPR_STIM_POST(prio, sig, margin, reserve) ((void)0)
#define QPR_STIM_PUBLISH(sig, reserve) ((void)0)
#define QPR_STIM_TICK(rate) ((void)0)
#define QPR_STIM_SETTLE() ((void)0)
#define QPR_SEEN(prio) ((void)0)
#define QPR_NEW(pool, block, sig) ((void)0)
#define QPR_EVENT(pool, block, n, params) ((void)0)
#define QPR_SHORT(pool, free, reserve) ((void)0)
#define QPR_INC(pool, block) ((void)0)
#define QPR_DEC(pool, block) ((void)0)
#define QPR_BACK(pool, block) ((void)0)
#define QPR_POST(prio, pool, what) ((void)0)
#define QPR_LIFO(pool, what) ((void)0)
#define QPR_TOOK(pool, what) ((void)0)
#define QPR_NIL() ((void)0)
#define QPR_FULL(prio, margin) ((void)0)
#define QPR_DEFER(pool, what) ((void)0)
#define QPR_NODEFER() ((void)0)
#define QPR_RECALL(pool, what) ((void)0)
#define QPR_NORECALL() ((void)0)
#define QPR_FLUSH(pool, what) ((void)0)
#define QPR_PUB(sig, set) ((void)0)
#define QPR_SUB(sig) ((void)0)
#define QPR_UNSUB(sig) ((void)0)
#define QPR_SAME(sig) ((void)0)
#define QPR_ARM(t, ticks, interval) ((void)0)
#define QPR_DISARM(t, former) ((void)0)
#define QPR_REARM(t, former, ticks) ((void)0)
#define QPR_TICK(t, counter) ((void)0)
#define QPR_FIRE(t, reload) ((void)0)
#define QPR_IDLE(t) ((void)0)
#define QPR_ASSERT_QUEUE(prio) ((void)0)
#define QPR_ASSERT_LIFO() ((void)0)
#define QPR_ASSERT_POOL(pool, free) ((void)0)
#define QPR_ASSERT_ARMED(t, counter) ((void)0)
#define QPR_ASSERT_TICKS(t, ticks, interval) ((void)0)

#endif /* QP_RECORD */

#endif /* QP_RECORD_H */

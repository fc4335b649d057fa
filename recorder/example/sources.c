/* Sources of stimuli: each is a thread that does the lines of its source, as docs/FORMATS.md has them. */
#include <stdio.h>
#include <stdlib.h>
#include <string.h>
#include <time.h>

#include "qf_pkg.h"

enum { MAX_SOURCES = 16, MAX_LINES = 8192, MAX_LINE = 128 };

typedef struct {
    char lines[MAX_LINES][MAX_LINE];
    unsigned count;
    uint8_t number;
    pthread_t thread;
} Source;

/* A call of a stimulus: an event to an object, or published where there is none. */
typedef struct {
    QActive *to;
    QSignal sig;
    unsigned nParams;
    uint64_t params[QF_MAX_PARAMS];
    int margin, reserve;
} Call;

static Source l_sources[MAX_SOURCES];
static unsigned l_count;

static void refuse(char const *why, char const *line) {
    fprintf(stderr, "stimuli: %s: %s\n", why, line);
    exit(2);
}

unsigned QF_readSources_(char const *file) {
    FILE *const in = fopen(file, "r");
    char line[MAX_LINE];
    if (in == NULL) {
        refuse("absent", file);
    }
    while (fgets(line, sizeof line, in) != NULL) {
        line[strcspn(line, "\n")] = '\0';
        if (line[0] == '\0' || line[0] == '#') {
            continue;
        }
        if (strncmp(line, "source ", 7) == 0) {
            if (l_count == MAX_SOURCES) {
                refuse("too many sources", line);
            }
            ++l_count;
            l_sources[l_count - 1].number = (uint8_t)l_count;
            continue;
        }
        if (l_count == 0 || l_sources[l_count - 1].count == MAX_LINES) {
            refuse("no source, or too many lines", line);
        }
        Source *const s = &l_sources[l_count - 1];
        strcpy(s->lines[s->count++], line);
    }
    fclose(in);
    return l_count;
}

static QActive *objectOf(char const *name, size_t length) {
    for (unsigned p = 1; p <= QF_MAX_ACTIVE; ++p) {
        QActive *const a = QActive_registry_[p];
        if (a != NULL && strlen(a->name) == length && strncmp(a->name, name, length) == 0) {
            return a;
        }
    }
    refuse("no such object", name);
    return NULL;
}

static QSignal signalOf(char const *name, size_t length) {
    for (unsigned i = 0; i < QF_app.nSignals; ++i) {
        char const *const known = QF_app.signals[i].name;
        if (strlen(known) == length && strncmp(known, name, length) == 0) {
            return (QSignal)(Q_USER_SIG + i);
        }
    }
    refuse("no such signal", name);
    return 0;
}

static int numberBehind(char const *line, char const *word) {
    char const *const at = strstr(line, word);
    return at != NULL ? atoi(at + strlen(word)) : QF_NO_MARGIN;
}

static Call readCall(char const *line) {
    bool const isPost = strncmp(line, "post ", 5) == 0;
    char const *at = line + (isPost ? 5 : 8);
    Call call = { .margin = numberBehind(line, " margin "), .reserve = numberBehind(line, " reserve ") };
    if (isPost) {
        size_t const n = strcspn(at, " ");
        call.to = objectOf(at, n);
        at += n + 1;
    }
    size_t const n = strcspn(at, " (");
    call.sig = signalOf(at, n);
    if (at[n] == '(') {
        char *end = NULL;
        for (char const *number = at + n + 1; call.nParams < QF_MAX_PARAMS; number = end + 1) {
            call.params[call.nParams++] = strtoull(number, &end, 10);
            if (*end != ',') {
                break;
            }
        }
    }
    return call;
}

static void record(Call const *call) {
    QF_CRIT_ENTRY();
    if (call->to != NULL) {
        QPR_STIM_POST(call->to->prio, call->sig, call->margin, call->reserve);
    } else {
        QPR_STIM_PUBLISH(call->sig, call->reserve);
    }
    QF_CRIT_EXIT();
}

static void doCall(char const *line) {
    Call const call = readCall(line);
    QEvt const *e = QF_static(call.sig);
    record(&call);
    if (e == NULL) {
        QEvt *const made = QF_newX_(call.sig, call.reserve);
        if (made == NULL) {
            return;
        }
        memcpy(((QParEvt *)made)->par, call.params, call.nParams * sizeof call.params[0]);
        e = made;
    }
    if (call.to != NULL) {
        (void)QActive_post_(call.to, e, call.margin);
    } else {
        QActive_publish_(e, 0);
    }
}

static bool areQueuesEmpty(void) {
    for (unsigned p = 1; p <= QF_MAX_ACTIVE; ++p) {
        if (QActive_registry_[p] != NULL && QActive_registry_[p]->eQueue.frontEvt != NULL) {
            return false;
        }
    }
    return true;
}

/* Waits until all queues are empty at once. */
static void settle(void) {
    struct timespec const pause = { 0, 20000 };
    QF_CRIT_ENTRY();
    while (!areQueuesEmpty() && !QF_isStopped_()) {
        QF_CRIT_EXIT();
        nanosleep(&pause, NULL);
        QF_CRIT_ENTRY();
    }
    if (!QF_isStopped_()) {
        QPR_STIM_SETTLE();
        for (unsigned p = 1; p <= QF_MAX_ACTIVE; ++p) {
            if (QActive_registry_[p] != NULL) {
                QPR_SEEN(p);
            }
        }
    }
    QF_CRIT_EXIT();
}

static void tick(uint8_t rate) {
    QF_CRIT_ENTRY();
    QPR_STIM_TICK(rate);
    QF_CRIT_EXIT();
    QTIMEEVT_TICK_X(rate);
}

#ifdef QF_FAULTS
static __thread bool l_isSource;
bool QF_isSource_(void) { return l_isSource; }
#endif

static void *run(void *arg) {
    Source *const me = arg;
#ifdef QF_FAULTS
    l_isSource = true;
#endif
    QPR_BY(QPR_SOURCE(me->number));
    for (unsigned i = 0; i < me->count; ++i) {
        char const *const line = me->lines[i];
        QF_CRIT_ENTRY();
        bool const isOver = QF_isStopped_();
        QF_CRIT_EXIT();
        if (isOver) {
            break;
        }
        if (strcmp(line, "settle") == 0) {
            settle();
        } else if (strncmp(line, "tick ", 5) == 0) {
            tick((uint8_t)atoi(line + 5));
        } else {
            doCall(line);
        }
    }
    return NULL;
}

void QF_startSources_(void) {
    for (unsigned i = 0; i < l_count; ++i) {
        pthread_create(&l_sources[i].thread, NULL, run, &l_sources[i]);
    }
}

void QF_joinSources_(void) {
    for (unsigned i = 0; i < l_count; ++i) {
        pthread_join(l_sources[i].thread, NULL);
    }
}

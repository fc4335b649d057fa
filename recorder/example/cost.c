/* What a record costs: the life of a pooled event, from `new` to `back`, over and over. Prints nanoseconds of the processor, and bytes. */
#include <stdio.h>
#include <time.h>

#define QPR_NOTE_ENTRY() ((void)0) /* one thread */
#define QPR_NOTE_EXIT()  ((void)0)
#include "../qp_record.h"

QPR_STATE();

enum { ROUNDS = 2000000, RECORDS = 9, BUFFER = 1 << 16 };

static double now(void) {
    struct timespec t;
    clock_gettime(CLOCK_PROCESS_CPUTIME_ID, &t);
    return (double)t.tv_sec * 1e9 + (double)t.tv_nsec;
}

static void oneLife(uint32_t block, uint64_t const *params) {
    QPR_NEW(1, block, 5);
    QPR_EVENT(1, block, 1, params);
    QPR_INC(1, block);
    QPR_POST(2, 1, block);
    QPR_TOOK(1, block);
    QPR_RUN(1, 1);
    QPR_DONE();
    QPR_DEC(1, block);
    QPR_BACK(1, block);
}

int main(void) {
    static uint8_t bytes[BUFFER], piece[BUFFER + QPR_HEAD];
    uint64_t params[1] = { 0 }, written = 0;
    uint8_t const buffer = QP_RECORD == QPR_ONE ? 0 : 2;
    qpr_open(buffer, bytes, sizeof bytes);
    QPR_BY(QPR_OBJECT(2));
    double spent = 0;
    for (uint32_t i = 0; i < ROUNDS;) {
        double const start = now();
        for (unsigned k = 0; k < 400; ++k, ++i) { /* fewer than fit into the buffer */
            params[0] = i % 1000;
            oneLife(i % 8, params);
        }
        spent += now() - start;
        uint32_t const n = qpr_take(buffer, piece, sizeof piece);
        written += n - QPR_HEAD;
    }
    printf("%.1f ns and %.1f bytes a record, %.0f bytes an event\n", spent / ROUNDS / RECORDS, (double)written / ROUNDS / RECORDS,
           (double)written / ROUNDS);
    return qpr.buffers[buffer].lost == 0 ? 0 : 1;
}

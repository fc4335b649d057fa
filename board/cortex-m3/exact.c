/* The desk on the board: the journal of `qp run`, by semihosting. EXACT_KERNEL, EXACT_BUDGET and EXACT_FORM are texts. */
#include <stdlib.h>

#include "board.h"

extern void initialise_monitor_handles(void);
int desk_main(int argc, char **argv);
void qpb_run(void);

int main(void) {
    char *words[] = { "desk", EXACT_KERNEL, EXACT_BUDGET, EXACT_FORM, NULL };
    initialise_monitor_handles();
    return desk_main(4, words);
}
void _exit(int status) { board_leave(status); }

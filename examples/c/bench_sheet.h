/* The bench sheet's setup, and a recorded run of it, as bytes to fill an array with. */
#ifndef BENCH_SHEET_H
#define BENCH_SHEET_H

#include "okrozumba_calls.h"

/* A number below 256 as the kernel reads it: four bytes, the least significant first. */
#define WORD(n) (uint8_t)(n), 0, 0, 0

/* Four priorities. Three tasks, each with its priority and whether it is started: two of equal priority are ready, the third one, of a
   better priority, is dormant. A semaphore of count 0, a flag of pattern 0, a mailbox, two messages, and a pool of two blocks. */
#define BENCH_SHEET_SETUP                                                                                  \
    WORD(4), WORD(3), WORD(2), WORD(1), WORD(2), WORD(1), WORD(1), WORD(0), WORD(1), WORD(0), WORD(1), \
        WORD(0), WORD(1), WORD(2), WORD(1), WORD(2)

/* An event of the running task: the call and its first word. */
#define BY_TASK(call, a) WORD(OKROZUMBA_TASK), WORD(call), WORD(a), WORD(0), WORD(0)

/* The setup, no counter, and two events: sta_tsk(3) and slp_tsk. */
#define BENCH_SHEET_RUN \
    BENCH_SHEET_SETUP, WORD(0), WORD(2), BY_TASK(OKROZUMBA_STA_TSK, 3), BY_TASK(OKROZUMBA_SLP_TSK, 0)

#endif

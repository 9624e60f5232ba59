/* A wait that is broken off, and what the kernel says of it. From the repository's root:

       (cd crates/okrozumba && rt lib --cpu x86-64) && mkdir -p target
       cc -std=c11 -Wall -Wextra -Iinclude examples/c/broken_wait.c crates/okrozumba/out/libokrozumba.a -o target/broken_wait
       target/broken_wait

   It prints:

       setup without its last byte: refused S1 at 60
       setup: fresh, runs 1
       task 1 wai_sem(1): code 1, runs 2, released 0
       handler entered: code 0, runs 2, released 0
       handler rel_wai(1): code 0, runs 2, released 1
       handler returns: code 0, runs 2, released 0
       cell of task 1: code -3414, word 0
       task 2 rot_rdq(0): code 0, runs 1, released 0
       task 1 wai_tsk(2): code 1, runs 2, released 0
       tick: code 0, runs 2, released 0
       tick: code 0, runs 2, released 1
       cell of task 1: code -3413, word 0
       task 2 sta_tsk(3): code 0, runs 3, released 0
       memory overwritten, tick: code -20, runs 0, released 0 */
#include "bench_sheet.h"

#include <inttypes.h>
#include <stdio.h>
#include <string.h>

static const uint8_t setup[] = {BENCH_SHEET_SETUP};

static void say(const char *event, okrozumba_answer r) {
    printf("%s: code %" PRId32 ", runs %" PRIu32 ", released %" PRIu32 "\n", event, r.code, r.running, r.released);
}

static void say_cell(const okrozumba_state *k, int32_t task) {
    okrozumba_reading cell = okrozumba_kernel_cell(k, task);
    printf("cell of task %" PRId32 ": code %" PRId32 ", word %" PRIu32 "\n", task, cell.code, cell.word);
}

int main(void) {
    static okrozumba_state k;

    okrozumba_outcome started = okrozumba_kernel_start(&k, setup, sizeof setup - 1);
    printf("setup without its last byte: refused S%" PRIu32 " at %zu\n", started.number, started.place);

    started = okrozumba_kernel_start(&k, setup, sizeof setup);
    if (started.number != OKROZUMBA_DONE) {
        return 1;
    }
    printf("setup: fresh, runs %" PRIu32 "\n", okrozumba_kernel_running(&k));

    say("task 1 wai_sem(1)", okrozumba_wai_sem(&k, OKROZUMBA_TASK, 1));
    say("handler entered", okrozumba_kernel_enter(&k));
    say("handler rel_wai(1)", okrozumba_rel_wai(&k, OKROZUMBA_HANDLER, 1));
    say("handler returns", okrozumba_kernel_leave(&k));
    say_cell(&k, 1);

    say("task 2 rot_rdq(0)", okrozumba_rot_rdq(&k, OKROZUMBA_TASK, 0));
    say("task 1 wai_tsk(2)", okrozumba_wai_tsk(&k, OKROZUMBA_TASK, 2));
    say("tick", okrozumba_kernel_tick(&k));
    say("tick", okrozumba_kernel_tick(&k));
    say_cell(&k, 1);

    say("task 2 sta_tsk(3)", okrozumba_sta_tsk(&k, OKROZUMBA_TASK, 3));

    memset(&k, 0xff, sizeof k);
    say("memory overwritten, tick", okrozumba_kernel_tick(&k));
    return 0;
}

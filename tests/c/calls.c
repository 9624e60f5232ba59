/* Every function of okrozumba_calls.h, held to okrozumba.h: from each state of long runs each of the 39 calls answers and leaves
   the memory as okrozumba_call by its number does, whatever stands in the words that it does not take. In C11 and in C++17. */
#include "okrozumba_calls.h"

#include <inttypes.h>
#include <stdio.h>
#include <stdlib.h>
#include <string.h>

#define WORD(n) (uint8_t)(n), 0, 0, 0

enum { CALLS = 39, ROUNDS = 6000, ROUNDS_OF_A_RUN = 60, EVENT_WORDS = 5, ANSWER_WORDS = 4 };

/* Some of everything; task 4 is dormant. */
static const uint8_t setup[] = {
    WORD(3),                                                                         /* priorities */
    WORD(4), WORD(1), WORD(1), WORD(2), WORD(1), WORD(2), WORD(1), WORD(3), WORD(0), /* tasks: priority, started */
    WORD(2), WORD(1), WORD(0),                                                       /* semaphores: count */
    WORD(2), WORD(5), WORD(0),                                                       /* flags: pattern */
    WORD(2),                                                                         /* mailboxes */
    WORD(3),                                                                         /* messages */
    WORD(2), WORD(2), WORD(1),                                                       /* pools: blocks */
    WORD(1), WORD(6),                                                                /* a counter: size */
    WORD(1), WORD(0), WORD(2), WORD(1), WORD(3), WORD(1), WORD(4), WORD(0),          /* alarms: task, start or wake */
    WORD(1), WORD(1), WORD(2), WORD(0), WORD(3), WORD(0), WORD(4), WORD(1),
};

static okrozumba_state k, before, other;

/* ---- small random numbers */

static uint32_t seed = 1;

static int32_t draw(int32_t low, int32_t high) {
    seed = seed * UINT32_C(1664525) + UINT32_C(1013904223);
    return low + (int32_t)((seed >> 8) % (uint32_t)(high - low + 1));
}

/* ---- what must be the same */

static void fail(const char *what) {
    printf("%s: another answer or another memory\n", what);
    exit(1);
}

static int same_answer(okrozumba_answer a, okrozumba_answer b) {
    return a.code == b.code && a.w1 == b.w1 && a.w2 == b.w2 && a.running == b.running && a.released == b.released;
}

static int same_memory(void) {
    return memcmp(&k, &other, sizeof k) == 0;
}

/* How often a call was not refused. */
static unsigned done[CALLS + 1];

static void hold(const char *what, okrozumba_answer got, int32_t context, int32_t number, int32_t a, int32_t b, int32_t c) {
    other = before;
    if (!same_answer(got, okrozumba_call(other.words, other.messages, context, number, a, b, c)) || !same_memory()) {
        fail(what);
    }
    done[number] += got.code >= 0;
    k = before;
}

/* ---- the calls */

#define HOLD(call, number) hold(#call, call, context, number, a, b, c)

/* A pattern may have its highest bit set. */
static void hold_calls(int32_t context, int32_t a, int32_t b, int32_t c) {
    const uint32_t bits = (uint32_t)b;
    HOLD(okrozumba_sta_tsk(&k, context, a), OKROZUMBA_STA_TSK);
    HOLD(okrozumba_ext_tsk(&k, context), OKROZUMBA_EXT_TSK);
    HOLD(okrozumba_ter_tsk(&k, context, a), OKROZUMBA_TER_TSK);
    HOLD(okrozumba_chg_pri(&k, context, a, b), OKROZUMBA_CHG_PRI);
    HOLD(okrozumba_rot_rdq(&k, context, a), OKROZUMBA_ROT_RDQ);
    HOLD(okrozumba_rel_wai(&k, context, a), OKROZUMBA_REL_WAI);
    HOLD(okrozumba_sus_tsk(&k, context, a), OKROZUMBA_SUS_TSK);
    HOLD(okrozumba_rsm_tsk(&k, context, a), OKROZUMBA_RSM_TSK);
    HOLD(okrozumba_slp_tsk(&k, context), OKROZUMBA_SLP_TSK);
    HOLD(okrozumba_wai_tsk(&k, context, a), OKROZUMBA_WAI_TSK);
    HOLD(okrozumba_wup_tsk(&k, context, a), OKROZUMBA_WUP_TSK);
    HOLD(okrozumba_can_wup(&k, context, a), OKROZUMBA_CAN_WUP);
    HOLD(okrozumba_sig_sem(&k, context, a), OKROZUMBA_SIG_SEM);
    HOLD(okrozumba_wai_sem(&k, context, a), OKROZUMBA_WAI_SEM);
    HOLD(okrozumba_preq_sem(&k, context, a), OKROZUMBA_PREQ_SEM);
    HOLD(okrozumba_set_flg(&k, context, a, bits), OKROZUMBA_SET_FLG);
    HOLD(okrozumba_clr_flg(&k, context, a, bits), OKROZUMBA_CLR_FLG);
    HOLD(okrozumba_wai_flg(&k, context, a, bits, c), OKROZUMBA_WAI_FLG);
    HOLD(okrozumba_pol_flg(&k, context, a, bits, c), OKROZUMBA_POL_FLG);
    HOLD(okrozumba_snd_msg(&k, context, a, b), OKROZUMBA_SND_MSG);
    HOLD(okrozumba_rcv_msg(&k, context, a), OKROZUMBA_RCV_MSG);
    HOLD(okrozumba_prcv_msg(&k, context, a), OKROZUMBA_PRCV_MSG);
    HOLD(okrozumba_get_blk(&k, context, a), OKROZUMBA_GET_BLK);
    HOLD(okrozumba_pget_blk(&k, context, a), OKROZUMBA_PGET_BLK);
    HOLD(okrozumba_rel_blk(&k, context, a, b), OKROZUMBA_REL_BLK);
    HOLD(okrozumba_get_tid(&k, context), OKROZUMBA_GET_TID);
    HOLD(okrozumba_tsk_sts(&k, context, a), OKROZUMBA_TSK_STS);
    HOLD(okrozumba_sem_sts(&k, context, a), OKROZUMBA_SEM_STS);
    HOLD(okrozumba_flg_sts(&k, context, a), OKROZUMBA_FLG_STS);
    HOLD(okrozumba_mbx_sts(&k, context, a), OKROZUMBA_MBX_STS);
    HOLD(okrozumba_mpl_sts(&k, context, a), OKROZUMBA_MPL_STS);
    HOLD(okrozumba_get_tim(&k, context), OKROZUMBA_GET_TIM);
    HOLD(okrozumba_cre_tsk(&k, context, a, b), OKROZUMBA_CRE_TSK);
    HOLD(okrozumba_del_tsk(&k, context, a), OKROZUMBA_DEL_TSK);
    HOLD(okrozumba_exd_tsk(&k, context), OKROZUMBA_EXD_TSK);
    HOLD(okrozumba_set_abs(&k, context, a, b, c), OKROZUMBA_SET_ABS);
    HOLD(okrozumba_set_rel(&k, context, a, b, c), OKROZUMBA_SET_REL);
    HOLD(okrozumba_can_alm(&k, context, a), OKROZUMBA_CAN_ALM);
    HOLD(okrozumba_alm_sts(&k, context, a), OKROZUMBA_ALM_STS);
}

/* ---- the other events, and readings */

static void hold_event(const char *what, okrozumba_answer got,
                       okrozumba_answer (*event)(uint32_t *words, const uint32_t *messages)) {
    other = before;
    if (!same_answer(got, event(other.words, other.messages)) || !same_memory()) {
        fail(what);
    }
    k = before;
}

static void hold_readings(int32_t task) {
    uint32_t ours[OKROZUMBA_TASKS] = {0}, theirs[OKROZUMBA_TASKS] = {0};
    const okrozumba_reading cell = okrozumba_kernel_cell(&k, task), by_words = okrozumba_cell(k.words, k.messages, task);
    const okrozumba_shown shown = okrozumba_kernel_states(&k, ours), seen = okrozumba_states(k.words, k.messages, theirs);
    if (cell.code != by_words.code || cell.word != by_words.word) {
        fail("okrozumba_kernel_cell");
    }
    if (shown.code != seen.code || shown.tasks != seen.tasks || memcmp(ours, theirs, sizeof ours) != 0) {
        fail("okrozumba_kernel_states");
    }
    if (okrozumba_kernel_running(&k) != okrozumba_running(k.words, k.messages)) {
        fail("okrozumba_kernel_running");
    }
}

/* Many events, and the same after a start. */
static void hold_batches(void) {
    const int32_t events[] = {OKROZUMBA_TASK, OKROZUMBA_SLP_TSK, 0, 0, 0, OKROZUMBA_TICK, 0, 0, 0, 0};
    enum { WORDS = sizeof events / sizeof events[0], MANY = WORDS / EVENT_WORDS };
    int32_t codes[2][MANY] = {{0}};
    uint32_t answers[2][ANSWER_WORDS * MANY] = {{0}};
    uint32_t number = okrozumba_kernel_events(&k, events, WORDS, codes[0], MANY, answers[0], ANSWER_WORDS * MANY);
    other = before;
    if (number != okrozumba_events(other.words, other.messages, events, WORDS, codes[1], MANY, answers[1], ANSWER_WORDS * MANY) ||
        memcmp(codes[0], codes[1], sizeof codes[0]) != 0 || memcmp(answers[0], answers[1], sizeof answers[0]) != 0 || !same_memory()) {
        fail("okrozumba_kernel_events");
    }
    okrozumba_outcome ran = okrozumba_kernel_run(&k, setup, sizeof setup, events, WORDS, codes[0], MANY, answers[0], ANSWER_WORDS * MANY);
    okrozumba_outcome by_words = okrozumba_run(setup, sizeof setup, other.words, other.messages, events, WORDS, codes[1], MANY, answers[1],
                                               ANSWER_WORDS * MANY);
    if (ran.number != by_words.number || ran.number != OKROZUMBA_DONE || ran.place != by_words.place || !same_memory()) {
        fail("okrozumba_kernel_run");
    }
    k = before;
}

static void hold_start(void) {
    const okrozumba_outcome ours = okrozumba_kernel_start(&k, setup, sizeof setup);
    const okrozumba_outcome theirs = okrozumba_start(setup, sizeof setup, other.words, other.messages);
    if (ours.number != OKROZUMBA_DONE || theirs.number != OKROZUMBA_DONE || !same_memory()) {
        fail("okrozumba_kernel_start");
    }
}

/* One event on; handlers are left more often than they are entered. */
static void step(int32_t context, int32_t a, int32_t b, int32_t c) {
    switch (draw(0, 7)) {
    case 0:
        okrozumba_kernel_tick(&k);
        break;
    case 1:
        okrozumba_kernel_enter(&k);
        break;
    case 2:
    case 3:
        okrozumba_kernel_leave(&k);
        break;
    default:
        okrozumba_kernel_call(&k, context, draw(1, CALLS), a, b, c);
    }
}

int main(void) {
    for (int round = 0; round < ROUNDS; round++) {
        if (round % ROUNDS_OF_A_RUN == 0) {
            hold_start();
        }
        before = k;
        const int32_t context = draw(0, 9) == 0 ? 2 : draw(0, 1), a = draw(-1, 5), c = draw(-1, 4);
        const int32_t b = draw(0, 9) == 0 ? INT32_MIN + draw(0, 7) : draw(-1, 7);
        hold_calls(context, a, b, c);
        hold_event("okrozumba_kernel_tick", okrozumba_kernel_tick(&k), okrozumba_tick);
        hold_event("okrozumba_kernel_enter", okrozumba_kernel_enter(&k), okrozumba_enter);
        hold_event("okrozumba_kernel_leave", okrozumba_kernel_leave(&k), okrozumba_leave);
        hold_readings(a);
        hold_batches();
        step(context, a, b, c);
    }
    for (int number = 1; number <= CALLS; number++) {
        if (done[number] == 0) {
            printf("call %d was always refused\n", number);
            return 1;
        }
    }
    printf("%d calls and all else, each from %d states\n", CALLS, ROUNDS);
    return 0;
}

/* Okrozumba's calls by the manual's names, over one okrozumba_state: a function for each of the 39 calls, and one for each other event and
   reading. Include this file alone: it includes okrozumba.h, which has the numbers, the codes and what each function promises.

       okrozumba_state k;
       if (okrozumba_kernel_start(&k, setup, sizeof setup).number == OKROZUMBA_DONE) {
           okrozumba_kernel_enter(&k);
           okrozumba_sig_sem(&k, OKROZUMBA_HANDLER, 1);
           okrozumba_kernel_leave(&k);
       }

   Each is inline and does nothing but call the function of okrozumba.h. A context is OKROZUMBA_TASK or OKROZUMBA_HANDLER. Ids are signed,
   as the kernel's words are, and one that names nothing is refused by the code; a flag's pattern is unsigned. Calls marked T are for
   tasks. */
#ifndef OKROZUMBA_CALLS_H
#define OKROZUMBA_CALLS_H

#include "okrozumba.h"

/* ---- the kernel: start, events, readings */

/* Makes k the fresh state of a setup, whatever it held, or leaves it as it was. */
static inline okrozumba_outcome okrozumba_kernel_start(okrozumba_state *k, const uint8_t *setup, size_t setup_bytes) {
    return okrozumba_start(setup, setup_bytes, k->words, k->messages);
}

/* A call by its number. */
static inline okrozumba_answer okrozumba_kernel_call(okrozumba_state *k, int32_t context, int32_t number, int32_t a, int32_t b, int32_t c) {
    return okrozumba_call(k->words, k->messages, context, number, a, b, c);
}

/* A tick of the clock. */
static inline okrozumba_answer okrozumba_kernel_tick(okrozumba_state *k) {
    return okrozumba_tick(k->words, k->messages);
}

/* A handler is entered. */
static inline okrozumba_answer okrozumba_kernel_enter(okrozumba_state *k) {
    return okrozumba_enter(k->words, k->messages);
}

/* A handler returns. */
static inline okrozumba_answer okrozumba_kernel_leave(okrozumba_state *k) {
    return okrozumba_leave(k->words, k->messages);
}

/* The answer cell of a task. */
static inline okrozumba_reading okrozumba_kernel_cell(const okrozumba_state *k, int32_t task) {
    return okrozumba_cell(k->words, k->messages, task);
}

/* The running task, 0 if there is none. */
static inline uint32_t okrozumba_kernel_running(const okrozumba_state *k) {
    return okrozumba_running(k->words, k->messages);
}

/* The states of all tasks: that of task t goes to states[t - 1]. */
static inline okrozumba_shown okrozumba_kernel_states(const okrozumba_state *k, uint32_t states[OKROZUMBA_TASKS]) {
    return okrozumba_states(k->words, k->messages, states);
}

/* Many events, five words each. */
static inline uint32_t okrozumba_kernel_events(okrozumba_state *k, const int32_t *events, size_t event_words, int32_t *codes,
                                               size_t code_places, uint32_t *answers, size_t answer_words) {
    return okrozumba_events(k->words, k->messages, events, event_words, codes, code_places, answers, answer_words);
}

/* A start and then many events. */
static inline okrozumba_outcome okrozumba_kernel_run(okrozumba_state *k, const uint8_t *setup, size_t setup_bytes, const int32_t *events,
                                                     size_t event_words, int32_t *codes, size_t code_places, uint32_t *answers,
                                                     size_t answer_words) {
    return okrozumba_run(setup, setup_bytes, k->words, k->messages, events, event_words, codes, code_places, answers, answer_words);
}

/* The word with the same bits as a pattern. */
static inline int32_t okrozumba_bits(uint32_t pattern) {
    const uint32_t sign = UINT32_C(1) << 31;
    return pattern < sign ? (int32_t)pattern : (int32_t)(pattern - sign) + INT32_MIN;
}

/* ---- tasks */

/* A dormant task is made ready at its starting priority. */
static inline okrozumba_answer okrozumba_sta_tsk(okrozumba_state *k, int32_t context, int32_t task) {
    return okrozumba_kernel_call(k, context, OKROZUMBA_STA_TSK, task, 0, 0);
}

/* The caller ends: it goes dormant. T */
static inline okrozumba_answer okrozumba_ext_tsk(okrozumba_state *k, int32_t context) {
    return okrozumba_kernel_call(k, context, OKROZUMBA_EXT_TSK, 0, 0, 0);
}

/* Another task ends: it leaves every queue and goes dormant. T */
static inline okrozumba_answer okrozumba_ter_tsk(okrozumba_state *k, int32_t context, int32_t task) {
    return okrozumba_kernel_call(k, context, OKROZUMBA_TER_TSK, task, 0, 0);
}

/* A new priority; a ready or running task goes last in its queue. */
static inline okrozumba_answer okrozumba_chg_pri(okrozumba_state *k, int32_t context, int32_t task, int32_t priority) {
    return okrozumba_kernel_call(k, context, OKROZUMBA_CHG_PRI, task, priority, 0);
}

/* The head of a ready queue goes last; priority 0 is the best that has a ready task. */
static inline okrozumba_answer okrozumba_rot_rdq(okrozumba_state *k, int32_t context, int32_t priority) {
    return okrozumba_kernel_call(k, context, OKROZUMBA_ROT_RDQ, priority, 0, 0);
}

/* A wait is broken off: the task is released, its cell has E_RLWAI. */
static inline okrozumba_answer okrozumba_rel_wai(okrozumba_state *k, int32_t context, int32_t task) {
    return okrozumba_kernel_call(k, context, OKROZUMBA_REL_WAI, task, 0, 0);
}

/* A task is suspended; a waiting one keeps its place. */
static inline okrozumba_answer okrozumba_sus_tsk(okrozumba_state *k, int32_t context, int32_t task) {
    return okrozumba_kernel_call(k, context, OKROZUMBA_SUS_TSK, task, 0, 0);
}

/* A suspended task goes on: it is ready, or waits as before. */
static inline okrozumba_answer okrozumba_rsm_tsk(okrozumba_state *k, int32_t context, int32_t task) {
    return okrozumba_kernel_call(k, context, OKROZUMBA_RSM_TSK, task, 0, 0);
}

/* ---- sleep and wake-ups */

/* The caller takes a stored wake-up, else it sleeps. T */
static inline okrozumba_answer okrozumba_slp_tsk(okrozumba_state *k, int32_t context) {
    return okrozumba_kernel_call(k, context, OKROZUMBA_SLP_TSK, 0, 0, 0);
}

/* The same, but it sleeps up to so many ticks, for ever with OKROZUMBA_FOR_EVER; 0 ticks are E_TMOUT. T */
static inline okrozumba_answer okrozumba_wai_tsk(okrozumba_state *k, int32_t context, int32_t ticks) {
    return okrozumba_kernel_call(k, context, OKROZUMBA_WAI_TSK, ticks, 0, 0);
}

/* A sleeper is released; any other task stores a wake-up. */
static inline okrozumba_answer okrozumba_wup_tsk(okrozumba_state *k, int32_t context, int32_t task) {
    return okrozumba_kernel_call(k, context, OKROZUMBA_WUP_TSK, task, 0, 0);
}

/* Stored wake-ups are dropped; w1 is how many there were. */
static inline okrozumba_answer okrozumba_can_wup(okrozumba_state *k, int32_t context, int32_t task) {
    return okrozumba_kernel_call(k, context, OKROZUMBA_CAN_WUP, task, 0, 0);
}

/* ---- semaphores */

/* The first waiter is released, else the count rises. */
static inline okrozumba_answer okrozumba_sig_sem(okrozumba_state *k, int32_t context, int32_t semaphore) {
    return okrozumba_kernel_call(k, context, OKROZUMBA_SIG_SEM, semaphore, 0, 0);
}

/* The caller takes one of the count, else it waits. T */
static inline okrozumba_answer okrozumba_wai_sem(okrozumba_state *k, int32_t context, int32_t semaphore) {
    return okrozumba_kernel_call(k, context, OKROZUMBA_WAI_SEM, semaphore, 0, 0);
}

/* The same, but H_POLL instead of a wait. */
static inline okrozumba_answer okrozumba_preq_sem(okrozumba_state *k, int32_t context, int32_t semaphore) {
    return okrozumba_kernel_call(k, context, OKROZUMBA_PREQ_SEM, semaphore, 0, 0);
}

/* ---- event flags */

/* Bits are set, and waiters whose condition holds are released; w1 is how many were looked at. */
static inline okrozumba_answer okrozumba_set_flg(okrozumba_state *k, int32_t context, int32_t flag, uint32_t pattern) {
    return okrozumba_kernel_call(k, context, OKROZUMBA_SET_FLG, flag, okrozumba_bits(pattern), 0);
}

/* Only bits of the pattern stay. */
static inline okrozumba_answer okrozumba_clr_flg(okrozumba_state *k, int32_t context, int32_t flag, uint32_t pattern) {
    return okrozumba_kernel_call(k, context, OKROZUMBA_CLR_FLG, flag, okrozumba_bits(pattern), 0);
}

/* Unless all bits of the pattern are set the caller waits for them; mode adds up OKROZUMBA_ANY_BIT and OKROZUMBA_CLEAR_ALL. w1 is the
   pattern before clearing. T */
static inline okrozumba_answer okrozumba_wai_flg(okrozumba_state *k, int32_t context, int32_t flag, uint32_t pattern, int32_t mode) {
    return okrozumba_kernel_call(k, context, OKROZUMBA_WAI_FLG, flag, okrozumba_bits(pattern), mode);
}

/* The same, but H_POLL instead of a wait. */
static inline okrozumba_answer okrozumba_pol_flg(okrozumba_state *k, int32_t context, int32_t flag, uint32_t pattern, int32_t mode) {
    return okrozumba_kernel_call(k, context, OKROZUMBA_POL_FLG, flag, okrozumba_bits(pattern), mode);
}

/* ---- mailboxes */

/* A message goes to the first waiter, else last into the mailbox. */
static inline okrozumba_answer okrozumba_snd_msg(okrozumba_state *k, int32_t context, int32_t mailbox, int32_t message) {
    return okrozumba_kernel_call(k, context, OKROZUMBA_SND_MSG, mailbox, message, 0);
}

/* The caller gets the first message in w1, else it waits. T */
static inline okrozumba_answer okrozumba_rcv_msg(okrozumba_state *k, int32_t context, int32_t mailbox) {
    return okrozumba_kernel_call(k, context, OKROZUMBA_RCV_MSG, mailbox, 0, 0);
}

/* The same, but H_POLL instead of a wait. */
static inline okrozumba_answer okrozumba_prcv_msg(okrozumba_state *k, int32_t context, int32_t mailbox) {
    return okrozumba_kernel_call(k, context, OKROZUMBA_PRCV_MSG, mailbox, 0, 0);
}

/* ---- memory pools */

/* The caller gets the block that is free the longest in w1, else it waits. T */
static inline okrozumba_answer okrozumba_get_blk(okrozumba_state *k, int32_t context, int32_t pool) {
    return okrozumba_kernel_call(k, context, OKROZUMBA_GET_BLK, pool, 0, 0);
}

/* The same, but H_POLL instead of a wait. */
static inline okrozumba_answer okrozumba_pget_blk(okrozumba_state *k, int32_t context, int32_t pool) {
    return okrozumba_kernel_call(k, context, OKROZUMBA_PGET_BLK, pool, 0, 0);
}

/* A block is returned: to the first waiter, else it is free. */
static inline okrozumba_answer okrozumba_rel_blk(okrozumba_state *k, int32_t context, int32_t pool, int32_t block) {
    return okrozumba_kernel_call(k, context, OKROZUMBA_REL_BLK, pool, block, 0);
}

/* ---- what only looks */

/* w1 is the running task. */
static inline okrozumba_answer okrozumba_get_tid(okrozumba_state *k, int32_t context) {
    return okrozumba_kernel_call(k, context, OKROZUMBA_GET_TID, 0, 0, 0);
}

/* w1 is the state, OKROZUMBA_DORMANT to _WAIT_SUSPEND, w2 the priority. */
static inline okrozumba_answer okrozumba_tsk_sts(okrozumba_state *k, int32_t context, int32_t task) {
    return okrozumba_kernel_call(k, context, OKROZUMBA_TSK_STS, task, 0, 0);
}

/* w1 is the first waiter or 0, w2 the count. */
static inline okrozumba_answer okrozumba_sem_sts(okrozumba_state *k, int32_t context, int32_t semaphore) {
    return okrozumba_kernel_call(k, context, OKROZUMBA_SEM_STS, semaphore, 0, 0);
}

/* w1 is the first waiter or 0, w2 the pattern. */
static inline okrozumba_answer okrozumba_flg_sts(okrozumba_state *k, int32_t context, int32_t flag) {
    return okrozumba_kernel_call(k, context, OKROZUMBA_FLG_STS, flag, 0, 0);
}

/* w1 is the first waiter or 0, w2 the first message or 0. */
static inline okrozumba_answer okrozumba_mbx_sts(okrozumba_state *k, int32_t context, int32_t mailbox) {
    return okrozumba_kernel_call(k, context, OKROZUMBA_MBX_STS, mailbox, 0, 0);
}

/* w1 is the first waiter or 0, w2 the number of free blocks. */
static inline okrozumba_answer okrozumba_mpl_sts(okrozumba_state *k, int32_t context, int32_t pool) {
    return okrozumba_kernel_call(k, context, OKROZUMBA_MPL_STS, pool, 0, 0);
}

/* The clock: w1 is its quotient by 2^32, w2 the remainder. */
static inline okrozumba_answer okrozumba_get_tim(okrozumba_state *k, int32_t context) {
    return okrozumba_kernel_call(k, context, OKROZUMBA_GET_TIM, 0, 0, 0);
}

/* ---- tasks that come and go */

/* A task that is not there is made, dormant, with a starting priority. T */
static inline okrozumba_answer okrozumba_cre_tsk(okrozumba_state *k, int32_t context, int32_t task, int32_t priority) {
    return okrozumba_kernel_call(k, context, OKROZUMBA_CRE_TSK, task, priority, 0);
}

/* A dormant task is deleted. T */
static inline okrozumba_answer okrozumba_del_tsk(okrozumba_state *k, int32_t context, int32_t task) {
    return okrozumba_kernel_call(k, context, OKROZUMBA_DEL_TSK, task, 0, 0);
}

/* The caller ends and is deleted. T */
static inline okrozumba_answer okrozumba_exd_tsk(okrozumba_state *k, int32_t context) {
    return okrozumba_kernel_call(k, context, OKROZUMBA_EXD_TSK, 0, 0, 0);
}

/* ---- alarms */

/* An idle alarm is to fire when the counter comes to a count, once (period 0) or every so many ticks. */
static inline okrozumba_answer okrozumba_set_abs(okrozumba_state *k, int32_t context, int32_t alarm, int32_t count, int32_t period) {
    return okrozumba_kernel_call(k, context, OKROZUMBA_SET_ABS, alarm, count, period);
}

/* The same after so many ticks; 0 ticks are the counter's size. */
static inline okrozumba_answer okrozumba_set_rel(okrozumba_state *k, int32_t context, int32_t alarm, int32_t ticks, int32_t period) {
    return okrozumba_kernel_call(k, context, OKROZUMBA_SET_REL, alarm, ticks, period);
}

/* An alarm in use goes idle. */
static inline okrozumba_answer okrozumba_can_alm(okrozumba_state *k, int32_t context, int32_t alarm) {
    return okrozumba_kernel_call(k, context, OKROZUMBA_CAN_ALM, alarm, 0, 0);
}

/* w1 is 1 if the alarm is in use, else 0; w2 the code of its last firing without the sign, 0 before any. */
static inline okrozumba_answer okrozumba_alm_sts(okrozumba_state *k, int32_t context, int32_t alarm) {
    return okrozumba_kernel_call(k, context, OKROZUMBA_ALM_STS, alarm, 0, 0);
}

#endif

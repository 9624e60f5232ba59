/* The calls: each takes who calls and the event, and gives the code. What an answer has beside it is 0 unless the call says otherwise. */
#ifndef CALLS_H
#define CALLS_H

#include "acts.h"

typedef int32_t call_function(struct peer *k, int32_t me, const struct peer_event *e, struct peer_answer *r);

call_function sta_tsk, ext_tsk, ter_tsk, chg_pri, rot_rdq, rel_wai, sus_tsk, rsm_tsk;
call_function slp_tsk, wai_tsk, wup_tsk, can_wup, get_tid, tsk_sts, cre_tsk, del_tsk, exd_tsk;
call_function sig_sem, wai_sem, preq_sem, sem_sts;
call_function set_flg, clr_flg, wai_flg, pol_flg, flg_sts;
call_function snd_msg, rcv_msg, prcv_msg, mbx_sts;
call_function get_blk, pget_blk, rel_blk, mpl_sts;
call_function get_tim, set_abs, set_rel, can_alm, alm_sts;

/* What sta_tsk and wup_tsk do to a task, for alarms too. */
int32_t start_task(struct peer *k, struct task *t);
int32_t wake_task(struct peer *k, struct task *t, uint32_t *released);

int32_t tick(struct peer *k, struct peer_answer *r);

/* The ticks from now on until the counter reaches a count: 1 to its size. */
static inline uint32_t distance(const struct peer *k, uint32_t count)
{
    return count > k->present ? count - k->present : count + k->round - k->present;
}

static inline bool meets(uint32_t pattern, uint32_t wish, uint32_t mode)
{
    return mode & ANY_BIT ? (pattern & wish) != 0 : (pattern & wish) == wish;
}

/* Whether the state keeps every rule; and if it doesn't, the code of the first one broken, and the smallest id that breaks it or 0. */
bool is_sound(const struct peer *k);
int32_t breach(const struct peer *k, uint32_t *id);

#endif

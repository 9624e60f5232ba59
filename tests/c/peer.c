/* Events: the table of calls, entry and return of handlers, and a state copied. */
#include "calls.h"
#include <string.h>

_Static_assert(sizeof(struct task) == 64, "a task is found by a shift");

/* By number, from 1 on. */
static call_function *const calls[] = {
    sta_tsk, ext_tsk, ter_tsk, chg_pri, rot_rdq, rel_wai, sus_tsk, rsm_tsk, slp_tsk, wai_tsk, wup_tsk, can_wup, sig_sem,
    wai_sem, preq_sem, set_flg, clr_flg, wai_flg, pol_flg, snd_msg, rcv_msg, prcv_msg, get_blk, pget_blk, rel_blk, get_tid,
    tsk_sts, sem_sts, flg_sts, mbx_sts, mpl_sts, get_tim, cre_tsk, del_tsk, exd_tsk, set_abs, set_rel, can_alm, alm_sts,
};

enum { CALLS = sizeof calls / sizeof *calls };

static inline int32_t call(struct peer *k, int32_t me, const struct peer_event *e, struct peer_answer *r)
{
    return within(e->call, CALLS) ? calls[e->call - 1](k, me, e, r) : H_CALL;
}

static inline int32_t call_by_task(struct peer *k, const struct peer_event *e, struct peer_answer *r)
{
    bool runs = k->depth == 0 && k->running != 0;
    return call(k, runs ? (int32_t)k->running : NOBODY, e, r);
}

static inline int32_t call_by_handler(struct peer *k, const struct peer_event *e, struct peer_answer *r)
{
    return call(k, k->depth != 0 ? HANDLER : NOBODY, e, r);
}

static inline int32_t enter(struct peer *k)
{
    if (k->depth == DEPTH_MOST)
        return H_NEST;
    k->depth++;
    return OK;
}

static inline int32_t leave(struct peer *k)
{
    if (k->depth == 0)
        return E_CTX;
    k->depth--;
    dispatch(k);
    return OK;
}

static inline int32_t event(struct peer *k, const struct peer_event *e, struct peer_answer *r)
{
    switch (e->kind) {
    case 0:
        return call_by_task(k, e, r);
    case 1:
        return call_by_handler(k, e, r);
    case 2:
        return tick(k, r);
    case 3:
        return enter(k);
    case 4:
        return leave(k);
    default:
        return H_CALL;
    }
}

static const struct peer_answer NOTHING;

void peer_events(struct peer *k, const struct peer_event *events, size_t many, int32_t *codes, struct peer_answer *answers)
{
    for (size_t i = 0; i < many; i++) {
        answers[i] = NOTHING;
        codes[i] = event(k, &events[i], &answers[i]);
        answers[i].running = k->running;
    }
}

void peer_checked_events(struct peer *k, const struct peer_event *events, size_t many, int32_t *codes, struct peer_answer *answers)
{
    for (size_t i = 0; i < many; i++) {
        answers[i] = NOTHING;
        if (!is_sound(k)) {
            codes[i] = breach(k, &answers[i].w1);
            continue;
        }
        codes[i] = event(k, &events[i], &answers[i]);
        answers[i].running = k->running;
    }
}

int32_t peer_cell(const struct peer *k, int32_t task, uint32_t *word)
{
    *word = 0;
    if (!within(task, k->tasks) || k->task[task].status == ABSENT)
        return E_NOEXS;
    *word = k->task[task].word;
    return k->task[task].code;
}

size_t peer_size(void)
{
    return sizeof(struct peer);
}

/* ---- a state copied */

static void move(struct queue *q, uintptr_t by)
{
    q->next = (struct queue *)((uintptr_t)q->next + by);
    q->prev = (struct queue *)((uintptr_t)q->prev + by);
}

void peer_copy(struct peer *to, const struct peer *from)
{
    uintptr_t by = (uintptr_t)to - (uintptr_t)from;
    memcpy(to, from, sizeof *to);
    for (size_t i = 0; i <= TASKS_MOST; i++)
        move(&to->task[i].node, by);
    for (size_t i = 0; i <= PRIORITIES_MOST; i++)
        move(&to->ready_queue[i], by);
    for (size_t i = 0; i < OBJECTS_MOST; i++) {
        move(&to->semaphore[i].waiters, by);
        move(&to->flag[i].waiters, by);
        move(&to->mailbox[i].waiters, by);
    }
    for (size_t i = 0; i < POOLS_MOST; i++)
        move(&to->pool[i].waiters, by);
}

/* Calls on tasks. */
#include "calls.h"

/* Out of every queue, and dormant. */
static void retire(struct peer *k, struct task *t)
{
    if (t->status == READY)
        leave_ready(k, t);
    else if (is_waiting(t))
        leave_wait(k, t);
    t->status = DORMANT;
    t->priority = t->start;
    t->wakeups = 0;
}

static void delete_task(struct task *t)
{
    t->status = ABSENT;
    t->priority = 0;
    t->start = 0;
    t->code = 0;
    t->word = 0;
}

int32_t start_task(struct peer *k, struct task *t)
{
    if (t->status == ABSENT)
        return E_NOEXS;
    if (t->status != DORMANT)
        return H_NODMT;
    t->code = 0;
    t->word = 0;
    make_ready(k, t);
    dispatch(k);
    return OK;
}

int32_t sta_tsk(struct peer *k, int32_t me, const struct peer_event *e, struct peer_answer *r)
{
    (void)r;
    if (!within(e->a, k->tasks))
        return E_NOEXS;
    if (me == NOBODY)
        return E_CTX;
    return start_task(k, &k->task[e->a]);
}

int32_t ext_tsk(struct peer *k, int32_t me, const struct peer_event *e, struct peer_answer *r)
{
    (void)e, (void)r;
    if (me <= HANDLER)
        return E_CTX;
    retire(k, &k->task[me]);
    dispatch(k);
    return OK;
}

int32_t ter_tsk(struct peer *k, int32_t me, const struct peer_event *e, struct peer_answer *r)
{
    (void)r;
    if (!within(e->a, k->tasks))
        return E_NOEXS;
    if (me <= HANDLER)
        return E_CTX;
    struct task *t = &k->task[e->a];
    if (t->status == ABSENT)
        return E_NOEXS;
    if (me == e->a)
        return E_SELF;
    if (t->status == DORMANT)
        return E_DMT;
    /* another than the running task: nobody else runs after it */
    retire(k, t);
    return OK;
}

int32_t cre_tsk(struct peer *k, int32_t me, const struct peer_event *e, struct peer_answer *r)
{
    (void)r;
    if (!within(e->a, k->tasks))
        return E_NOEXS;
    if (!within(e->b, k->priorities))
        return E_TPRI;
    if (me <= HANDLER)
        return E_CTX;
    struct task *t = &k->task[e->a];
    if (t->status != ABSENT)
        return H_EXIST;
    t->status = DORMANT;
    t->start = (uint32_t)e->b;
    t->priority = (uint32_t)e->b;
    return OK;
}

int32_t del_tsk(struct peer *k, int32_t me, const struct peer_event *e, struct peer_answer *r)
{
    (void)r;
    if (!within(e->a, k->tasks))
        return E_NOEXS;
    if (me <= HANDLER)
        return E_CTX;
    struct task *t = &k->task[e->a];
    if (t->status == ABSENT)
        return E_NOEXS;
    if (t->status != DORMANT)
        return H_NODMT;
    delete_task(t);
    return OK;
}

int32_t exd_tsk(struct peer *k, int32_t me, const struct peer_event *e, struct peer_answer *r)
{
    (void)e, (void)r;
    if (me <= HANDLER)
        return E_CTX;
    retire(k, &k->task[me]);
    delete_task(&k->task[me]);
    dispatch(k);
    return OK;
}

int32_t chg_pri(struct peer *k, int32_t me, const struct peer_event *e, struct peer_answer *r)
{
    (void)r;
    if (!within(e->a, k->tasks))
        return E_NOEXS;
    if (!within(e->b, k->priorities))
        return E_TPRI;
    if (me == NOBODY)
        return E_CTX;
    struct task *t = &k->task[e->a];
    switch (t->status) {
    case ABSENT:
        return E_NOEXS;
    case DORMANT:
        return E_DMT;
    case READY:
        leave_ready(k, t);
        t->priority = (uint32_t)e->b;
        enter_ready(k, t);
        dispatch(k);
        return OK;
    default:
        t->priority = (uint32_t)e->b;
        return OK;
    }
}

/* The idle task goes behind itself. */
int32_t rot_rdq(struct peer *k, int32_t me, const struct peer_event *e, struct peer_answer *r)
{
    (void)r;
    if ((uint32_t)e->a > k->priorities)
        return E_TPRI;
    if (me == NOBODY)
        return E_CTX;
    struct queue *q = e->a == 0 ? best_queue(k) : &k->ready_queue[e->a - 1];
    struct queue *head = q->next;
    if (head != q) {
        unlink_node(head);
        push(q, head);
        dispatch(k);
    }
    return OK;
}

int32_t rel_wai(struct peer *k, int32_t me, const struct peer_event *e, struct peer_answer *r)
{
    if (!within(e->a, k->tasks))
        return E_NOEXS;
    if (me == NOBODY)
        return E_CTX;
    struct task *t = &k->task[e->a];
    if (t->status == ABSENT)
        return E_NOEXS;
    if (!is_waiting(t))
        return E_NOWAI;
    leave_wait(k, t);
    release(k, t, E_RLWAI, 0);
    dispatch(k);
    r->released = 1;
    return OK;
}

int32_t sus_tsk(struct peer *k, int32_t me, const struct peer_event *e, struct peer_answer *r)
{
    (void)r;
    if (!within(e->a, k->tasks))
        return E_NOEXS;
    if (me == NOBODY)
        return E_CTX;
    if (me == e->a)
        return E_SELF;
    struct task *t = &k->task[e->a];
    switch (t->status) {
    case ABSENT:
        return E_NOEXS;
    case DORMANT:
        return E_DMT;
    case READY:
        /* not the running task, or a handler is open: nobody else runs after it */
        leave_ready(k, t);
        t->status = SUSPEND;
        return OK;
    case WAIT:
        t->status = WAIT_SUSPEND;
        return OK;
    default:
        return H_SUS;
    }
}

int32_t rsm_tsk(struct peer *k, int32_t me, const struct peer_event *e, struct peer_answer *r)
{
    (void)r;
    if (!within(e->a, k->tasks))
        return E_NOEXS;
    if (me == NOBODY)
        return E_CTX;
    struct task *t = &k->task[e->a];
    switch (t->status) {
    case ABSENT:
        return E_NOEXS;
    case SUSPEND:
        make_ready(k, t);
        dispatch(k);
        return OK;
    case WAIT_SUSPEND:
        t->status = WAIT;
        return OK;
    default:
        return E_NOSUS;
    }
}

int32_t slp_tsk(struct peer *k, int32_t me, const struct peer_event *e, struct peer_answer *r)
{
    (void)e, (void)r;
    if (me <= HANDLER)
        return E_CTX;
    struct task *t = &k->task[me];
    if (t->wakeups != 0) {
        t->wakeups--;
        return OK;
    }
    leave_ready(k, t);
    t->status = WAIT;
    t->kind = SLEEP;
    dispatch(k);
    return WAITS;
}

/* A timed wait of the running task begins. */
static void wait_ticks(struct peer *k, struct task *t, uint32_t ticks)
{
    uint32_t now = (uint32_t)k->clock;
    t->kind = TIMED;
    t->due = now + ticks;
    if (k->timed == 0 || ticks < k->soonest - now)
        k->soonest = t->due;
    k->timed |= bit_of(id_of(k, t));
}

int32_t wai_tsk(struct peer *k, int32_t me, const struct peer_event *e, struct peer_answer *r)
{
    (void)r;
    if (e->a < -1)
        return E_ILTIME;
    if (me <= HANDLER)
        return E_CTX;
    struct task *t = &k->task[me];
    if (t->wakeups != 0) {
        t->wakeups--;
        return OK;
    }
    if (e->a == 0)
        return E_TMOUT;
    leave_ready(k, t);
    t->status = WAIT;
    if (e->a > 0)
        wait_ticks(k, t, (uint32_t)e->a);
    else
        t->kind = SLEEP;
    dispatch(k);
    return WAITS;
}

int32_t wake_task(struct peer *k, struct task *t, uint32_t *released)
{
    if (t->status == ABSENT)
        return E_NOEXS;
    if (t->status == DORMANT)
        return E_DMT;
    if (is_waiting(t) && t->kind <= TIMED) {
        leave_wait(k, t);
        release(k, t, OK, 0);
        dispatch(k);
        ++*released;
        return OK;
    }
    if (t->wakeups == WAKEUPS_MOST)
        return E_QOVR;
    t->wakeups++;
    return OK;
}

int32_t wup_tsk(struct peer *k, int32_t me, const struct peer_event *e, struct peer_answer *r)
{
    if (!within(e->a, k->tasks))
        return E_NOEXS;
    if (me == NOBODY)
        return E_CTX;
    if (me == e->a)
        return E_SELF;
    return wake_task(k, &k->task[e->a], &r->released);
}

int32_t can_wup(struct peer *k, int32_t me, const struct peer_event *e, struct peer_answer *r)
{
    if (!within(e->a, k->tasks))
        return E_NOEXS;
    if (me == NOBODY)
        return E_CTX;
    struct task *t = &k->task[e->a];
    if (t->status == ABSENT)
        return E_NOEXS;
    if (t->status == DORMANT)
        return E_DMT;
    r->w1 = t->wakeups;
    t->wakeups = 0;
    return OK;
}

int32_t get_tid(struct peer *k, int32_t me, const struct peer_event *e, struct peer_answer *r)
{
    (void)e;
    if (me == NOBODY)
        return E_CTX;
    r->w1 = k->running;
    return OK;
}

int32_t tsk_sts(struct peer *k, int32_t me, const struct peer_event *e, struct peer_answer *r)
{
    if (!within(e->a, k->tasks))
        return E_NOEXS;
    if (me == NOBODY)
        return E_CTX;
    const struct task *t = &k->task[e->a];
    if (t->status == ABSENT)
        return E_NOEXS;
    r->w1 = t->status == READY && (uint32_t)e->a == k->running ? RUN : t->status;
    r->w2 = t->priority;
    return OK;
}

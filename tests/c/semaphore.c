/* Calls on semaphores. */
#include "calls.h"

int32_t sig_sem(struct peer *k, int32_t me, const struct peer_event *e, struct peer_answer *r)
{
    if (!within(e->a, k->semaphores))
        return E_NOEXS;
    if (me == NOBODY)
        return E_CTX;
    struct semaphore *s = &k->semaphore[e->a - 1];
    if (!is_empty(&s->waiters))
        return serve(k, &s->waiters, 0, r);
    if (s->count == SEMAPHORE_MOST)
        return E_QOVR;
    s->count++;
    return OK;
}

int32_t wai_sem(struct peer *k, int32_t me, const struct peer_event *e, struct peer_answer *r)
{
    (void)r;
    if (!within(e->a, k->semaphores))
        return E_NOEXS;
    if (me <= HANDLER)
        return E_CTX;
    struct semaphore *s = &k->semaphore[e->a - 1];
    if (s->count == 0)
        return wait_on(k, &k->task[me], SEMAPHORE, e->a, &s->waiters);
    s->count--;
    return OK;
}

int32_t preq_sem(struct peer *k, int32_t me, const struct peer_event *e, struct peer_answer *r)
{
    (void)r;
    if (!within(e->a, k->semaphores))
        return E_NOEXS;
    if (me == NOBODY)
        return E_CTX;
    struct semaphore *s = &k->semaphore[e->a - 1];
    if (s->count == 0)
        return H_POLL;
    s->count--;
    return OK;
}

int32_t sem_sts(struct peer *k, int32_t me, const struct peer_event *e, struct peer_answer *r)
{
    if (!within(e->a, k->semaphores))
        return E_NOEXS;
    if (me == NOBODY)
        return E_CTX;
    const struct semaphore *s = &k->semaphore[e->a - 1];
    r->w1 = first_id(k, &s->waiters);
    r->w2 = s->count;
    return OK;
}

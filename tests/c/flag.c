/* Calls on event flags. */
#include "calls.h"

/* In w1 how many waiters were looked at. A cleared pattern meets no wish, so the walk ends there. */
int32_t set_flg(struct peer *k, int32_t me, const struct peer_event *e, struct peer_answer *r)
{
    if (!within(e->a, k->flags))
        return E_NOEXS;
    if (me == NOBODY)
        return E_CTX;
    struct flag *f = &k->flag[e->a - 1];
    uint32_t pattern = f->pattern | (uint32_t)e->b;
    uint32_t looked = 0;
    uint32_t released = 0;
    for (struct queue *node = f->waiters.next, *next; node != &f->waiters; node = next) {
        struct task *t = (struct task *)node;
        next = node->next;
        looked++;
        if (!meets(pattern, t->wish, t->mode))
            continue;
        unlink_node(node);
        release(k, t, OK, pattern);
        released++;
        if (t->mode & CLEARS) {
            pattern = 0;
            break;
        }
    }
    f->pattern = pattern;
    if (released != 0)
        dispatch(k);
    r->w1 = looked;
    r->released = released;
    return OK;
}

int32_t clr_flg(struct peer *k, int32_t me, const struct peer_event *e, struct peer_answer *r)
{
    (void)r;
    if (!within(e->a, k->flags))
        return E_NOEXS;
    if (me == NOBODY)
        return E_CTX;
    k->flag[e->a - 1].pattern &= (uint32_t)e->b;
    return OK;
}

/* The words of a wait or poll: which flag, a wish and a mode. */
static int32_t judge_wish(const struct peer *k, const struct peer_event *e)
{
    if (!within(e->a, k->flags))
        return E_NOEXS;
    if (e->b == 0 || (uint32_t)e->c > MODE_MOST)
        return H_PAR;
    return OK;
}

/* Whether the pattern meets the wish. If so it is answered, and cleared where that is asked. */
static bool take_pattern(struct flag *f, const struct peer_event *e, struct peer_answer *r)
{
    if (!meets(f->pattern, (uint32_t)e->b, (uint32_t)e->c))
        return false;
    r->w1 = f->pattern;
    if (e->c & CLEARS)
        f->pattern = 0;
    return true;
}

int32_t wai_flg(struct peer *k, int32_t me, const struct peer_event *e, struct peer_answer *r)
{
    int32_t refused = judge_wish(k, e);
    if (refused)
        return refused;
    if (me <= HANDLER)
        return E_CTX;
    struct flag *f = &k->flag[e->a - 1];
    if (take_pattern(f, e, r))
        return OK;
    struct task *t = &k->task[me];
    t->wish = (uint32_t)e->b;
    t->mode = (uint32_t)e->c;
    return wait_on(k, t, FLAG, e->a, &f->waiters);
}

int32_t pol_flg(struct peer *k, int32_t me, const struct peer_event *e, struct peer_answer *r)
{
    int32_t refused = judge_wish(k, e);
    if (refused)
        return refused;
    if (me == NOBODY)
        return E_CTX;
    return take_pattern(&k->flag[e->a - 1], e, r) ? OK : H_POLL;
}

int32_t flg_sts(struct peer *k, int32_t me, const struct peer_event *e, struct peer_answer *r)
{
    if (!within(e->a, k->flags))
        return E_NOEXS;
    if (me == NOBODY)
        return E_CTX;
    const struct flag *f = &k->flag[e->a - 1];
    r->w1 = first_id(k, &f->waiters);
    r->w2 = f->pattern;
    return OK;
}

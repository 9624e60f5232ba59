/* Calls on memory pools: the block that is free the longest is granted first. */
#include "calls.h"

/* A block into w1, if one is free. */
static bool take_block(struct pool *p, struct peer_answer *r)
{
    if (p->count == 0)
        return false;
    uint32_t block = p->line[p->head];
    p->head = (p->head + 1) % BLOCKS_MOST;
    p->count--;
    p->free &= ~(1u << block);
    r->w1 = block + 1;
    return true;
}

static void put_block(struct pool *p, uint32_t block)
{
    p->line[(p->head + p->count) % BLOCKS_MOST] = (uint8_t)block;
    p->count++;
    p->free |= 1u << block;
}

int32_t get_blk(struct peer *k, int32_t me, const struct peer_event *e, struct peer_answer *r)
{
    if (!within(e->a, k->pools))
        return E_NOEXS;
    if (me <= HANDLER)
        return E_CTX;
    struct pool *p = &k->pool[e->a - 1];
    if (take_block(p, r))
        return OK;
    return wait_on(k, &k->task[me], POOL, e->a, &p->waiters);
}

int32_t pget_blk(struct peer *k, int32_t me, const struct peer_event *e, struct peer_answer *r)
{
    if (!within(e->a, k->pools))
        return E_NOEXS;
    if (me == NOBODY)
        return E_CTX;
    return take_block(&k->pool[e->a - 1], r) ? OK : H_POLL;
}

int32_t rel_blk(struct peer *k, int32_t me, const struct peer_event *e, struct peer_answer *r)
{
    if (!within(e->a, k->pools))
        return E_NOEXS;
    if (me == NOBODY)
        return E_CTX;
    struct pool *p = &k->pool[e->a - 1];
    uint32_t block = (uint32_t)e->b - 1;
    if (block >= p->blocks || p->free >> block & 1)
        return H_ILBLK;
    if (!is_empty(&p->waiters))
        return serve(k, &p->waiters, block + 1, r);
    put_block(p, block);
    return OK;
}

int32_t mpl_sts(struct peer *k, int32_t me, const struct peer_event *e, struct peer_answer *r)
{
    if (!within(e->a, k->pools))
        return E_NOEXS;
    if (me == NOBODY)
        return E_CTX;
    const struct pool *p = &k->pool[e->a - 1];
    r->w1 = first_id(k, &p->waiters);
    r->w2 = p->count;
    return OK;
}

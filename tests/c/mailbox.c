/* Calls on mailboxes: a mailbox's messages are linked one behind the other, from the first to the last. */
#include "calls.h"

static void lay_in(struct peer *k, struct mailbox *m, const struct peer_event *e)
{
    uint32_t j = (uint32_t)e->b;
    if (m->first == 0)
        m->first = j;
    else
        k->next[m->last] = (uint16_t)j;
    m->last = j;
    k->next[j] = 0;
    k->lies_in[j] = (uint8_t)e->a;
}

/* The first message into w1, if there is one. */
static bool take_message(struct peer *k, struct mailbox *m, struct peer_answer *r)
{
    uint32_t j = m->first;
    if (j == 0)
        return false;
    m->first = k->next[j];
    k->lies_in[j] = 0;
    r->w1 = j;
    return true;
}

int32_t snd_msg(struct peer *k, int32_t me, const struct peer_event *e, struct peer_answer *r)
{
    if (!within(e->a, k->mailboxes))
        return E_NOEXS;
    if (!within(e->b, k->messages))
        return H_PAR;
    if (me == NOBODY)
        return E_CTX;
    if (k->lies_in[e->b] != 0)
        return H_MSG;
    struct mailbox *m = &k->mailbox[e->a - 1];
    if (!is_empty(&m->waiters))
        return serve(k, &m->waiters, (uint32_t)e->b, r);
    lay_in(k, m, e);
    return OK;
}

int32_t rcv_msg(struct peer *k, int32_t me, const struct peer_event *e, struct peer_answer *r)
{
    if (!within(e->a, k->mailboxes))
        return E_NOEXS;
    if (me <= HANDLER)
        return E_CTX;
    struct mailbox *m = &k->mailbox[e->a - 1];
    if (take_message(k, m, r))
        return OK;
    return wait_on(k, &k->task[me], MAILBOX, e->a, &m->waiters);
}

int32_t prcv_msg(struct peer *k, int32_t me, const struct peer_event *e, struct peer_answer *r)
{
    if (!within(e->a, k->mailboxes))
        return E_NOEXS;
    if (me == NOBODY)
        return E_CTX;
    return take_message(k, &k->mailbox[e->a - 1], r) ? OK : H_POLL;
}

int32_t mbx_sts(struct peer *k, int32_t me, const struct peer_event *e, struct peer_answer *r)
{
    if (!within(e->a, k->mailboxes))
        return E_NOEXS;
    if (me == NOBODY)
        return E_CTX;
    const struct mailbox *m = &k->mailbox[e->a - 1];
    r->w1 = first_id(k, &m->waiters);
    r->w2 = m->first;
    return OK;
}

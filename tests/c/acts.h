/* What calls are made of: queues, the ready queues, the end and the start of a wait. */
#ifndef ACTS_H
#define ACTS_H

#include "peer.h"
#include <stdbool.h>

enum {
    OK = 0,
    WAITS = 1,
    H_CALL = -1,
    H_PAR = -2,
    H_NODMT = -3,
    H_SUS = -4,
    H_POLL = -5,
    H_MSG = -6,
    H_NEST = -7,
    H_EXIST = -8,
    H_ILBLK = -10,
    H_USED = -11,
    H_IDLE = -12,
    H_NUMBER = -20,
    H_QUEUE = -21,
    H_SERVED = -22,
    H_TWICE = -23,
    H_FREE = -24,
    E_TPRI = -1830,
    E_ILTIME = -1831,
    E_SELF = -2097,
    E_NOEXS = -2100,
    E_DMT = -2101,
    E_NOSUS = -2104,
    E_NOWAI = -2110,
    E_CTX = -2629,
    E_QOVR = -2889,
    E_TMOUT = -3413,
    E_RLWAI = -3414
};

/* As tsk_sts tells them; RUN isn't kept, and ABSENT isn't told. */
enum { DORMANT = 0, READY = 1, RUN = 2, WAIT = 3, SUSPEND = 4, WAIT_SUSPEND = 5, ABSENT = 6 };

/* What a task waits for. From SEMAPHORE on it stands in the object's queue. */
enum { SLEEP, TIMED, SEMAPHORE, FLAG, MAILBOX, POOL };

enum { ANY_BIT = 1, CLEARS = 2, MODE_MOST = 3, DEPTH_MOST = 15, WAKEUPS_MOST = 15, SEMAPHORE_MOST = 65535, ROUND_MOST = 65535 };

/* Who calls: the running task by its id, or one of these. */
enum { NOBODY = -1, HANDLER = 0 };

#define CLOCK_MOST ((UINT64_C(1) << 48) - 1)
#define IDLE_BIT (1u << PRIORITIES_MOST)

static inline bool within(int32_t a, uint32_t most)
{
    return (uint32_t)a - 1 < most;
}

static inline uint32_t bit_of(uint32_t id)
{
    return 1u << (id - 1);
}

static inline uint32_t lowest(uint32_t bits)
{
    return (uint32_t)__builtin_ctz(bits);
}

/* ---- queues */

static inline bool is_empty(const struct queue *q)
{
    return q->next == q;
}

static inline void push(struct queue *q, struct queue *node)
{
    struct queue *last = q->prev;
    node->next = q;
    node->prev = last;
    last->next = node;
    q->prev = node;
}

static inline void unlink_node(const struct queue *node)
{
    node->prev->next = node->next;
    node->next->prev = node->prev;
}

static inline struct task *first(const struct queue *q)
{
    return (struct task *)q->next;
}

static inline uint32_t id_of(const struct peer *k, const struct task *t)
{
    return (uint32_t)(t - k->task);
}

/* 0 if nobody stands there. */
static inline uint32_t first_id(const struct peer *k, const struct queue *q)
{
    return is_empty(q) ? 0 : id_of(k, first(q));
}

/* ---- who runs */

static inline struct queue *best_queue(struct peer *k)
{
    return &k->ready_queue[lowest(k->ready)];
}

/* No task is switched while a handler is open. */
static inline void dispatch(struct peer *k)
{
    if (k->depth == 0)
        k->running = id_of(k, first(best_queue(k)));
}

static inline void enter_ready(struct peer *k, struct task *t)
{
    push(&k->ready_queue[t->priority - 1], &t->node);
    k->ready |= bit_of(t->priority);
}

/* Who has the anchor on both sides is alone. */
static inline void leave_ready(struct peer *k, const struct task *t)
{
    if (t->node.next == t->node.prev)
        k->ready &= ~bit_of(t->priority);
    unlink_node(&t->node);
}

static inline void make_ready(struct peer *k, struct task *t)
{
    t->status = READY;
    enter_ready(k, t);
}

/* ---- waits */

static inline bool is_waiting(const struct task *t)
{
    return t->status == WAIT || t->status == WAIT_SUSPEND;
}

/* A sleeper has no bit among the timed. */
static inline void leave_wait(struct peer *k, const struct task *t)
{
    if (t->kind >= SEMAPHORE)
        unlink_node(&t->node);
    else
        k->timed &= ~bit_of(id_of(k, t));
}

/* The end of a wait, once its task has left it. */
static inline void release(struct peer *k, struct task *t, int32_t code, uint32_t word)
{
    t->code = code;
    t->word = word;
    if (t->status == WAIT)
        make_ready(k, t);
    else
        t->status = SUSPEND;
}

/* The first in line gets what came. */
static inline int32_t serve(struct peer *k, struct queue *waiters, uint32_t word, struct peer_answer *r)
{
    struct task *t = first(waiters);
    unlink_node(&t->node);
    release(k, t, OK, word);
    dispatch(k);
    r->released = 1;
    return OK;
}

/* The caller waits in an object's queue. */
static inline int32_t wait_on(struct peer *k, struct task *t, uint32_t kind, int32_t object, struct queue *waiters)
{
    leave_ready(k, t);
    t->status = WAIT;
    t->kind = kind;
    t->object = (uint32_t)object;
    push(waiters, &t->node);
    dispatch(k);
    return WAITS;
}

#endif

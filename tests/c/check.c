/* Whether a state keeps every rule of "A sound state", for a state that may be damaged.

   A walk of a ring goes on only to a task whose backward link is the step just made, so it comes to no task twice, and no task stands in
   two rings. Each task met belongs there by its own words; so if as many were met as belong to some queue, each stands where it should. */
#include "rules.h"

/* Nearly every state is sound; the compiler would take what stands behind many tests for rare. */
#define likely(holds) __builtin_expect((holds), true)

/* ---- tasks */

/* What the tasks say of themselves: who waits for a time, and how many stand in queues. */
struct census {
    uint32_t timed;
    uint32_t queued;
};

/* What is due later than the next look, and within the longest time. */
static inline bool is_due_sound(const struct peer *k, const struct task *t)
{
    uint32_t now = (uint32_t)k->clock;
    uint32_t left = t->due - now;
    return left - 1 < INT32_MAX && k->soonest - now - 1 < left;
}

/* That a waiter's object is there is seen where its queue is walked. */
static inline bool is_wait_sound(const struct peer *k, const struct task *t, uint32_t bit, struct census *all)
{
    switch (t->kind) {
    case SLEEP:
        return t->wakeups == 0;
    case TIMED:
        all->timed |= bit;
        return t->wakeups == 0 && is_due_sound(k, t);
    default:
        all->queued++;
        return true;
    }
}

static inline bool is_task_sound(const struct peer *k, const struct task *t, uint32_t bit, struct census *all)
{
    if (t->status == ABSENT)
        return is_nothing(t);
    if (!are_numbers_sound(k, t))
        return false;
    switch (t->status) {
    case DORMANT:
        return t->wakeups == 0 && t->priority == t->start;
    case READY:
        all->queued++;
        return true;
    case SUSPEND:
        return true;
    case WAIT:
    case WAIT_SUSPEND:
        return is_wait_sound(k, t, bit, all);
    default:
        return false;
    }
}

static inline bool tasks_are_sound(const struct peer *k, struct census *all)
{
    for (uint32_t i = 0; i < k->tasks; i++)
        if (!likely(is_task_sound(k, &k->task[i + 1], 1u << i, all)))
            return false;
    return k->timed == all->timed;
}

/* ---- queues of tasks */

/* The task behind a node of a ring; NULL if the link leads elsewhere, or isn't linked back. */
static inline const struct task *onward(const struct peer *k, const struct queue *node)
{
    uintptr_t offset = (uintptr_t)node->next - (uintptr_t)&k->task[1];
    if (offset % sizeof(struct task) != 0 || offset / sizeof(struct task) >= k->tasks || node->next->prev != node)
        return NULL;
    return (const struct task *)node->next;
}

/* Whether a task belongs to a queue, which two numbers say. */
typedef bool belongs(const struct task *t, uint32_t first, uint32_t second);

/* Walks a ring of tasks that belong there and counts them. Inlined, so that `to` costs no call. */
__attribute__((always_inline)) static inline bool walk(const struct peer *k, const struct queue *q, belongs *to, uint32_t first,
                                                       uint32_t second, uint32_t *met)
{
    const struct queue *node = q;
    while (node->next != q) {
        const struct task *t = onward(k, node);
        if (!likely(t != NULL && to(t, first, second)))
            return false;
        ++*met;
        node = &t->node;
    }
    return q->prev == node;
}

static inline bool is_ready(const struct task *t, uint32_t status, uint32_t priority)
{
    return t->status == status && t->priority == priority;
}

static inline bool is_waiter(const struct task *t, uint32_t kind, uint32_t object)
{
    return is_waiting(t) && t->kind == kind && t->object == object;
}

static inline bool is_flag_waiter(const struct task *t, uint32_t flag, uint32_t pattern)
{
    return is_waiter(t, FLAG, flag) && t->wish != 0 && t->mode <= MODE_MOST && !meets(pattern, t->wish, t->mode);
}

/* Where the object has what would serve a waiter, there is none. */
static inline bool are_waiters_sound(const struct peer *k, const struct queue *q, bool served, uint32_t kind, uint32_t object,
                                     uint32_t *met)
{
    return served ? q->next == q && q->prev == q : walk(k, q, is_waiter, kind, object, met);
}

/* The queue of the idle task has it alone. */
static inline bool is_idle_sound(const struct peer *k)
{
    const struct queue *q = &k->ready_queue[PRIORITIES_MOST];
    const struct queue *idle = &k->task[0].node;
    return q->next == idle && q->prev == idle && idle->next == q && idle->prev == q;
}

static inline bool ready_queues_are_sound(const struct peer *k, uint32_t *met)
{
    uint32_t ready = IDLE_BIT;
    for (uint32_t p = 1; p <= k->priorities; p++) {
        const struct queue *q = &k->ready_queue[p - 1];
        if (!likely(walk(k, q, is_ready, READY, p, met)))
            return false;
        if (!is_empty(q))
            ready |= bit_of(p);
    }
    return k->ready == ready && is_idle_sound(k);
}

static inline bool semaphores_are_sound(const struct peer *k, uint32_t *met)
{
    for (uint32_t i = 0; i < k->semaphores; i++) {
        const struct semaphore *s = &k->semaphore[i];
        if (!likely(s->count <= SEMAPHORE_MOST && are_waiters_sound(k, &s->waiters, s->count != 0, SEMAPHORE, i + 1, met)))
            return false;
    }
    return true;
}

static inline bool flags_are_sound(const struct peer *k, uint32_t *met)
{
    for (uint32_t i = 0; i < k->flags; i++)
        if (!likely(walk(k, &k->flag[i].waiters, is_flag_waiter, i + 1, k->flag[i].pattern, met)))
            return false;
    return true;
}

/* ---- messages */

/* Each message of the mailbox is marked as its own. A list that comes back to itself has more than there are messages. */
static inline bool is_mail_sound(const struct peer *k, const struct mailbox *m, uint32_t id, uint32_t *lying)
{
    uint32_t last = m->last;
    for (uint32_t j = m->first; j != 0; j = k->next[j]) {
        if (!likely(j <= k->messages && k->lies_in[j] == id && *lying < k->messages))
            return false;
        ++*lying;
        last = j;
    }
    return m->last == last;
}

static inline uint32_t marked(const struct peer *k)
{
    uint32_t many = 0;
    for (uint32_t j = 1; j <= k->messages; j++)
        many += k->lies_in[j] != 0;
    return many;
}

static inline bool mailboxes_are_sound(const struct peer *k, uint32_t *met)
{
    uint32_t lying = 0;
    for (uint32_t i = 0; i < k->mailboxes; i++) {
        const struct mailbox *m = &k->mailbox[i];
        if (!likely(is_mail_sound(k, m, i + 1, &lying) && are_waiters_sound(k, &m->waiters, m->first != 0, MAILBOX, i + 1, met)))
            return false;
    }
    return lying == marked(k);
}

/* ---- blocks */

/* Each free block once and no other. */
static inline bool is_line_sound(const struct pool *p)
{
    uint32_t all = 0;
    uint32_t listed = 0;
    uint32_t twice = 0;
    uint32_t at = p->head;
    for (uint32_t left = p->count; left != 0; left--) {
        uint32_t block = p->line[at];
        uint32_t bit = 1u << block % BLOCKS_MOST;
        all |= block;
        twice |= listed & bit;
        listed |= bit;
        at = (at + 1) % BLOCKS_MOST;
    }
    return all < BLOCKS_MOST && twice == 0 && listed == p->free;
}

static inline bool pools_are_sound(const struct peer *k, uint32_t *met)
{
    for (uint32_t i = 0; i < k->pools; i++) {
        const struct pool *p = &k->pool[i];
        bool numbers = p->blocks - 1 < BLOCKS_MOST && p->head < BLOCKS_MOST && p->count <= p->blocks;
        bool blocks = numbers && p->free <= UINT32_MAX >> (BLOCKS_MOST - p->blocks) && is_line_sound(p);
        if (!likely(blocks && are_waiters_sound(k, &p->waiters, p->free != 0, POOL, i + 1, met)))
            return false;
    }
    return true;
}

/* ---- alarms, and who runs */

/* No alarm in use fires before the next look. */
static inline bool is_alarm_set_sound(const struct peer *k, const struct alarm *alarm)
{
    return is_due_in_range(k, alarm) && k->until - 1 < distance(k, alarm->expiry);
}

/* Without a counter nothing of the alarms counts. */
static inline bool alarms_are_sound(const struct peer *k)
{
    if (k->round == 0)
        return true;
    if (!is_counter_sound(k))
        return false;
    for (uint32_t i = 0; i < ALARMS; i++) {
        const struct alarm *alarm = &k->alarm[i];
        bool due = !(k->used >> i & 1) || is_alarm_set_sound(k, alarm);
        if (!likely(due && is_alarm_sound(k, alarm)))
            return false;
    }
    return true;
}

static inline bool is_running_sound(const struct peer *k)
{
    if (k->depth == 0)
        return k->running == id_of(k, first(&k->ready_queue[lowest(k->ready)]));
    return is_interrupted_sound(k);
}

bool is_sound(const struct peer *k)
{
    struct census all = {0};
    uint32_t met = 0;
    return likely(counts_are_sound(k)) && likely(alarms_are_sound(k)) && likely(tasks_are_sound(k, &all)) &&
           likely(ready_queues_are_sound(k, &met)) && likely(semaphores_are_sound(k, &met)) && likely(flags_are_sound(k, &met)) &&
           likely(mailboxes_are_sound(k, &met)) && likely(pools_are_sound(k, &met)) && met == all.queued && is_running_sound(k);
}

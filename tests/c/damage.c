/* What is told of a state that the check has found damaged: the first rule broken and the smallest id that breaks it. Plain rather than
   fast: nothing of this is on the way of a sound state. */
#include "rules.h"

/* ---- numbers */

static bool are_alarms_in_range(const struct peer *k)
{
    if (k->round == 0)
        return true;
    if (!is_counter_sound(k))
        return false;
    for (uint32_t i = 0; i < ALARMS; i++)
        if (!is_alarm_sound(k, &k->alarm[i]) || ((k->used >> i & 1) && !is_due_in_range(k, &k->alarm[i])))
            return false;
    return true;
}

static bool is_wait_in_range(const struct peer *k, const struct task *t)
{
    uint32_t object = t->object - 1;
    switch (t->kind) {
    case SLEEP:
        return t->wakeups == 0;
    case TIMED:
        return t->wakeups == 0 && t->due - (uint32_t)k->clock - 1 < INT32_MAX;
    case SEMAPHORE:
        return object < k->semaphores;
    case FLAG:
        return object < k->flags && t->wish != 0 && t->mode <= MODE_MOST;
    case MAILBOX:
        return object < k->mailboxes;
    case POOL:
        return object < k->pools;
    default:
        return false;
    }
}

static bool is_task_in_range(const struct peer *k, const struct task *t)
{
    if (t->status == ABSENT)
        return is_nothing(t);
    if (t->status > ABSENT || t->status == RUN || !are_numbers_sound(k, t))
        return false;
    if (t->status == DORMANT)
        return t->wakeups == 0 && t->priority == t->start;
    return !is_waiting(t) || is_wait_in_range(k, t);
}

static bool are_objects_in_range(const struct peer *k)
{
    for (uint32_t i = 0; i < k->semaphores; i++)
        if (k->semaphore[i].count > SEMAPHORE_MOST)
            return false;
    for (uint32_t j = 1; j <= k->messages; j++)
        if (k->lies_in[j] > k->mailboxes)
            return false;
    for (uint32_t i = 0; i < k->pools; i++) {
        const struct pool *p = &k->pool[i];
        bool numbers = p->blocks - 1 < BLOCKS_MOST && p->head < BLOCKS_MOST && p->count <= BLOCKS_MOST;
        if (!numbers || p->free > UINT32_MAX >> (BLOCKS_MOST - p->blocks))
            return false;
    }
    return true;
}

static bool are_all_in_range(const struct peer *k)
{
    if (!counts_are_sound(k) || !are_alarms_in_range(k) || !are_objects_in_range(k))
        return false;
    for (uint32_t i = 1; i <= k->tasks; i++)
        if (!is_task_in_range(k, &k->task[i]))
            return false;
    return k->depth == 0 || is_interrupted_sound(k);
}

/* ---- queues of tasks, once the numbers are sound */

/* The task that a link leads to, by id; 0 if it leads to none. */
static uint32_t linked(const struct peer *k, const struct queue *node)
{
    for (uint32_t i = 1; i <= k->tasks; i++)
        if (node == &k->task[i].node)
            return i;
    return 0;
}

/* The queue in which a task stands by its own words; NULL if in none. */
static const struct queue *home(const struct peer *k, const struct task *t)
{
    if (t->status == READY)
        return &k->ready_queue[t->priority - 1];
    if (!is_waiting(t))
        return NULL;
    switch (t->kind) {
    case SEMAPHORE:
        return &k->semaphore[t->object - 1].waiters;
    case FLAG:
        return &k->flag[t->object - 1].waiters;
    case MAILBOX:
        return &k->mailbox[t->object - 1].waiters;
    case POOL:
        return &k->pool[t->object - 1].waiters;
    default:
        return NULL;
    }
}

/* The tasks, by bit, that a queue lists wrongly or not at all are added. False if it lists what is no task. */
static bool look_through(const struct peer *k, const struct queue *q, uint32_t *misplaced)
{
    uint32_t times[TASKS_MOST + 1] = {0};
    const struct queue *node = q->next;
    for (uint32_t n = 0; n <= k->tasks && node != q; n++) {
        uint32_t id = linked(k, node);
        if (id == 0)
            return false;
        times[id]++;
        node = node->next;
    }
    for (uint32_t i = 1; i <= k->tasks; i++)
        if (times[i] != (home(k, &k->task[i]) == q))
            *misplaced |= bit_of(i);
    return true;
}

static bool look_through_all(const struct peer *k, uint32_t *misplaced)
{
    bool sound = true;
    for (uint32_t i = 0; i < k->priorities; i++)
        sound &= look_through(k, &k->ready_queue[i], misplaced);
    for (uint32_t i = 0; i < k->semaphores; i++)
        sound &= look_through(k, &k->semaphore[i].waiters, misplaced);
    for (uint32_t i = 0; i < k->flags; i++)
        sound &= look_through(k, &k->flag[i].waiters, misplaced);
    for (uint32_t i = 0; i < k->mailboxes; i++)
        sound &= look_through(k, &k->mailbox[i].waiters, misplaced);
    for (uint32_t i = 0; i < k->pools; i++)
        sound &= look_through(k, &k->pool[i].waiters, misplaced);
    return sound;
}

/* Whether a waiter's object has what would serve it. */
static bool is_overlooked(const struct peer *k, const struct task *t)
{
    if (!is_waiting(t))
        return false;
    switch (t->kind) {
    case SEMAPHORE:
        return k->semaphore[t->object - 1].count != 0;
    case FLAG:
        return meets(k->flag[t->object - 1].pattern, t->wish, t->mode);
    case MAILBOX:
        return k->mailbox[t->object - 1].first != 0;
    case POOL:
        return k->pool[t->object - 1].free != 0;
    default:
        return false;
    }
}

static uint32_t overlooked(const struct peer *k)
{
    uint32_t all = 0;
    for (uint32_t i = 1; i <= k->tasks; i++)
        if (is_overlooked(k, &k->task[i]))
            all |= bit_of(i);
    return all;
}

/* ---- messages and blocks */

/* The smallest message that is held twice, or 0. False if a mailbox lists what is no message. */
static bool look_at_mail(const struct peer *k, uint32_t *twice)
{
    uint32_t times[MESSAGES_MOST + 1] = {0};
    for (uint32_t i = 0; i < k->mailboxes; i++) {
        uint32_t j = k->mailbox[i].first;
        for (uint32_t n = 0; n <= k->messages && j != 0; n++) {
            if (j > k->messages)
                return false;
            times[j]++;
            j = k->next[j];
        }
    }
    for (uint32_t j = k->messages; j >= 1; j--)
        if (times[j] > 1)
            *twice = j;
    return true;
}

/* The pools, by bit, that don't list each free block once and no other are added. False if one lists what is no block of it. */
static bool look_at_blocks(const struct peer *k, uint32_t *mislisted)
{
    for (uint32_t i = 0; i < k->pools; i++) {
        const struct pool *p = &k->pool[i];
        uint32_t listed = 0;
        for (uint32_t n = 0; n < p->count; n++) {
            uint32_t block = p->line[(p->head + n) % BLOCKS_MOST];
            if (block >= p->blocks)
                return false;
            if (listed >> block & 1)
                *mislisted |= 1u << i;
            listed |= 1u << block;
        }
        if (listed != p->free)
            *mislisted |= 1u << i;
    }
    return true;
}

/* ---- the first rule */

static int32_t told(int32_t code, uint32_t bits, uint32_t *id)
{
    *id = lowest(bits) + 1;
    return code;
}

int32_t breach(const struct peer *k, uint32_t *id)
{
    uint32_t misplaced = 0;
    uint32_t twice = 0;
    uint32_t mislisted = 0;
    *id = 0;
    if (!are_all_in_range(k) || !look_through_all(k, &misplaced) || !look_at_mail(k, &twice) || !look_at_blocks(k, &mislisted))
        return H_NUMBER;
    if (misplaced != 0)
        return told(H_QUEUE, misplaced, id);
    if (overlooked(k) != 0)
        return told(H_SERVED, overlooked(k), id);
    if (twice != 0) {
        *id = twice;
        return H_TWICE;
    }
    if (mislisted != 0)
        return told(H_FREE, mislisted, id);
    return H_NUMBER;
}

/* A setup's bytes read, its first fault found, and the fresh state laid out. */
#include "acts.h"
#include <string.h>

enum { S1 = 1, S2, S3, S4, BYTES_OF_WORD = 4 };

struct setup {
    uint32_t priorities;
    uint32_t tasks;
    uint32_t start[TASKS_MOST];
    uint32_t started[TASKS_MOST];
    uint32_t semaphores;
    uint32_t count[OBJECTS_MOST];
    uint32_t flags;
    uint32_t pattern[OBJECTS_MOST];
    uint32_t mailboxes;
    uint32_t messages;
    uint32_t pools;
    uint32_t blocks[POOLS_MOST];
    uint32_t counters;
    uint32_t round;
    uint32_t alarm_task[ALARMS];
    uint32_t alarm_wakes[ALARMS];
};

/* Once there is a fault it stays, and every word is its lowest. */
struct reader {
    const uint8_t *bytes;
    size_t length;
    size_t place;
    struct peer_fault found;
};

static uint32_t refuse(struct reader *in, uint32_t fault, uint32_t lowest_word)
{
    in->found = (struct peer_fault){fault, in->place};
    return lowest_word;
}

static uint32_t word(struct reader *in, uint32_t low, uint32_t high, uint32_t fault)
{
    if (in->found.fault != 0)
        return low;
    if (in->length - in->place < BYTES_OF_WORD)
        return refuse(in, S1, low);
    const uint8_t *b = in->bytes + in->place;
    uint32_t read = (uint32_t)b[0] | (uint32_t)b[1] << 8 | (uint32_t)b[2] << 16 | (uint32_t)b[3] << 24;
    if (read < low || read > high)
        return refuse(in, fault, low);
    in->place += BYTES_OF_WORD;
    return read;
}

static void entries(struct reader *in, uint32_t many, uint32_t *to, uint32_t low, uint32_t high)
{
    for (uint32_t i = 0; i < many; i++)
        to[i] = word(in, low, high, S3);
}

static void read_counter(struct reader *in, struct setup *s)
{
    s->counters = word(in, 0, 1, S2);
    if (s->counters == 0)
        return;
    s->round = word(in, 1, ROUND_MOST, S3);
    for (uint32_t i = 0; i < ALARMS; i++) {
        s->alarm_task[i] = word(in, 1, s->tasks, S3);
        s->alarm_wakes[i] = word(in, 0, 1, S3);
    }
}

static void read_setup(struct reader *in, struct setup *s)
{
    s->priorities = word(in, 1, PRIORITIES_MOST, S2);
    s->tasks = word(in, 1, TASKS_MOST, S2);
    for (uint32_t i = 0; i < s->tasks; i++) {
        s->start[i] = word(in, 1, s->priorities, S3);
        s->started[i] = word(in, 0, 1, S3);
    }
    s->semaphores = word(in, 0, OBJECTS_MOST, S2);
    entries(in, s->semaphores, s->count, 0, SEMAPHORE_MOST);
    s->flags = word(in, 0, OBJECTS_MOST, S2);
    entries(in, s->flags, s->pattern, 0, UINT32_MAX);
    s->mailboxes = word(in, 0, OBJECTS_MOST, S2);
    s->messages = word(in, 0, MESSAGES_MOST, S2);
    s->pools = word(in, 0, POOLS_MOST, S2);
    entries(in, s->pools, s->blocks, 1, BLOCKS_MOST);
    /* a setup alone may end here */
    if (in->place < in->length)
        read_counter(in, s);
    if (in->found.fault == 0 && in->place < in->length)
        refuse(in, S4, 0);
}

/* ---- the fresh state */

static void empty(struct queue *q)
{
    q->next = q;
    q->prev = q;
}

static void lay_tasks(struct peer *k, const struct setup *s)
{
    k->priorities = s->priorities;
    k->tasks = s->tasks;
    for (uint32_t i = 0; i <= PRIORITIES_MOST; i++)
        empty(&k->ready_queue[i]);
    push(&k->ready_queue[PRIORITIES_MOST], &k->task[0].node);
    k->ready = IDLE_BIT;
    for (uint32_t i = 0; i < s->tasks; i++) {
        struct task *t = &k->task[i + 1];
        t->start = s->start[i];
        t->priority = s->start[i];
        if (s->started[i])
            make_ready(k, t);
    }
}

static void lay_objects(struct peer *k, const struct setup *s)
{
    k->semaphores = s->semaphores;
    k->flags = s->flags;
    k->mailboxes = s->mailboxes;
    k->messages = s->messages;
    for (uint32_t i = 0; i < OBJECTS_MOST; i++) {
        empty(&k->semaphore[i].waiters);
        k->semaphore[i].count = s->count[i];
        empty(&k->flag[i].waiters);
        k->flag[i].pattern = s->pattern[i];
        empty(&k->mailbox[i].waiters);
    }
}

static void lay_pools(struct peer *k, const struct setup *s)
{
    k->pools = s->pools;
    for (uint32_t i = 0; i < POOLS_MOST; i++)
        empty(&k->pool[i].waiters);
    for (uint32_t i = 0; i < s->pools; i++) {
        struct pool *p = &k->pool[i];
        p->blocks = s->blocks[i];
        p->count = s->blocks[i];
        p->free = UINT32_MAX >> (BLOCKS_MOST - s->blocks[i]);
        for (uint32_t block = 0; block < s->blocks[i]; block++)
            p->line[block] = (uint8_t)block;
    }
}

static void lay_counter(struct peer *k, const struct setup *s)
{
    k->round = s->round;
    for (uint32_t i = 0; i < ALARMS; i++) {
        k->alarm[i].task = s->alarm_task[i];
        k->alarm[i].wakes = s->alarm_wakes[i];
    }
}

struct peer_fault peer_start(struct peer *k, const uint8_t *bytes, size_t length)
{
    struct reader in = {.bytes = bytes, .length = length};
    struct setup s = {0};
    read_setup(&in, &s);
    if (in.found.fault != 0)
        return in.found;
    memset(k, 0, sizeof *k);
    lay_tasks(k, &s);
    lay_objects(k, &s);
    lay_pools(k, &s);
    lay_counter(k, &s);
    dispatch(k);
    return in.found;
}

/* Rules of a sound state that are about numbers, for the check and for what is told of a damaged state. */
#ifndef RULES_H
#define RULES_H

#include "calls.h"

static inline bool counts_are_sound(const struct peer *k)
{
    return k->priorities - 1 < PRIORITIES_MOST && k->tasks - 1 < TASKS_MOST && k->semaphores <= OBJECTS_MOST && k->flags <= OBJECTS_MOST &&
           k->mailboxes <= OBJECTS_MOST && k->messages <= MESSAGES_MOST && k->pools <= POOLS_MOST && k->clock <= CLOCK_MOST &&
           k->depth <= DEPTH_MOST;
}

static inline bool is_cell_sound(const struct task *t)
{
    return t->code == OK || ((t->code == E_TMOUT || t->code == E_RLWAI) && t->word == 0);
}

/* A task that is not there has nothing. */
static inline bool is_nothing(const struct task *t)
{
    return (t->priority | t->start | t->wakeups | (uint32_t)t->code | t->word) == 0;
}

static inline bool are_numbers_sound(const struct peer *k, const struct task *t)
{
    return t->priority - 1 < k->priorities && t->start - 1 < k->priorities && t->wakeups <= WAKEUPS_MOST && is_cell_sound(t);
}

/* While a handler is open. */
static inline bool is_interrupted_sound(const struct peer *k)
{
    if (k->running > k->tasks)
        return false;
    uint32_t status = k->task[k->running].status;
    return k->running == 0 || status == READY || status == SUSPEND;
}

static inline bool is_counter_sound(const struct peer *k)
{
    return k->round <= ROUND_MOST && k->present < k->round && k->used >> ALARMS == 0;
}

static inline bool is_kept_sound(const struct alarm *alarm)
{
    switch (alarm->kept) {
    case OK:
    case E_NOEXS:
        return true;
    case H_NODMT:
        return !alarm->wakes;
    case E_DMT:
    case E_QOVR:
        return alarm->wakes;
    default:
        return false;
    }
}

static inline bool is_alarm_sound(const struct peer *k, const struct alarm *alarm)
{
    return alarm->task - 1 < k->tasks && alarm->wakes <= 1 && is_kept_sound(alarm);
}

static inline bool is_due_in_range(const struct peer *k, const struct alarm *alarm)
{
    return alarm->expiry < k->round && alarm->period <= k->round;
}

#endif

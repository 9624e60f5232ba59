/* The clock, timed waits, the counter and its alarms. A tick looks at waits and alarms only when one of them may be due. */
#include "calls.h"

/* Kept out of the tick, which then saves fewer registers. */
#define RARE __attribute__((noinline))

int32_t get_tim(struct peer *k, int32_t me, const struct peer_event *e, struct peer_answer *r)
{
    (void)e;
    if (me == NOBODY)
        return E_CTX;
    r->w1 = (uint32_t)(k->clock >> 32);
    r->w2 = (uint32_t)k->clock;
    return OK;
}

/* ---- alarms */

static bool is_alarm(const struct peer *k, int32_t a)
{
    return k->round != 0 && within(a, ALARMS);
}

/* In use, with so many counts to go. */
static void arm(struct peer *k, uint32_t alarm, uint32_t expiry)
{
    uint32_t left = distance(k, expiry);
    if (k->used == 0 || left < k->until)
        k->until = left;
    k->used |= 1u << alarm;
    k->alarm[alarm].expiry = expiry;
}

/* So many counts behind another one, by remainder; both are at most the counter's size. */
static uint32_t behind(const struct peer *k, uint32_t from, uint32_t count)
{
    uint32_t sum = from + count;
    return sum < k->round ? sum : sum - k->round;
}

static int32_t set_alarm(struct peer *k, int32_t me, const struct peer_event *e, uint32_t from)
{
    if (!is_alarm(k, e->a) || (uint32_t)e->b > k->round || (uint32_t)e->c > k->round)
        return H_PAR;
    if (me == NOBODY)
        return E_CTX;
    uint32_t alarm = (uint32_t)e->a - 1;
    if (k->used >> alarm & 1)
        return H_USED;
    k->alarm[alarm].period = (uint32_t)e->c;
    arm(k, alarm, behind(k, from, (uint32_t)e->b));
    return OK;
}

int32_t set_abs(struct peer *k, int32_t me, const struct peer_event *e, struct peer_answer *r)
{
    (void)r;
    return set_alarm(k, me, e, 0);
}

int32_t set_rel(struct peer *k, int32_t me, const struct peer_event *e, struct peer_answer *r)
{
    (void)r;
    return set_alarm(k, me, e, k->present);
}

int32_t can_alm(struct peer *k, int32_t me, const struct peer_event *e, struct peer_answer *r)
{
    (void)r;
    if (!is_alarm(k, e->a))
        return H_PAR;
    if (me == NOBODY)
        return E_CTX;
    uint32_t bit = bit_of((uint32_t)e->a);
    if ((k->used & bit) == 0)
        return H_IDLE;
    k->used &= ~bit;
    return OK;
}

int32_t alm_sts(struct peer *k, int32_t me, const struct peer_event *e, struct peer_answer *r)
{
    if (!is_alarm(k, e->a))
        return H_PAR;
    if (me == NOBODY)
        return E_CTX;
    r->w1 = k->used >> (e->a - 1) & 1;
    r->w2 = (uint32_t)-k->alarm[e->a - 1].kept;
    return OK;
}

static void fire(struct peer *k, struct alarm *alarm, uint32_t *released)
{
    struct task *t = &k->task[alarm->task];
    alarm->kept = alarm->wakes ? wake_task(k, t, released) : start_task(k, t);
}

/* The alarms that are due, by number; those with a period are set again, and the next look is at the first that is left. */
RARE static void look_at_alarms(struct peer *k, uint32_t *released)
{
    uint32_t before = k->used;
    k->used = 0;
    for (uint32_t left = before; left != 0; left &= left - 1) {
        uint32_t i = lowest(left);
        struct alarm *alarm = &k->alarm[i];
        if (alarm->expiry != k->present) {
            arm(k, i, alarm->expiry);
            continue;
        }
        fire(k, alarm, released);
        if (alarm->period != 0)
            arm(k, i, behind(k, k->present, alarm->period));
    }
}

static void count_on(struct peer *k, uint32_t *released)
{
    k->present = k->present + 1 == k->round ? 0 : k->present + 1;
    if (k->used != 0 && --k->until == 0)
        look_at_alarms(k, released);
}

/* ---- the tick */

/* The waits that end now, by id; the next look is when the first of the others ends. */
RARE static void look_at_waits(struct peer *k, uint32_t now, uint32_t *released)
{
    uint32_t soonest = UINT32_MAX;
    for (uint32_t left = k->timed; left != 0; left &= left - 1) {
        uint32_t i = lowest(left);
        struct task *t = &k->task[i + 1];
        uint32_t ticks = t->due - now;
        if (ticks == 0) {
            k->timed &= ~(1u << i);
            release(k, t, E_TMOUT, 0);
            ++*released;
        } else if (ticks < soonest) {
            soonest = ticks;
        }
    }
    k->soonest = now + soonest;
    dispatch(k);
}

int32_t tick(struct peer *k, struct peer_answer *r)
{
    k->clock = (k->clock + 1) & CLOCK_MOST;
    uint32_t now = (uint32_t)k->clock;
    if (k->timed != 0 && now == k->soonest)
        look_at_waits(k, now, &r->released);
    if (k->round != 0)
        count_on(k, &r->released);
    return OK;
}

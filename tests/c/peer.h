/* The kernel of paper 01 with requests K2 to K7, K9 and K11, in C and unproved: what `bench` sets beside the proved one.

   It is written as firmware is: control blocks in arrays, queues as doubly linked rings through them, a word of nonempty ready queues with
   an idle task behind the last, the next tick at which something is due kept, calls behind a table of pointers, nothing allocated. A state
   that `peer_start` made is trusted. `peer_checked_events` looks at every rule of "A sound state" before each event. */
#ifndef PEER_H
#define PEER_H

#include <stddef.h>
#include <stdint.h>

enum {
    PRIORITIES_MOST = 16,
    TASKS_MOST = 32,
    OBJECTS_MOST = 16,
    MESSAGES_MOST = 256,
    POOLS_MOST = 8,
    BLOCKS_MOST = 32,
    ALARMS = 8
};

/* A node of a ring, or its anchor. What a node in no ring holds doesn't count. */
struct queue {
    struct queue *next;
    struct queue *prev;
};

/* 64 bytes. The node comes first, so that a node is its task. */
struct task {
    struct queue node;
    uint32_t status;
    uint32_t priority;
    uint32_t start;
    uint32_t wakeups;
    /* The rest of a wait counts while the task waits. */
    uint32_t kind;
    uint32_t object;
    uint32_t wish;
    uint32_t mode;
    /* The low word of the clock when a timed wait ends. */
    uint32_t due;
    int32_t code;
    uint32_t word;
};

struct semaphore {
    struct queue waiters;
    uint32_t count;
};

struct flag {
    struct queue waiters;
    uint32_t pattern;
};

/* The first and the last message, 0 if there is none; `next` and `lies_in` of the state have the rest. */
struct mailbox {
    struct queue waiters;
    uint32_t first;
    uint32_t last;
};

/* Blocks are bits 0 to 31. The free ones stand in `line`, which goes round: `count` of them from `head` on. */
struct pool {
    struct queue waiters;
    uint32_t blocks;
    uint32_t free;
    uint32_t head;
    uint32_t count;
    uint8_t line[BLOCKS_MOST];
};

struct alarm {
    uint32_t task;
    uint32_t wakes;
    int32_t kept;
    /* These two count while it is in use. */
    uint32_t expiry;
    uint32_t period;
};

struct peer {
    /* 0 if none. While a handler is open, the task at the outermost entry. */
    uint32_t running;
    uint32_t depth;
    /* Bit p - 1 for a nonempty queue of priority p, and always the idle task's behind them. */
    uint32_t ready;
    /* Bit t - 1 for a timed wait of task t, and the low word of the clock before which none of them ends. */
    uint32_t timed;
    uint32_t soonest;
    /* The counter's size, 0 for none; its count; the alarms in use by bit, and how many ticks at least until one of them fires. */
    uint32_t round;
    uint32_t present;
    uint32_t used;
    uint32_t until;
    uint32_t priorities;
    uint32_t tasks;
    uint32_t semaphores;
    uint32_t flags;
    uint32_t mailboxes;
    uint32_t messages;
    uint32_t pools;
    uint64_t clock;
    /* Task 0 idles. */
    struct task task[TASKS_MOST + 1];
    struct queue ready_queue[PRIORITIES_MOST + 1];
    struct semaphore semaphore[OBJECTS_MOST];
    struct flag flag[OBJECTS_MOST];
    struct mailbox mailbox[OBJECTS_MOST];
    struct pool pool[POOLS_MOST];
    struct alarm alarm[ALARMS];
    /* By message, entry 0 unused: the one behind it in its mailbox or 0, and the mailbox or 0. */
    uint16_t next[MESSAGES_MOST + 1];
    uint8_t lies_in[MESSAGES_MOST + 1];
};

/* Kind (0 task, 1 handler, 2 tick, 3 entry, 4 return), call and its words. */
struct peer_event {
    int32_t kind;
    int32_t call;
    int32_t a;
    int32_t b;
    int32_t c;
};

/* All of an answer but the code. */
struct peer_answer {
    uint32_t w1;
    uint32_t w2;
    uint32_t running;
    uint32_t released;
};

/* What refuses a setup, 1 to 4, and where; 0 if nothing does. */
struct peer_fault {
    uint32_t fault;
    size_t place;
};

/* The fresh state of a setup's bytes; a refused setup writes nothing. */
struct peer_fault peer_start(struct peer *k, const uint8_t *bytes, size_t length);

/* The same state in another place. */
void peer_copy(struct peer *to, const struct peer *from);

/* Events one after the other, each with a place for its code and one for its answer. */
void peer_events(struct peer *k, const struct peer_event *events, size_t many, int32_t *codes, struct peer_answer *answers);

/* The same on a state that may be damaged: each event is refused with the first rule broken, w1 the smallest id, if there is one. */
void peer_checked_events(struct peer *k, const struct peer_event *events, size_t many, int32_t *codes, struct peer_answer *answers);

/* A task's cell: gives the code, E_NOEXS for who is not there. */
int32_t peer_cell(const struct peer *k, int32_t task, uint32_t *word);

/* For who mirrors the state. */
size_t peer_size(void);

#endif

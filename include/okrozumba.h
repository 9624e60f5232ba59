/* Okrozumba, a small uITRON kernel: its functions for C and C++.

   `rt lib --cpu x86-64` in crates/okrozumba proves the kernel and writes out/libokrozumba.a there, which defines them for x86-64 Linux. The archive
   asks of the C library no more than memset and memcpy and keeps nothing between calls: all there is of a kernel is the okrozumba_state
   that the caller owns. Each function has a section of its own, so that a linker can leave out those that nobody calls. okrozumba_calls.h has
   the calls by name, over that state.

   No function has to be preceded by a check. Each is defined for every setup, every event and every content of the state, and says by its
   answer what was wrong. All that is asked of a caller is asked of its pointers: none is null, each leads to as many elements as its type
   or the length behind it says, and what a function writes overlaps with nothing else that it is given. */
#ifndef OKROZUMBA_H
#define OKROZUMBA_H

#include <stddef.h>
#include <stdint.h>

#ifdef __cplusplus
extern "C" {
#endif

/* ---- the state */

#define OKROZUMBA_STATE_WORDS 1760
#define OKROZUMBA_MESSAGES 256
#define OKROZUMBA_TASKS 32

/* The kernel's memory, 8064 bytes. Only the functions below give its words a meaning. A copy of it is a second kernel in the same state. */
typedef struct okrozumba_state {
    uint32_t words[OKROZUMBA_STATE_WORDS];
    uint32_t messages[OKROZUMBA_MESSAGES];
} okrozumba_state;

/* ---- events */

/* The context of a call; and the kind of an event, which is a call's context or no call. */
enum {
    OKROZUMBA_TASK = 0,    /* the running task calls */
    OKROZUMBA_HANDLER = 1, /* an interrupt handler calls; one must be open */
    OKROZUMBA_TICK = 2,    /* no call: the clock rises by one */
    OKROZUMBA_ENTRY = 3,   /* no call: a handler is entered */
    OKROZUMBA_RETURN = 4   /* no call: a handler returns */
};

/* The calls, by number. Those marked T are for tasks only; the words that each takes stand behind it. */
enum {
    OKROZUMBA_STA_TSK = 1,   /* task */
    OKROZUMBA_EXT_TSK = 2,   /* T */
    OKROZUMBA_TER_TSK = 3,   /* T, task */
    OKROZUMBA_CHG_PRI = 4,   /* task, priority */
    OKROZUMBA_ROT_RDQ = 5,   /* priority, 0 for the best that has a ready task */
    OKROZUMBA_REL_WAI = 6,   /* task */
    OKROZUMBA_SUS_TSK = 7,   /* task */
    OKROZUMBA_RSM_TSK = 8,   /* task */
    OKROZUMBA_SLP_TSK = 9,   /* T */
    OKROZUMBA_WAI_TSK = 10,  /* T, ticks, or OKROZUMBA_FOR_EVER */
    OKROZUMBA_WUP_TSK = 11,  /* task */
    OKROZUMBA_CAN_WUP = 12,  /* task; w1 the old count */
    OKROZUMBA_SIG_SEM = 13,  /* semaphore */
    OKROZUMBA_WAI_SEM = 14,  /* T, semaphore */
    OKROZUMBA_PREQ_SEM = 15, /* semaphore */
    OKROZUMBA_SET_FLG = 16,  /* flag, pattern; w1 how many waiters were looked at: to the first released with clearing, else all */
    OKROZUMBA_CLR_FLG = 17,  /* flag, pattern */
    OKROZUMBA_WAI_FLG = 18,  /* T, flag, pattern, mode; w1 the pattern before clearing */
    OKROZUMBA_POL_FLG = 19,  /* flag, pattern, mode; w1 the same */
    OKROZUMBA_SND_MSG = 20,  /* mailbox, message */
    OKROZUMBA_RCV_MSG = 21,  /* T, mailbox; w1 the message */
    OKROZUMBA_PRCV_MSG = 22, /* mailbox; w1 the message */
    OKROZUMBA_GET_BLK = 23,  /* T, pool; w1 the block, the one that is free the longest */
    OKROZUMBA_PGET_BLK = 24, /* pool; w1 the same */
    OKROZUMBA_REL_BLK = 25,  /* pool, block */
    OKROZUMBA_GET_TID = 26,  /* w1 the running task */
    OKROZUMBA_TSK_STS = 27,  /* task; w1 its state, w2 its priority */
    OKROZUMBA_SEM_STS = 28,  /* semaphore; w1 the first waiter or 0, w2 the count */
    OKROZUMBA_FLG_STS = 29,  /* flag; w1 the first waiter or 0, w2 the pattern */
    OKROZUMBA_MBX_STS = 30,  /* mailbox; w1 the first waiter or 0, w2 the first message or 0 */
    OKROZUMBA_MPL_STS = 31,  /* pool; w1 the first waiter or 0, w2 the number of free blocks */
    OKROZUMBA_GET_TIM = 32,  /* the clock: w1 its quotient by 2^32, w2 the remainder */
    OKROZUMBA_CRE_TSK = 33,  /* T, task that is not there, starting priority: it is dormant then */
    OKROZUMBA_DEL_TSK = 34,  /* T, dormant task: it is not there then */
    OKROZUMBA_EXD_TSK = 35,  /* T: ext_tsk, and then the task is not there */
    OKROZUMBA_SET_ABS = 36,  /* idle alarm, count at which it fires, 0 for once or the period: both up to the counter's size m */
    OKROZUMBA_SET_REL = 37,  /* idle alarm, ticks until it fires, 0 for once or the period: both up to m; 0 ticks are m */
    OKROZUMBA_CAN_ALM = 38,  /* alarm in use: it is idle then */
    OKROZUMBA_ALM_STS = 39   /* alarm; w1 1 if it is in use, else 0, w2 the code of its last firing without the sign, 0 before any */
};

/* The time of wai_tsk that never ends. */
#define OKROZUMBA_FOR_EVER (-1)

/* The mode of a wait for a flag: 0 asks for all bits of the pattern; add these up. */
enum {
    OKROZUMBA_ANY_BIT = 1,
    OKROZUMBA_CLEAR_ALL = 2 /* on success the flag's pattern becomes 0 */
};

/* The states of a task, as tsk_sts and okrozumba_states give them. */
enum {
    OKROZUMBA_DORMANT = 0,
    OKROZUMBA_READY = 1,
    OKROZUMBA_RUN = 2,
    OKROZUMBA_WAIT = 3,
    OKROZUMBA_SUSPEND = 4,
    OKROZUMBA_WAIT_SUSPEND = 5,
    OKROZUMBA_ABSENT = 6 /* the task is not there, and tsk_sts refuses it */
};

/* ---- codes */

/* An event with a negative code changed nothing. */
enum {
    OKROZUMBA_E_OK = 0,
    OKROZUMBA_WAITS = 1,          /* the caller waits: its answer will be in its cell */
    OKROZUMBA_H_CALL = -1,        /* call number not 1..39, or context not 0 or 1 */
    OKROZUMBA_H_PAR = -2,         /* flag pattern 0 in a wait or poll, mode not 0..3, message number outside 1..count; alarm not 1..8, its
                                     count or period not 0..m, no counter */
    OKROZUMBA_H_NODMT = -3,       /* sta_tsk or del_tsk on a task not dormant */
    OKROZUMBA_H_SUS = -4,         /* sus_tsk on a suspended task */
    OKROZUMBA_H_POLL = -5,        /* a poll that can't be served at once */
    OKROZUMBA_H_MSG = -6,         /* the message already lies in a mailbox */
    OKROZUMBA_H_NEST = -7,        /* an entry while 15 handlers are open */
    OKROZUMBA_H_EXIST = -8,       /* cre_tsk on a task that is there */
    OKROZUMBA_H_ILBLK = -10,      /* block number outside the pool, or free */
    OKROZUMBA_H_USED = -11,       /* set_abs or set_rel on an alarm in use */
    OKROZUMBA_H_IDLE = -12,       /* can_alm on an idle alarm */
    /* The state is damaged; the first of these that applies. */
    OKROZUMBA_H_NUMBER = -20,     /* a number out of range anywhere, or any breach but the next four; w1 0 */
    OKROZUMBA_H_QUEUE = -21,      /* a task missing from, doubled in or foreign to a queue; w1 the smallest such task */
    OKROZUMBA_H_SERVED = -22,     /* a waiter on an object, first in line or not, beside what would serve it; w1 the smallest such waiter */
    OKROZUMBA_H_TWICE = -23,      /* a message held twice; w1 the smallest such message */
    OKROZUMBA_H_FREE = -24,       /* a free block missing from, doubled in or foreign to its pool's queue; w1 the smallest such pool */
    OKROZUMBA_E_TPRI = -1830,     /* priority outside 1..P (rot_rdq: 0..P) */
    OKROZUMBA_E_ILTIME = -1831,   /* wai_tsk time below -1 */
    OKROZUMBA_E_SELF = -2097,     /* ter_tsk, sus_tsk or wup_tsk on oneself, task context */
    OKROZUMBA_E_NOEXS = -2100,    /* id outside 1..count, or a task that is not there */
    OKROZUMBA_E_DMT = -2101,      /* ter_tsk, chg_pri, sus_tsk, wup_tsk or can_wup on a dormant task */
    OKROZUMBA_E_NOSUS = -2104,    /* rsm_tsk on a task not suspended */
    OKROZUMBA_E_NOWAI = -2110,    /* rel_wai on a task not waiting */
    OKROZUMBA_E_CTX = -2629,      /* task-only call from a handler; task context while nothing runs or a handler is open; handler context
                                     or a return while none is */
    OKROZUMBA_E_QOVR = -2889,     /* wake-up count already 15; semaphore already 65535 */
    OKROZUMBA_E_TMOUT = -3413,    /* wai_tsk with time 0 and no wake-up stored; in a cell, time ran out */
    OKROZUMBA_E_RLWAI = -3414     /* only in a cell: wait broken off */
};

/* ---- answers */

/* What comes back of an event. w1 and w2 are 0 unless a call or a code names them. */
typedef struct okrozumba_answer {
    int32_t code;
    uint32_t w1;
    uint32_t w2;
    uint32_t running;  /* the running task after the event, while a handler is open the one at the outermost entry; 0 if none */
    uint32_t released; /* the number of tasks released from a wait */
} okrozumba_answer;

/* An answer cell: the code that the task was last released from a wait with, and the pattern, message or block that it got. It is 0 and 0 from
   a start of the task, or from its making, to its first release. A wait that ends since the task is terminated writes nothing. */
typedef struct okrozumba_reading {
    int32_t code;
    uint32_t word;
} okrozumba_reading;

/* What is shown of all tasks: 0, or the code of what is damaged; and how many tasks the setup has, 0 if the state is damaged. */
typedef struct okrozumba_shown {
    int32_t code;
    uint32_t tasks;
} okrozumba_shown;

/* What came of a start or a run. The place is the offset of the setup's fault in bytes, 0 if there is none. */
typedef struct okrozumba_outcome {
    uint32_t number;
    size_t place;
} okrozumba_outcome;

/* The number of an outcome: 0, or why nothing was done and nothing was written. */
#define OKROZUMBA_DONE 0

/* of a start: the setup's fault */
enum {
    OKROZUMBA_S1 = 1, /* the bytes end before a needed word is whole */
    OKROZUMBA_S2 = 2, /* a count outside its range */
    OKROZUMBA_S3 = 3, /* an entry outside its range */
    OKROZUMBA_S4 = 4  /* bytes left over */
};

/* of many events */
enum {
    OKROZUMBA_RAGGED = 1,    /* the event words are no multiple of five */
    OKROZUMBA_FEW_CODES = 2, /* no place for a code of each event */
    OKROZUMBA_FEW_WORDS = 3  /* no place for four words of each event */
};

/* of a run: those of many events, then the setup's fault */
enum {
    OKROZUMBA_RUN_S1 = 11,
    OKROZUMBA_RUN_S2 = 12,
    OKROZUMBA_RUN_S3 = 13,
    OKROZUMBA_RUN_S4 = 14
};

/* ---- functions */

/* Makes the fresh state of a setup, whatever the memory held: OKROZUMBA_DONE. A setup with a fault, OKROZUMBA_S1 to _S4, leaves the memory
   as it was. It judges the setup itself. */
okrozumba_outcome okrozumba_start(const uint8_t *setup, size_t setup_bytes, uint32_t words[OKROZUMBA_STATE_WORDS],
                                  uint32_t messages[OKROZUMBA_MESSAGES]);

/* A call from a context (OKROZUMBA_TASK, OKROZUMBA_HANDLER) by its number; words that the call does not take are ignored. On a damaged
   state: H_NUMBER to H_FREE with its w1, all else 0, and the state as it was. It looks for damage itself. */
okrozumba_answer okrozumba_call(uint32_t words[OKROZUMBA_STATE_WORDS], uint32_t messages[OKROZUMBA_MESSAGES], int32_t context,
                                int32_t number, int32_t a, int32_t b, int32_t c);

/* A tick: the clock rises, timed waits that run out end, the counter goes one on, and alarms that are due fire. On a damaged state: as okrozumba_call. It looks for damage itself. */
okrozumba_answer okrozumba_tick(uint32_t words[OKROZUMBA_STATE_WORDS], const uint32_t messages[OKROZUMBA_MESSAGES]);

/* A handler is entered, up to 15 in each other. While one is open no task is switched: the running task reported is the one at the
   outermost entry. On a damaged state: as okrozumba_call. It looks for damage itself. */
okrozumba_answer okrozumba_enter(uint32_t words[OKROZUMBA_STATE_WORDS], const uint32_t messages[OKROZUMBA_MESSAGES]);

/* A handler returns; behind the outermost the best ready task runs. On a damaged state: as okrozumba_call. It looks for damage itself. */
okrozumba_answer okrozumba_leave(uint32_t words[OKROZUMBA_STATE_WORDS], const uint32_t messages[OKROZUMBA_MESSAGES]);

/* Reads the answer cell of a task. On a damaged state H_NUMBER to H_FREE, then for a bad id, or a task that is not there, E_NOEXS, each with
   word 0. It looks for damage itself. */
okrozumba_reading okrozumba_cell(const uint32_t words[OKROZUMBA_STATE_WORDS], const uint32_t messages[OKROZUMBA_MESSAGES], int32_t task);

/* The running task, while a handler is open the one at the outermost entry; 0 if there is none, and on a damaged state. It looks for damage
   itself. */
uint32_t okrozumba_running(const uint32_t words[OKROZUMBA_STATE_WORDS], const uint32_t messages[OKROZUMBA_MESSAGES]);

/* The state of every task at once: that of task t goes to states[t - 1], and the places of higher ids are left. On a damaged state H_NUMBER to
   H_FREE, and nothing is written. It looks for damage itself. */
okrozumba_shown okrozumba_states(const uint32_t words[OKROZUMBA_STATE_WORDS], const uint32_t messages[OKROZUMBA_MESSAGES],
                                 uint32_t states[OKROZUMBA_TASKS]);

/* Events one after the other, five words each: kind, number, a, b, c (of what is no call only the kind counts). The code of event i goes to
   codes[i], its w1, w2, running and released to answers[4 i] and the next three; what lies behind the last is left. The answers are those
   of one call after the other, and it is quicker: the state is looked at for damage once. On a damaged state every event is answered as by
   okrozumba_call. Returns OKROZUMBA_DONE, or OKROZUMBA_RAGGED, _FEW_CODES or _FEW_WORDS, the first that applies, with nothing written. */
uint32_t okrozumba_events(uint32_t words[OKROZUMBA_STATE_WORDS], uint32_t messages[OKROZUMBA_MESSAGES], const int32_t *events,
                          size_t event_words, int32_t *codes, size_t code_places, uint32_t *answers, size_t answer_words);

/* A start and then events, whatever the memory held: OKROZUMBA_DONE. With nothing written it is refused as okrozumba_events, and then, if
   the setup has a fault, with OKROZUMBA_RUN_S1 to _S4. It judges the setup itself. */
okrozumba_outcome okrozumba_run(const uint8_t *setup, size_t setup_bytes, uint32_t words[OKROZUMBA_STATE_WORDS],
                                uint32_t messages[OKROZUMBA_MESSAGES], const int32_t *events, size_t event_words, int32_t *codes,
                                size_t code_places, uint32_t *answers, size_t answer_words);

/* ---- recorded runs, as they come */

/* A recorded run is a setup with all eight sections, the number of events (0 to 1,000,000), and five words for each, kind, call, a, b, c. Its text has "start" and the running task, once setup and number are
   accepted; then a line for each event: number, code, w1, w2, running task, released. Where the bytes have a fault, a last line follows those that stand: "refused", digit of the fault (1 to 4
   for S1 to S4), place from the input's start. The input may come in parts of any size: the text, the last state and the refusal are the same. */

/* A recorder: its numbers, and the bytes of the setup and the count, or of an event, that are not whole yet. Any content is a value. Its kernel is an okrozumba_state beside it, which needs no
   preparation; once the start line is written it can be read by the functions above. */
#define OKROZUMBA_NUMBERS 5
#define OKROZUMBA_HELD 520

typedef struct okrozumba_recorder {
    uint32_t numbers[OKROZUMBA_NUMBERS];
    uint8_t held[OKROZUMBA_HELD];
} okrozumba_recorder;

/* No line is longer: an output of so many bytes always takes a byte of a part. */
#define OKROZUMBA_LINE 67

/* What a part or an end says. */
typedef struct okrozumba_parted {
    uint32_t number;
    size_t place;   /* of the run's refusal, from the input's start; else 0 */
    size_t taken;   /* how many bytes of the part were taken; of an end 0 */
    size_t written; /* how many bytes of text stand at the front of the output; what lies behind is left */
} okrozumba_parted;

/* Its number; OKROZUMBA_S1 to _S4 are the run's refusal, whose line is the last one written. */
enum {
    OKROZUMBA_TAKEN = 0,  /* all of the part was taken; or it is the end */
    OKROZUMBA_CLOSED = 5, /* S5: a nonempty part after the end or after a refusal, any end but the first; nothing was done or written */
    OKROZUMBA_FULL = 6    /* no room for the next line: what was not taken is the next part */
};

/* Makes a recorder that has taken nothing. The bytes held need no preparation. */
void okrozumba_begin(uint32_t numbers[OKROZUMBA_NUMBERS]);

/* Takes the next bytes of the input, runs the events that become whole, and writes their lines to the front of the output. It ends before a byte where fewer than OKROZUMBA_LINE bytes of the
   output are left (OKROZUMBA_FULL); with a shorter output nothing is taken and nothing changes. At a refusal it ends behind the byte that is refused. An empty part changes nothing. On a damaged
   state events are answered as by okrozumba_events. It looks for damage itself, once. */
okrozumba_parted okrozumba_part(uint32_t numbers[OKROZUMBA_NUMBERS], uint8_t held[OKROZUMBA_HELD], uint32_t words[OKROZUMBA_STATE_WORDS],
                                uint32_t messages[OKROZUMBA_MESSAGES], const uint8_t *bytes, size_t byte_count, uint8_t *text,
                                size_t text_bytes);

/* The end of the input: where more was to come, S1 and its line. If the line has no room, OKROZUMBA_FULL, and it is no end yet. */
okrozumba_parted okrozumba_end(uint32_t numbers[OKROZUMBA_NUMBERS], const uint8_t held[OKROZUMBA_HELD], uint8_t *text, size_t text_bytes);

/* ---- figures of recorded runs */

#define OKROZUMBA_STATES 7
#define OKROZUMBA_CODES 29

/* What is counted of a run: after how many events each task of its setup, by id from task 1, was in each state; and how often each code came back. A state is what tsk_sts gives, or 6 where the
   task is not there. Before the first part all of it is 0. Any content is a value; a count of 2^32 - 1 stays. */
typedef struct okrozumba_figures {
    uint32_t table[OKROZUMBA_TASKS][OKROZUMBA_STATES];
    uint32_t codes[OKROZUMBA_CODES];
} okrozumba_figures;

/* The codes in their order, to fill an array with. */
#define OKROZUMBA_CODES_COUNTED                                                                                                         \
    {0, 1, -1, -2, -3, -4, -5, -6, -7, -8, -10, -11, -12, -20, -21, -22, -23, -24, -1830, -1831, -2097, -2100, -2101, -2104, -2110, -2629, \
     -2889, -3413, -3414}

/* What a part says that is counted: OKROZUMBA_TAKEN; the run's refusal OKROZUMBA_S1 to _S4, with its place from the input's start; or OKROZUMBA_CLOSED, and nothing was done. */
typedef struct okrozumba_counted {
    uint32_t number;
    size_t place;
} okrozumba_counted;

/* Takes the next bytes of a recorded run, all of them, as okrozumba_part does, runs the events that become whole and counts them, with no text. Of a run that is refused on its way the whole events
   before count. However the input is divided, the figures are the same. A run begins with okrozumba_begin and ends with okrozumba_end, which says S1 where more was to come. It looks for damage
   itself, once. */
okrozumba_counted okrozumba_count(uint32_t numbers[OKROZUMBA_NUMBERS], uint8_t held[OKROZUMBA_HELD], uint32_t words[OKROZUMBA_STATE_WORDS],
                                  uint32_t messages[OKROZUMBA_MESSAGES], uint32_t table[OKROZUMBA_TASKS][OKROZUMBA_STATES],
                                  uint32_t codes[OKROZUMBA_CODES], const uint8_t *bytes, size_t byte_count);

#define OKROZUMBA_COUNTS 253
#define OKROZUMBA_RECORDS 64

/* The figures of a run in a row: counts[7 (i - 1) + s] is task i's count of state s, and the codes stand behind, from counts[224] on. */
typedef struct okrozumba_record {
    uint32_t counts[OKROZUMBA_COUNTS];
} okrozumba_record;

/* The record of what was counted, which is only read. (A const table would take a cast in C before C23.) */
okrozumba_record okrozumba_record_of(uint32_t table[OKROZUMBA_TASKS][OKROZUMBA_STATES], const uint32_t codes[OKROZUMBA_CODES]);

/* Why there is no report of a month. */
enum {
    OKROZUMBA_T1 = 1, /* more than OKROZUMBA_RECORDS records */
    OKROZUMBA_T2 = 2, /* an output that is not OKROZUMBA_COUNTS words long */
    OKROZUMBA_T3 = 3  /* a total beyond 2^32 - 1 */
};

/* The totals of the records, number by number, in the output: OKROZUMBA_DONE. Or OKROZUMBA_T1 to _T3, the first that applies, and the output as it was. */
uint32_t okrozumba_month(const okrozumba_record *records, size_t record_count, uint32_t *out, size_t out_words);

/* ---- a changed setup */

/* No text is longer: in an output of so many bytes there is room for any. */
#define OKROZUMBA_COMPARE_TEXT 366005

/* 0: the text stands at the front of the output, `length` bytes; what lies behind is left. 1: it takes `length` bytes, and the output is as it was. */
typedef struct okrozumba_comparison {
    uint32_t number;
    size_t length;
} okrozumba_comparison;

/* What does a changed setup change? The input is two setups, then a count of events, 0 to 3,000, and five words for each. All of it is judged before anything
   runs; a fault is the one line "refused", digit, place from the input's start. Else the text has, for each event at which code, w1, w2, running task or
   released differ, the line from the first setup and that from the second, then a line with the number of such events. It takes 190 kB of the stack. */
okrozumba_comparison okrozumba_compare(const uint8_t *input, size_t input_bytes, uint8_t *text, size_t text_bytes);

/* ---- brightness */

#define OKROZUMBA_CURVE_POINTS 16
#define OKROZUMBA_SLOTS 256

/* A brightness curve: the first `count` points, 1 to 16. Lux is 0..65535 and strictly rises, level is 0..255 and never falls. Between two
   points the level is on the straight line, rounded down; outside the ends it is the end level. */
typedef struct okrozumba_curve {
    uint32_t count;
    uint32_t lux[OKROZUMBA_CURVE_POINTS];
    uint32_t level[OKROZUMBA_CURVE_POINTS];
} okrozumba_curve;

/* The number of a judgement, and of a level. */
enum {
    OKROZUMBA_GOOD_CURVE = 0,
    OKROZUMBA_BAD_CURVE = 1
};

/* The point is the first bad one, counted from 1; 0 for a bad count, and of a good curve. */
typedef struct okrozumba_judgement {
    uint32_t number;
    uint32_t point;
} okrozumba_judgement;

/* The value is the level; of a bad curve the first bad point. */
typedef struct okrozumba_level {
    uint32_t number;
    uint32_t value;
} okrozumba_level;

/* What a display shows, and the task that waits for a reading, 0 if none does. A light belongs to one task. */
typedef struct okrozumba_light {
    uint32_t level;
    uint32_t waits;
} okrozumba_light;

/* What became of an arrival. */
enum {
    OKROZUMBA_LIGHT_SET = 0,      /* a reading was taken: the level is the curve's there */
    OKROZUMBA_LIGHT_WAITS = 1,    /* no reading has arrived: the task waits for one */
    OKROZUMBA_LIGHT_STAYS = 2,    /* the code was not 0: the level stays as it was */
    OKROZUMBA_LIGHT_NO_SLOT = 3,  /* the message number is 0 or beyond the slots: the level stays as it was */
    OKROZUMBA_LIGHT_BAD_CURVE = 4 /* the curve is bad: nothing was done, and the light is as it was */
};

/* The point is that of OKROZUMBA_LIGHT_BAD_CURVE, else 0. */
typedef struct okrozumba_display {
    okrozumba_light light;
    uint32_t news;
    uint32_t point;
} okrozumba_display;

/* Judges a curve: the count first, then each point whole before the next. */
okrozumba_judgement okrozumba_curve_judge(okrozumba_curve curve);

/* The level at a lux, however large. It judges the curve itself. More lux never gives a lower level. */
okrozumba_level okrozumba_curve_level(okrozumba_curve curve, uint32_t lux);

/* The light that a display starts with: the first point's level, OKROZUMBA_LIGHT_SET. Of a bad curve a dark one. */
okrozumba_display okrozumba_light_first(okrozumba_curve curve);

/* What the code and the word of an arrival make of a light: with code 0 the word is a message number, which names a slot with its lux, counted
   from 1; the level becomes the curve's there. Only the first OKROZUMBA_SLOTS slots count. It judges the curve itself. */
okrozumba_display okrozumba_light_take(okrozumba_curve curve, const uint32_t *slots, size_t slot_count, okrozumba_light light,
                                       int32_t code, uint32_t word);

/* The running task asks a mailbox for a reading: rcv_msg in task context. A message that lies there is taken at once; else the task waits,
   OKROZUMBA_LIGHT_WAITS, and the light says for whom. A bad curve is refused before the call, and the state is as it was. */
okrozumba_display okrozumba_light_receive(uint32_t words[OKROZUMBA_STATE_WORDS], uint32_t messages[OKROZUMBA_MESSAGES],
                                          okrozumba_curve curve, const uint32_t *slots, size_t slot_count, okrozumba_light light,
                                          int32_t mailbox);

/* To be called when the task that waits for a reading runs again: what its cell holds is taken, and nobody waits any more. A wait that was
   broken off leaves the level as it was. While another task runs: OKROZUMBA_LIGHT_WAITS, and the light as it was. */
okrozumba_display okrozumba_light_resumed(const uint32_t words[OKROZUMBA_STATE_WORDS], const uint32_t messages[OKROZUMBA_MESSAGES],
                                          okrozumba_curve curve, const uint32_t *slots, size_t slot_count, okrozumba_light light);

#ifdef __cplusplus
}
#endif

#endif

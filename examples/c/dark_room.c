/* A dark room: a light sensor's readings arrive as messages, a cloth covers the sensor, the wait for the next reading is broken off, and the
   display keeps its level. From the repository's root:

       (cd crates/okrozumba && rt lib --cpu x86-64) && mkdir -p target
       cc -std=c11 -Wall -Wextra -Iinclude examples/c/dark_room.c crates/okrozumba/out/libokrozumba.a -o target/dark_room
       target/dark_room

   It prints:

       curve: good; display starts at level 8
       a curve whose lux falls: refused at point 2
       noon, 20000 lux in slot 1: message 1 sent, received at once: set, level 175
       display waits for the next reading: waits, level 175
       dusk, 30 lux in slot 2: message 2 sent by a handler, display runs: set, level 18
       display waits for the next reading: waits, level 18
       cloth over the sensor, no reading comes: supervisor runs: waits, level 18
       supervisor rel_wai(1), display runs: cell -3414: stays, level 18
       display waits for the next reading: waits, level 18
       0 lux in slot 3: message 3 sent by a handler, display runs: set, level 8
       message 4 has no slot: received at once: no slot, level 8
       memory overwritten: resumed: waits, level 8 */
#include "okrozumba_calls.h"

#include <inttypes.h>
#include <stdio.h>
#include <string.h>

#define WORD(n) (uint8_t)(n), 0, 0, 0

/* Task 1 is the display, task 2 the supervisor. */
enum { DISPLAY = 1, SUPERVISOR = 2, MAILBOX = 1, SLOTS = 3 };

static const uint8_t setup[] = {
    WORD(2),                                     /* priorities */
    WORD(2), WORD(1), WORD(1), WORD(2), WORD(1), /* tasks: priority, started */
    WORD(0),                                     /* no semaphore */
    WORD(0),                                     /* no flag */
    WORD(1),                                     /* a mailbox */
    WORD(4),                                     /* messages */
    WORD(0),                                     /* no pool */
};

static const okrozumba_curve curve = {.count = 4, .lux = {10, 50, 1000, 40000}, .level = {8, 28, 100, 255}};
static const okrozumba_curve falling = {.count = 2, .lux = {50, 10}, .level = {8, 28}};

static const char *const news[] = {"set", "waits", "stays", "no slot", "bad curve"};

static okrozumba_state k;
static uint32_t slots[SLOTS];
static okrozumba_light light;

/* Keeps the light and tells what became of it. */
static void show(const char *event, okrozumba_display d) {
    light = d.light;
    printf("%s: %s, level %" PRIu32 "\n", event, news[d.news], light.level);
}

static okrozumba_display receive(void) {
    return okrozumba_light_receive(k.words, k.messages, curve, slots, SLOTS, light, MAILBOX);
}

static okrozumba_display resumed(void) {
    return okrozumba_light_resumed(k.words, k.messages, curve, slots, SLOTS, light);
}

/* The sensor's handler: the reading goes into its slot, and the message of that number is sent. */
static void sense(uint32_t slot, uint32_t lux) {
    slots[slot - 1] = lux;
    okrozumba_kernel_enter(&k);
    okrozumba_snd_msg(&k, OKROZUMBA_HANDLER, MAILBOX, (int32_t)slot);
    okrozumba_kernel_leave(&k);
}

int main(void) {
    if (okrozumba_kernel_start(&k, setup, sizeof setup).number != OKROZUMBA_DONE ||
        okrozumba_curve_judge(curve).number != OKROZUMBA_GOOD_CURVE) {
        return 1;
    }
    light = okrozumba_light_first(curve).light;
    printf("curve: good; display starts at level %" PRIu32 "\n", light.level);
    printf("a curve whose lux falls: refused at point %" PRIu32 "\n", okrozumba_curve_judge(falling).point);

    sense(1, 20000);
    show("noon, 20000 lux in slot 1: message 1 sent, received at once", receive());

    show("display waits for the next reading", receive());
    sense(2, 30);
    show("dusk, 30 lux in slot 2: message 2 sent by a handler, display runs", resumed());

    show("display waits for the next reading", receive());
    show("cloth over the sensor, no reading comes: supervisor runs", resumed());
    okrozumba_rel_wai(&k, OKROZUMBA_TASK, DISPLAY);
    printf("supervisor rel_wai(1), display runs: cell %" PRId32, okrozumba_kernel_cell(&k, DISPLAY).code);
    show("", resumed());

    show("display waits for the next reading", receive());
    sense(3, 0);
    show("0 lux in slot 3: message 3 sent by a handler, display runs", resumed());

    okrozumba_snd_msg(&k, OKROZUMBA_TASK, MAILBOX, 4);
    show("message 4 has no slot: received at once", receive());

    memset(&k, 0xff, sizeof k);
    light.waits = DISPLAY;
    show("memory overwritten: resumed", resumed());
    return 0;
}

/* A recorded run that comes in parts of seven bytes, each of its lines printed as soon as it is there. From the repository's root:

       (cd crates/okrozumba && rt lib --cpu x86-64) && mkdir -p target
       cc -std=c11 -Wall -Wextra -Iinclude examples/c/parts.c crates/okrozumba/out/libokrozumba.a -o target/parts
       target/parts

   It prints:

       start 1
       77 bytes taken, runs 1
       1 0 0 0 3 0
       98 bytes taken, runs 3
       2 1 0 0 1 0
       112 bytes taken, runs 1
       the end: 0
       one more end: 5
       another byte: 5 */
#include "bench_sheet.h"

#include <inttypes.h>
#include <stdio.h>

enum { PART = 7 };

static const uint8_t run[] = {BENCH_SHEET_RUN};

static okrozumba_recorder recorder;
static okrozumba_state state;
/* room for a line, and for any other behind it */
static uint8_t text[2 * OKROZUMBA_LINE];

static okrozumba_parted part(const uint8_t *bytes, size_t many) {
    return okrozumba_part(recorder.numbers, recorder.held, state.words, state.messages, bytes, many, text, sizeof text);
}

static size_t smaller(size_t a, size_t b) {
    return a < b ? a : b;
}

int main(void) {
    okrozumba_begin(recorder.numbers);
    for (size_t given = 0; given < sizeof run;) {
        okrozumba_parted told = part(run + given, smaller(PART, sizeof run - given));
        given += told.taken;
        fwrite(text, 1, told.written, stdout);
        if (told.written != 0) {
            printf("%zu bytes taken, runs %" PRIu32 "\n", given, okrozumba_kernel_running(&state));
        }
    }
    printf("the end: %" PRIu32 "\n", okrozumba_end(recorder.numbers, recorder.held, text, sizeof text).number);
    printf("one more end: %" PRIu32 "\n", okrozumba_end(recorder.numbers, recorder.held, text, sizeof text).number);
    printf("another byte: %" PRIu32 "\n", part(run, 1).number);
    return 0;
}

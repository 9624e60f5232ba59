/* The figures of two recorded runs, each counted in parts of seven bytes, and the month of both. From the repository's root:

       (cd crates/okrozumba && rt lib --cpu x86-64) && mkdir -p target
       cc -std=c11 -Wall -Wextra -Iinclude examples/c/figures.c crates/okrozumba/out/libokrozumba.a -o target/figures_example
       target/figures_example

   It prints:

       a whole run: the end: 0
       the same without its last byte: the end: 1 at 108
       month of 2 records: 0
       task 1: 0 2 1 0 0 0 0
       task 2: 0 3 0 0 0 0 0
       task 3: 0 0 2 1 0 0 0
       code 0: 2
       code 1: 1
       65 records: T1
       an output of 252 words: T2
       a total of 2^32: T3, and the output has its code 0: 2 */
#include "bench_sheet.h"

#include <inttypes.h>
#include <stdio.h>

enum { PART = 7, TASKS = 3, FIRST_CODE = OKROZUMBA_TASKS * OKROZUMBA_STATES };

static const uint8_t run[] = {BENCH_SHEET_RUN};

static const int32_t codes[OKROZUMBA_CODES] = OKROZUMBA_CODES_COUNTED;
static okrozumba_state state;
static okrozumba_record records[OKROZUMBA_RECORDS + 1];
static uint32_t out[OKROZUMBA_COUNTS];

static size_t smaller(size_t a, size_t b) {
    return a < b ? a : b;
}

/* The record of a run's first bytes; tells what its end says. */
static okrozumba_record count(const char *what, size_t many) {
    okrozumba_recorder recorder;
    okrozumba_figures figures = {0};
    uint8_t line[OKROZUMBA_LINE];
    okrozumba_begin(recorder.numbers);
    for (size_t given = 0; given < many; given += PART) {
        okrozumba_counted said = okrozumba_count(recorder.numbers, recorder.held, state.words, state.messages, figures.table, figures.codes,
                                                 run + given, smaller(PART, many - given));
        if (said.number != OKROZUMBA_TAKEN) {
            printf("%s: refused %" PRIu32 " at %zu\n", what, said.number, said.place);
            return okrozumba_record_of(figures.table, figures.codes);
        }
    }
    okrozumba_parted end = okrozumba_end(recorder.numbers, recorder.held, line, sizeof line);
    printf("%s: the end: %" PRIu32, what, end.number);
    if (end.number != OKROZUMBA_TAKEN) {
        printf(" at %zu", end.place);
    }
    printf("\n");
    return okrozumba_record_of(figures.table, figures.codes);
}

int main(void) {
    records[0] = count("a whole run", sizeof run);
    records[1] = count("the same without its last byte", sizeof run - 1);
    printf("month of 2 records: %" PRIu32 "\n", okrozumba_month(records, 2, out, OKROZUMBA_COUNTS));
    for (int task = 1; task <= TASKS; task++) {
        printf("task %d:", task);
        for (int s = 0; s < OKROZUMBA_STATES; s++) {
            printf(" %" PRIu32, out[OKROZUMBA_STATES * (task - 1) + s]);
        }
        printf("\n");
    }
    for (int k = 0; k < OKROZUMBA_CODES; k++) {
        if (out[FIRST_CODE + k] != 0) {
            printf("code %" PRId32 ": %" PRIu32 "\n", codes[k], out[FIRST_CODE + k]);
        }
    }
    printf("65 records: T%" PRIu32 "\n", okrozumba_month(records, OKROZUMBA_RECORDS + 1, out, OKROZUMBA_COUNTS));
    printf("an output of 252 words: T%" PRIu32 "\n", okrozumba_month(records, 2, out, OKROZUMBA_COUNTS - 1));
    records[2].counts[0] = UINT32_MAX;
    records[3].counts[0] = 1;
    printf("a total of 2^32: T%" PRIu32, okrozumba_month(records, 4, out, OKROZUMBA_COUNTS));
    printf(", and the output has its code 0: %" PRIu32 "\n", out[FIRST_CODE]);
    return 0;
}

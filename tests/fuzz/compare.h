/* A call compared: it is made by the reference, in place, and by the entry on bytes that are lent between guards. What it returns and what
 * it leaves of every byte that it was lent must be the same. Each harness says what its calls are. */
#ifndef COMPARE_H
#define COMPARE_H

#include "command.h"
#include "guards.h"
#include "input.h"

#include <stdbool.h>
#include <stdio.h>
#include <stdlib.h>
#include <string.h>

/* How many bytes of what is lent lie beyond the guard: with any, the first call must crash, which the script tries. */
#ifndef ASTRAY
#define ASTRAY 0
#endif

/* The reference's side (src/lib.rs), which each harness asks as the SIDE that it is: the call, the sort of what is handed in that it is made
 * on, how many sorts there are and whether an answer shows one, and the numbers that an entry can give. It is told of each call of an
 * entry: what that was given, what it left and what it returned. */
enum side { STATION_SIDE, DESK_SIDE, DRAWING_SIDE };
uint32_t reference_call(uint8_t side, const struct command *command);
uint8_t reference_handed(uint8_t side, const struct command *command);
bool reference_gives(uint8_t side, uint8_t entry, uint8_t number);
bool reference_shows(uint8_t side, uint8_t handed, uint8_t number);
uint8_t reference_sorts(uint8_t side);
void reference_told(uint8_t side, const struct command *given, const struct command *left, uint32_t answer);

/* The harness's: it makes the call, knows whether an entry may write a run at all, and is told of each call, with the sort and the
 * answer. */
static uint32_t call_any(const struct command *c);
static bool may_write(uint8_t entry, int run, uint32_t answer);
static void tell(const struct command *command, uint8_t sort, uint32_t answer);
/* At the end it tells what was reached. */
static void summary(void);

/* What the fuzzer calls: first of all, and with each input, which is the harness's. */
int LLVMFuzzerInitialize(int *count, char ***words);
int LLVMFuzzerTestOneInput(const uint8_t *data, size_t size);

enum { RUNS = 3 };

static struct page pages[RUNS];
static size_t page_size;

static void open_pages(void) {
    page_size = (size_t)sysconf(_SC_PAGESIZE);
    for (int run = 0; run < RUNS; run++)
        open_page(&pages[run], page_size);
}

int LLVMFuzzerInitialize(int *count, char ***words) {
    (void)count, (void)words;
    open_pages();
    atexit(summary);
    return 0;
}

/* The call that is being made: what it was lent as it was before; in the command, as it must be after; and the answer. */
static uint8_t before[RUNS][RUN_MOST];
static struct command *under_way;
static uint32_t expected;

static struct lent *run_of(struct command *command, int run) {
    return run == 0 ? &command->room : run == 1 ? &command->in : &command->out;
}

static void show(const char *name, const uint8_t *bytes, size_t size) {
    fprintf(stderr, "  %-8s", name);
    for (size_t at = 0; at < size; at++)
        fprintf(stderr, " %02x", bytes[at]);
    fputc('\n', stderr);
}

static void show_call(void) {
    static const char *const names[RUNS] = {"room", "in", "out"};
    fprintf(stderr, "found in a call of entry %d with %d, %d, %d, %#llx, %#llx, %u; expected %#x and to leave\n", under_way->entry,
            under_way->first, under_way->second, under_way->issue, (unsigned long long)under_way->image,
            (unsigned long long)under_way->apart, under_way->card, expected);
    for (int run = 0; run < RUNS; run++) {
        struct lent *after = run_of(under_way, run);
        show(names[run], before[run], after->size);
        show("  as", after->bytes, after->size);
    }
}

/* The sanitizer's report of a fault has the call too. */
void __asan_on_error(void);
void __asan_on_error(void) {
    if (under_way != NULL)
        show_call();
}

/* Where a run of some bytes is lent: against the guard behind it or, `low`, against the one before it; a run of no bytes, `low`, at NULL. */
static uint8_t *place_of(uint8_t *page, size_t size, bool low) {
    if (!low)
        return page + (page_size - size) + ASTRAY;
    return size == 0 ? NULL : page - ASTRAY;
}

/* Makes the call by the reference, in place, and by the entry on what it is lent; bit k of `places` says which way run k stands. */
static void compare(struct command *command, unsigned places) {
    struct command lent = *command;
    const uint8_t *left[RUNS];
    uint8_t sort = reference_handed(SIDE, command);
    for (int run = 0; run < RUNS; run++)
        memcpy(before[run], run_of(command, run)->bytes, run_of(command, run)->size);
    expected = reference_call(SIDE, command);
    for (int run = 0; run < RUNS; run++) {
        struct lent *to = run_of(&lent, run);
        bool low = places >> run & 1;
        size_t at = low ? 0 : page_size - to->size;
        memcpy(pages[run].writable + at, before[run], to->size);
        to->bytes = place_of(may_write(command->entry, run, expected) ? pages[run].writable : pages[run].readable, to->size, low);
        left[run] = pages[run].readable + at;
    }
    under_way = command;
    uint32_t answer = call_any(&lent);
    bool same = answer == expected;
    for (int run = 0; run < RUNS; run++)
        same &= memcmp(left[run], run_of(command, run)->bytes, run_of(command, run)->size) == 0;
    if (!same) {
        show_call();
        fprintf(stderr, "returned %#x and left\n", answer);
        for (int run = 0; run < RUNS; run++)
            show("", left[run], run_of(command, run)->size);
        abort();
    }
    under_way = NULL;
    struct command given = *command;
    for (int run = 0; run < RUNS; run++)
        run_of(&given, run)->bytes = before[run];
    reference_told(SIDE, &given, command, answer);
    tell(command, sort, answer);
}

#endif

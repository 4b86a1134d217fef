/* What the planners in C share: instructions and their words, records as drawings, the check of an answer. */
#ifndef PLANNER_H
#define PLANNER_H

#include "desk.h"
#include "drawing.h"
#include "station_words.h"

#include <inttypes.h>
#include <stdio.h>
#include <stdlib.h>

/* One instruction, as the five bytes that a request carries. */
typedef struct {
    uint8_t five[STATION_CODE_SIZE];
} Instruction;

/* ---- instructions */

static inline Instruction code(int op, int a, int b, int c, int d) {
    Instruction i = {{(uint8_t)op, (uint8_t)a, (uint8_t)b, (uint8_t)c, (uint8_t)d}};
    return i;
}

static inline Instruction belts(int row, int mask, int toward, int size) { return code(GARAGE_BELTS, row, mask, toward, size); }
static inline Instruction shuttles(int side, int rows, int toward) { return code(GARAGE_SHUTTLES, side, rows, GARAGE_LOWERED, toward); }
static inline Instruction lift(int height) { return code(GARAGE_LIFT, height, 0, 0, 0); }

/* ---- in words */

static const char *const belts_of_row_1[] = {"left shuttle's", "left", "lift's", "right", "right shuttle's"};
static const char *const belts_of_others[] = {"left shuttle's", "middle", "right shuttle's"};
static const char *const heights[] = {"street", "rotation", "basement"};
static const char *const sides[] = {"left", "right"};
static const char *const ways[] = {"lower", "higher"};

/* The parts that a mask names, with commas between them. */
static inline void say_named(unsigned mask, const char *const *names, unsigned count) {
    const char *between = "";
    for (unsigned k = 0; k < count; k++) {
        if (mask >> k & 1u) {
            printf("%s%s", between, names[k]);
            between = ", ";
        }
    }
}

static inline void say_rows(unsigned mask) {
    static const char *const rows[] = {"1", "2", "3"};
    say_named(mask, rows, 3);
}

static inline void say_instruction(const Instruction *i) {
    const uint8_t *f = i->five;
    switch (f[0]) {
    case GARAGE_BELTS:
        printf("row %u: belts (", f[1]);
        if (f[1] == 1) {
            say_named(f[2], belts_of_row_1, 5);
        } else {
            say_named(f[2], belts_of_others, 3);
        }
        printf(") %s by a %s\n", ways[f[3]], f[1] == 1 && f[4] == GARAGE_HALF ? "half cell" : "cell");
        break;
    case GARAGE_SHUTTLES:
        printf("%s lowered shuttles of rows ", sides[f[1]]);
        say_rows(f[2]);
        printf(": one row %s\n", ways[f[4]]);
        break;
    case GARAGE_LIFT:
        printf("lift to %s height\n", heights[f[1]]);
        break;
    default:
        printf("instruction %u\n", f[0]);
    }
}

/* ---- answers */

static inline void must(const char *call, uint32_t answer) {
    unsigned number = STATION_NUMBER(answer);
    if (number == STATION_TAKEN) return;
    printf("stopped: %s is refused with %u (%s)", call, number, station_words(number));
    if (STATION_PLACE(answer) != STATION_NOWHERE) printf(" at instruction %u", STATION_PLACE(answer));
    putchar('\n');
    exit(1);
}

/* ---- records */

static inline uint64_t number_of(const uint8_t *eight) {
    uint64_t image = 0;
    for (int k = STATION_IMAGE_SIZE - 1; k >= 0; k--) image = image << 8 | eight[k];
    return image;
}

static inline int bit(uint64_t image, unsigned k) { return (int)(image >> k & 1u); }

/* What the station holds: the record, and what is set apart. */
typedef struct {
    uint64_t image, apart;
} Held;

/* What is set apart, which no drawing shows: cells, slots and the lift. */
static inline void show_apart(uint64_t apart) {
    const char *before = "  apart cells ";
    for (unsigned k = 0; k < 40; k++) {
        if (bit(apart, k)) {
            printf("%s%u", before, k);
            before = ", ";
        }
    }
    if (before[0] == ',') putchar('\n');
    for (unsigned k = 0; k < 12; k++) {
        if (bit(apart, 40 + k)) printf("  apart %s %s slot of row %u\n", sides[k / 3 % 2], k < 6 ? "lowered" : "tilted", k % 3 + 1);
    }
    if (bit(apart, 52)) printf("  apart the lift\n");
}

/* The floor as its drawing, each line behind two spaces; what is set apart; the number of cars. */
static inline void show(Held held) {
    uint8_t text[DRAWING_MOST];
    uint32_t answer = drawing_write(held.image, text, sizeof text);
    must("drawing", answer);
    for (unsigned k = 0; k < DRAWING_LENGTH(answer); k++) printf("%s%c", k == 0 || text[k - 1] == '\n' ? "  " : "", text[k]);
    show_apart(held.apart);
    printf("  cars  %" PRIu32 "\n", garage_cars(held.image));
}

/* ---- steps */

static unsigned steps;

static inline void headline(const char *what) { printf("step %u: %s\n", ++steps, what); }

#endif

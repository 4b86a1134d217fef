/* fetch N [PLAN]: how long it takes to fetch a car from a garage with N cars. Over every sound record with N cars and no drive under way, and
 * every car of it: the least number of instructions until that car is on the lift at street. The proved engine says which records are sound
 * (garage_sound, garage_cars) and what each of the 272 instructions makes of them (garage_next). Every move can be undone (EveryMoveUndone), so
 * one search from all records in which a car is on the lift at street gives all distances. With PLAN, the longest way of at most 64
 * instructions is written there as a plan's text, for tools/plan-text and bin/plan.
 *
 * Where an instruction takes a car is worked out here, and held against the cars of the next record at every step of the search. */
#include "station.h"

#include <inttypes.h>
#include <stdio.h>
#include <stdlib.h>
#include <string.h>

enum { CARS_MOST = 30, CODES = 272, RAISED = 52, FAR = 255, SETS_MOST = 64 };

typedef struct {
    uint8_t five[5];
    uint8_t to[RAISED + 1]; /* where a car that begins at a cell is afterwards; of the lift's runs this depends on the record */
} Code;

typedef struct {
    uint32_t to;
    uint16_t code;
} Step;

static Code codes[CODES];
static uint64_t *records;
static uint32_t count, *slots, slots_mask;

static void *claimed(void *got) {
    if (got == NULL) {
        fprintf(stderr, "fetch: there is not enough memory\n");
        exit(1);
    }
    return got;
}

static void broken(const char *what, uint64_t record) {
    fprintf(stderr, "fetch: %s: record %016" PRIx64 "\n", what, record);
    exit(1);
}

/* ---- instructions */

/* Where row 1 of belts begins and ends, and the others. */
static const uint8_t belts_of_row_1[5][2] = {{0, 1}, {2, 10}, {11, 12}, {13, 17}, {18, 19}};
static const uint8_t belts_of_others[3][2] = {{0, 0}, {1, 8}, {9, 9}};

static void belts_carry(Code *c) {
    int row = c->five[1], first = row == 1 ? 0 : 10 * row, last = row == 1 ? 19 : first + 9;
    int far = (row == 1 && c->five[4] ? 2 : 1) * (c->five[3] ? 1 : -1);
    for (int belt = 0; belt < (row == 1 ? 5 : 3); belt++) {
        const uint8_t *ends = row == 1 ? belts_of_row_1[belt] : belts_of_others[belt];
        for (int at = first + ends[0]; (c->five[2] >> belt & 1) && at <= first + ends[1]; at++) {
            if (at + far >= first && at + far <= last) {
                c->to[at] = (uint8_t)(at + far);
            }
        }
    }
}

static void shuttles_carry(Code *c) {
    static const uint8_t begin[2][3] = {{0, 20, 30}, {18, 29, 39}};
    for (int row = 0; row < 3 && c->five[3] == GARAGE_LOWERED; row++) {
        int next = row + (c->five[4] ? 1 : -1);
        if ((c->five[2] >> row & 1) && next >= 0 && next < 3) {
            c->to[begin[c->five[1]][row]] = begin[c->five[1]][next];
        }
    }
}

static void list_codes(void) {
    int n = 0;
    for (int i = 0; i < 6 * 4 * 32 * 2 * 2; i++) {
        Code c = {{(uint8_t)(i / 512), (uint8_t)(i / 128 % 4), (uint8_t)(i / 4 % 32), (uint8_t)(i / 2 % 2), (uint8_t)(i % 2)}, {0}};
        if (STATION_NUMBER(garage_allowed(STATION_START_IMAGE, c.five, 5)) == STATION_BAD_FIELD) {
            continue;
        }
        for (int at = 0; at <= RAISED; at++) {
            c.to[at] = (uint8_t)at;
        }
        if (c.five[0] == GARAGE_BELTS) {
            belts_carry(&c);
        } else if (c.five[0] == GARAGE_SHUTTLES) {
            shuttles_carry(&c);
        } else if (c.five[0] == GARAGE_LIFT) {
            c.to[11] = RAISED;
            if (c.five[1] == GARAGE_BASEMENT) {
                c.to[RAISED] = 11;
            }
        }
        if (n == CODES) {
            broken("more than 272 instructions", (uint64_t)i);
        }
        codes[n++] = c;
    }
    if (n != CODES) {
        broken("not 272 instructions", (uint64_t)n);
    }
}

/* ---- records */

/* The cells at which the cars of a sound record begin, in the cells' order, and the raised lift last; how many there are. */
static int cars_of(uint64_t record, uint8_t *begin) {
    int n = 0;
    for (int at = 0; at < 40; at++) {
        if (record >> at & 1) {
            begin[n++] = (uint8_t)at;
            at += at < 20;
        }
    }
    if (record >> RAISED & 1) {
        begin[n++] = RAISED;
    }
    return n;
}

static void keep(uint64_t record, int cars) {
    static uint32_t room;
    if (!garage_sound(record) || garage_cars(record) != (uint32_t)cars) {
        broken("a record that is listed is not sound, or has another number of cars", record);
    }
    if (count == room) {
        room = room == 0 ? 1 << 16 : 2 * room;
        records = claimed(realloc(records, room * sizeof *records));
    }
    records[count++] = record;
}

/* The ways to fill so many of these cells of rows 2 and 3. */
static void fill_others(uint64_t record, uint64_t may, int left, int cars) {
    if (left == 0) {
        keep(record, cars);
        return;
    }
    if (__builtin_popcountll(may) < left) {
        return;
    }
    uint64_t lowest = may & (~may + 1);
    fill_others(record | lowest, may & ~lowest, left - 1, cars);
    fill_others(record, may & ~lowest, left, cars);
}

/* The ways to fill row 1 from this cell on, and with each the other rows, with so many cars more, given which cells may be occupied. */
static void fill_rows(uint64_t record, uint64_t may, int at, int left, int cars) {
    if (at >= 20) {
        fill_others(record, may & UINT64_C(0xFFFFF00000), left, cars);
        return;
    }
    fill_rows(record, may, at + 1, left, cars);
    if (left > 0 && at < 19 && (may >> at & 3) == 3) {
        fill_rows(record | UINT64_C(3) << at, may, at + 2, left - 1, cars);
    }
}

/* Every sound setting of shuttles and lift with free cells, and then the cells that may be occupied there. */
static void list_records(int cars) {
    static const uint64_t cells[6] = {3, UINT64_C(1) << 20, UINT64_C(1) << 30, UINT64_C(3) << 18, UINT64_C(1) << 29, UINT64_C(1) << 39};
    for (uint64_t setting = 0; setting < 1 << 15; setting++) {
        uint64_t record = setting << 40, may = 0xFFFFFFFFFF;
        if (!garage_sound(record)) {
            continue;
        }
        for (int slot = 0; slot < 6; slot++) {
            may &= setting >> slot & 1 ? ~UINT64_C(0) : ~cells[slot];
        }
        may &= record >> 53 == GARAGE_BASEMENT ? ~UINT64_C(0) : ~(UINT64_C(3) << 11);
        int raised = (int)(record >> RAISED & 1);
        if (raised <= cars) {
            fill_rows(record, may, 0, cars - raised, cars);
        }
    }
}

static uint32_t slot_of(uint64_t record) { return (uint32_t)(record * UINT64_C(0x9E3779B97F4A7C15) >> 32) & slots_mask; }

static void list_slots(void) {
    uint32_t size = 1 << 10;
    while (size < 2 * count) {
        size *= 2;
    }
    slots_mask = size - 1;
    slots = claimed(calloc(size, sizeof *slots));
    for (uint32_t r = 0; r < count; r++) {
        uint32_t at = slot_of(records[r]);
        while (slots[at] != 0) {
            at = (at + 1) & slots_mask;
        }
        slots[at] = r + 1;
    }
}

static uint32_t index_of(uint64_t record) {
    for (uint32_t at = slot_of(record); slots[at] != 0; at = (at + 1) & slots_mask) {
        if (records[slots[at] - 1] == record) {
            return slots[at] - 1;
        }
    }
    broken("a next record is not listed", record);
    return 0;
}

/* ---- steps */

/* Every instruction that is allowed on each record, and where it leads. `first[r]` is where those of record r begin. */
static Step *steps;
static uint64_t *first;

static void list_steps(void) {
    uint64_t made = 0, room = 0;
    first = claimed(calloc((size_t)count + 1, sizeof *first));
    for (uint32_t r = 0; r < count; r++) {
        first[r] = made;
        for (uint16_t c = 0; c < CODES; c++) {
            uint8_t next[8];
            if (STATION_NUMBER(garage_next(records[r], codes[c].five, 5, next, 8)) != STATION_TAKEN) {
                continue;
            }
            uint64_t to = 0;
            for (int k = 7; k >= 0; k--) {
                to = to << 8 | next[k];
            }
            if (to == records[r]) {
                continue;
            }
            if (made == room) {
                room = room == 0 ? 1 << 20 : room + room / 2;
                steps = claimed(realloc(steps, room * sizeof *steps));
            }
            steps[made++] = (Step){index_of(to), c};
        }
    }
    first[count] = made;
}

/* Which car of the next record each car of this one is. */
static void carried(uint32_t r, Step s, int cars, uint8_t *which) {
    uint8_t here[CARS_MOST], there[CARS_MOST], at[RAISED + 1];
    memset(at, FAR, sizeof at);
    if (cars_of(records[s.to], there) != cars || cars_of(records[r], here) != cars) {
        broken("a step changes the number of cars", records[r]);
    }
    for (int k = 0; k < cars; k++) {
        at[there[k]] = (uint8_t)k;
    }
    for (int k = 0; k < cars; k++) {
        uint8_t to = codes[s.code].to[here[k]];
        /* a lift that does not leave the basement takes no car from row 1 */
        if (codes[s.code].five[0] == GARAGE_LIFT && here[k] == 11 && records[r] >> 53 != GARAGE_BASEMENT) {
            to = 11;
        }
        if (at[to] == FAR) {
            broken("a car is not where the instruction takes it", records[r]);
        }
        which[k] = at[to];
        at[to] = FAR;
    }
}

/* ---- the search */

static uint8_t *far_of; /* of each record and each of its cars */

static int search(int cars) {
    far_of = claimed(malloc((size_t)count * (size_t)cars + 1));
    memset(far_of, FAR, (size_t)count * (size_t)cars);
    for (uint32_t r = 0; r < count; r++) {
        if (records[r] >> 52 == 1) {
            far_of[(size_t)r * cars + cars - 1] = 0;
        }
    }
    int level = 0;
    for (int more = 1; more; level++) {
        more = 0;
        for (uint32_t r = 0; r < count; r++) {
            uint8_t *mine = far_of + (size_t)r * cars, which[CARS_MOST];
            if (memchr(mine, level, (size_t)cars) == NULL) {
                continue;
            }
            for (uint64_t s = first[r]; s < first[r + 1]; s++) {
                carried(r, steps[s], cars, which);
                uint8_t *theirs = far_of + (size_t)steps[s].to * cars;
                for (int k = 0; k < cars; k++) {
                    if (mine[k] == level && theirs[which[k]] > level + 1) {
                        theirs[which[k]] = (uint8_t)(level + 1);
                        more = 1;
                    }
                }
            }
        }
        if (level == FAR - 2) {
            broken("a way is longer than 253", 0);
        }
    }
    return level - 1;
}

/* ---- a way, as a plan's text */

static void write_code(FILE *to, const uint8_t *five) {
    static const char *const of_row_1[] = {"left-shuttle", "left", "lift", "right", "right-shuttle"};
    static const char *const of_others[] = {"left-shuttle", "middle", "right-shuttle"};
    static const char *const heights[] = {"street", "rotation", "basement"};
    static const char *const sides[] = {"left", "right"}, *const ways[] = {"lower", "higher"};
    static const char *const stand[] = {"lowered", "tilted"}, *const sizes[] = {"half", "full"};
    switch (five[0]) {
    case GARAGE_BELTS:
        fprintf(to, "belts row %d", five[1]);
        for (int k = 0; k < 5; k++) {
            if (five[2] >> k & 1) {
                fprintf(to, " %s", five[1] == 1 ? of_row_1[k] : of_others[k]);
            }
        }
        fprintf(to, ", %s, %s\n\n", ways[five[3]], sizes[five[4]]);
        break;
    case GARAGE_SHUTTLES:
        fprintf(to, "shuttles %s rows", sides[five[1]]);
        for (int k = 0; k < 3; k++) {
            if (five[2] >> k & 1) {
                fprintf(to, " %d", k + 1);
            }
        }
        fprintf(to, " %s %s\n\n", stand[five[3]], ways[five[4]]);
        break;
    case GARAGE_TILT: fprintf(to, "tilt %s row %d %s\n\n", sides[five[1]], five[2], stand[five[3]]); break;
    case GARAGE_LIFT: fprintf(to, "lift %s\n\n", heights[five[1]]); break;
    default: fprintf(to, "rotate\n\n");
    }
}

static void write_plan(const char *name, int cars) {
    uint32_t r = 0;
    int car = -1, longest = -1;
    for (size_t k = 0; k < (size_t)count * (size_t)cars; k++) {
        if (far_of[k] <= SETS_MOST && far_of[k] > longest) {
            longest = far_of[k];
            r = (uint32_t)(k / (size_t)cars);
            car = (int)(k % (size_t)cars);
        }
    }
    FILE *to = car < 0 ? NULL : fopen(name, "w");
    if (to == NULL) {
        fprintf(stderr, "fetch: no plan can be written to %s\n", name);
        exit(1);
    }
    uint8_t begin[CARS_MOST], which[CARS_MOST];
    cars_of(records[r], begin);
    fprintf(to, "# %d cars, and the one that begins at cell %d is fetched by %d instructions, no fewer\nimage", cars, begin[car], longest);
    for (int k = 0; k < 8; k++) {
        fprintf(to, " %02X", (unsigned)(records[r] >> 8 * k & 255));
    }
    fprintf(to, "\nwish with a car\n\n");
    for (int level = longest; level > 0; level--) {
        uint64_t s = first[r];
        while (carried(r, steps[s], cars, which), far_of[(size_t)steps[s].to * cars + which[car]] != level - 1) {
            s++;
        }
        write_code(to, codes[steps[s].code].five);
        car = which[car];
        r = steps[s].to;
    }
    fclose(to);
}

int main(int argc, char **argv) {
    int cars = argc > 1 ? atoi(argv[1]) : 0;
    if (argc < 2 || argc > 3 || cars < 1 || cars > CARS_MOST) {
        fprintf(stderr, "fetch: usage: fetch N [PLAN], N from 1 to 30\n");
        return 2;
    }
    list_codes();
    list_records(cars);
    list_slots();
    list_steps();
    int most = search(cars);
    uint64_t sum = 0, reached = 0, all = (uint64_t)count * (uint64_t)cars;
    for (uint64_t k = 0; k < all; k++) {
        if (far_of[k] != FAR) {
            sum += far_of[k];
            reached++;
        }
    }
    printf("cars %d records %" PRIu32 " steps %" PRIu64 " ways %" PRIu64 " most %d mean %.2f never %" PRIu64 " (%.2f %%)\n", cars, count, first[count], all,
           reached ? most : 0, reached ? (double)sum / (double)reached : 0.0, all - reached, 100.0 * (double)(all - reached) / (double)all);
    if (argc == 3) {
        write_plan(argv[2], cars);
    }
    return 0;
}

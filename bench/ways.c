/* ways: writes crates/fetch_laws/proofs/Found.antt. On records with rows 2 and 3 full, every shuttle lowered and a car on the lift at street it
 * searches for those from which each car can be fetched (bench/fetch.c), chooses some that together have, wherever row 1 has at most two cars on
 * one side of the lift, all its cars, and writes the ways: to fetch each car of one record with seven cars in row 1 and of one with six, and
 * from each other to one before it. What it writes is believed by nobody: the prover tries every step. */
#define main fetch_main
#include "fetch.c"
#undef main

enum { MOST = 4096, WIDTH = 137 };
static const uint64_t full = UINT64_C(0x00103FFFFFF00000);

/* Cars of row 1, a bit for each cell at which one begins, in the order of those cells. */
static uint32_t placed[MOST], good[MOST], wanted[MOST], chosen[MOST];
static int placeds, goods, wanteds, chosens;

static void place(uint32_t cars, int from, int left) {
    if (left == 0) {
        placed[placeds++] = cars;
    }
    for (int at = from; left > 0 && at < 19; at++) {
        if (at < 10 || at > 12) {
            place(cars | 1u << at, at + 2, left - 1);
        }
    }
}

static uint64_t record_of(uint32_t cars) { return full | cars | cars << 1; }

static int few(uint32_t cars) { return __builtin_popcount(cars & 0x7FF) <= 2 || __builtin_popcount(cars & 0xFE000) <= 2; }

static void searched(int cars) {
    free(slots);
    free(steps);
    free(first);
    free(far_of);
    count = 0;
    steps = NULL;
    list_records(cars);
    list_slots();
    list_steps();
    search(cars);
}

static uint8_t far(uint32_t r, int cars, int car) { return far_of[(size_t)r * (size_t)cars + (size_t)car]; }

/* With so many cars in row 1, the placings from which each car can be fetched. */
static void list_good(int in_row) {
    int cars = in_row + 21;
    searched(cars);
    placeds = 0;
    place(0, 0, in_row);
    for (int p = 0; p < placeds; p++) {
        uint32_t r = index_of(record_of(placed[p]));
        if (memchr(far_of + (size_t)r * (size_t)cars, FAR, (size_t)cars) == NULL) {
            good[goods++] = placed[p];
        }
    }
}

/* The placings with few cars on a side to which no car can be added. */
static void list_wanted(void) {
    placeds = 0;
    for (int in_row = 0; in_row <= 8; in_row++) {
        place(0, 0, in_row);
    }
    for (int p = 0; p < placeds; p++) {
        int most = few(placed[p]);
        for (int at = 0; most && at < 19; at++) {
            uint32_t near = 7u << at >> 1, more = placed[p] | 1u << at;
            most = (at >= 10 && at <= 12) || (placed[p] & near) != 0 || !few(more);
        }
        if (most) {
            wanted[wanteds++] = placed[p];
        }
    }
}

/* One after the other that which has most of those that are left. */
static void choose(void) {
    while (wanteds > 0) {
        int best = 0, has = 0;
        for (int g = 0; g < goods; g++) {
            int n = 0;
            for (int p = 0; p < wanteds; p++) {
                n += (wanted[p] & ~good[g]) == 0;
            }
            if (n > has) {
                has = n;
                best = g;
            }
        }
        if (has == 0) {
            broken("no record has these cars", record_of(wanted[0]));
        }
        int left = 0;
        for (int p = 0; p < wanteds; p++) {
            if (wanted[p] & ~good[best]) {
                wanted[left++] = wanted[p];
            }
        }
        wanteds = left;
        chosen[chosens++] = good[best];
    }
}

/* ---- what is written */

static int column;

static void word(const char *text, int width) {
    if (column == 0 || column + width + 1 > WIDTH) {
        printf("%s   ", column == 0 ? "" : "\n");
        column = 4;
    }
    printf(" %s", text);
    column += width + 1;
}

static int opened;

static void number(const char *digits) {
    char text[32];
    int width = snprintf(text, sizeof text, "%s%s ∷", opened ? "" : "(", digits) - 2;
    opened = 1;
    word(text, width);
}

static void instruction(uint16_t code) {
    char digits[24];
    const uint8_t *five = codes[code].five;
    snprintf(digits, sizeof digits, "%d%d%02d%d%d", five[0], five[1], five[2], five[3], five[4]);
    number(digits);
}

static void closed(void) {
    word(opened ? "[]) ∷" : "([]) ∷", opened ? 5 : 6);
    opened = 0;
}

static void ended(void) {
    word("[]", 2);
    printf("\n");
    column = 0;
}

static void write_fetches(const char *name, uint32_t from, int cars) {
    printf("abbrev pub %sCars : ℕ\n%sCars = 0x%X\n\nabbrev pub %sFetched : List (List ℕ)\n%sFetched =\n", name, name, from | from << 1, name, name);
    for (int k = 0; k < cars; k++) {
        uint32_t r = index_of(record_of(from));
        uint8_t which[CARS_MOST];
        int car = k;
        for (int level = far(r, cars, car); level > 0; level--) {
            uint64_t s = first[r];
            while (carried(r, steps[s], cars, which), far(steps[s].to, cars, which[car]) != level - 1) {
                s++;
            }
            instruction(steps[s].code);
            car = which[car];
            r = steps[s].to;
        }
        closed();
    }
    ended();
}

/* From each other placing the nearest way to one that is reached. */
static void write_links(const uint32_t *those, int n, int start) {
    uint8_t *near = claimed(malloc(count)), *met = claimed(calloc(count, 1));
    uint32_t *queue = claimed(malloc(count * sizeof *queue));
    for (int k = 0; k < n; k++) {
        met[index_of(record_of(those[k]))] = k == start ? 2 : 1;
    }
    for (int k = 1; k < n; k++) {
        uint32_t head = 0, tail = 0, found_at = count;
        memset(near, FAR, count);
        for (int j = 0; j < n; j++) {
            uint32_t r = index_of(record_of(those[j]));
            if (met[r] == 2) {
                near[r] = 0;
                queue[tail++] = r;
            }
        }
        while (head < tail && found_at == count) {
            uint32_t r = queue[head++];
            for (uint64_t s = first[r]; s < first[r + 1] && found_at == count; s++) {
                uint32_t to = steps[s].to;
                if (near[to] == FAR) {
                    near[to] = (uint8_t)(near[r] + 1);
                    queue[tail++] = to;
                    found_at = met[to] == 1 ? to : count;
                }
            }
        }
        if (found_at == count) {
            broken("no way leads from the others", records[queue[0]]);
        }
        char digits[24];
        snprintf(digits, sizeof digits, "0x%X", (unsigned)(records[found_at] & 0xFFFFF));
        number(digits);
        for (uint32_t r = found_at; near[r] > 0;) {
            uint64_t s = first[r];
            while (near[steps[s].to] != near[r] - 1) {
                s++;
            }
            instruction(steps[s].code);
            r = steps[s].to;
        }
        closed();
        met[found_at] = 2;
    }
    free(near);
    free(met);
    free(queue);
}

/* The chosen ones with so many cars in row 1, and which of them has the shortest ways. */
static int of_row(int in_row, uint32_t *those, int *start) {
    int n = 0, cars = in_row + 21;
    uint64_t least = UINT64_MAX;
    for (int c = 0; c < chosens; c++) {
        if (__builtin_popcount(chosen[c]) == in_row) {
            uint64_t sum = 0;
            for (int k = 0; k < cars; k++) {
                sum += far(index_of(record_of(chosen[c])), cars, k);
            }
            if (sum < least) {
                least = sum;
                *start = n;
            }
            those[n++] = chosen[c];
        }
    }
    return n;
}

int main(void) {
    static const char *const names[] = {"seven", "six"};
    uint32_t those[MOST];
    int start = 0;
    list_codes();
    list_good(7);
    list_good(6);
    list_wanted();
    choose();
    printf("-- Ways that bench/ways has found with the proved engine, as numbers: what proofs/Ways.antt checks, step by step. An instruction is six\n"
           "-- digits: its opcode, its first field, its second in two digits, its third and its fourth. Assumes nothing.\n"
           "use mathlib.Core.List.{List, [], ◌∷◌}\nuse Prim.Native.Nat.{ℕ}\n\n"
           "-- two records, by their occupied cells of row 1, seven cars and six; and from each the ways to fetch each car, in the order of their places\n");
    for (int k = 0; k < 2; k++) {
        searched(28 - k);
        of_row(7 - k, those, &start);
        int s = start;
        write_fetches(names[k], those[s], 28 - k);
        printf("\n");
    }
    printf("-- the occupied cells of row 1 in another record, and a way from it to one of these two or to one that is listed before it\n"
           "abbrev pub links : List (List ℕ)\nlinks =\n");
    for (int k = 0; k < 2; k++) {
        searched(28 - k);
        int n = of_row(7 - k, those, &start);
        write_links(those, n, start);
    }
    ended();
    return 0;
}

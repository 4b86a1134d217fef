/* locks N: on how many records with N cars, the lift empty at street and no drive under way, a drive-in would lock somebody in: a car that could
 * be fetched before can't be after its done end, until another has left. And the same of the records on which the left or the right belt of
 * row 1 takes the car: its far end is free, and it holds whole cars alone; and of those on which row 1 has at most two cars on one side of the
 * lift, of which it is proved that every car can be fetched after the drive-in (NobodyLockedIn), which is tried here too. Both searches are
 * bench/fetch.c's, of N and of N + 1 cars. */
#define main fetch_main
#include "fetch.c"
#undef main

/* Which cars of a record can be fetched, a bit for each cell at which one begins. */
typedef struct {
    uint64_t record, fetched;
} Fetched;

static Fetched *found;
static uint32_t founds;

/* The records of so many cars with the lift at street, and a car on it or none, in the order of their numbers. */
static int by_record(const void *one, const void *other) {
    uint64_t a = ((const Fetched *)one)->record, b = ((const Fetched *)other)->record;
    return a < b ? -1 : a > b;
}

static void list_found(int cars, uint64_t raised) {
    list_records(cars);
    list_slots();
    list_steps();
    search(cars);
    found = claimed(malloc(count * sizeof *found));
    founds = 0;
    for (uint32_t r = 0; r < count; r++) {
        uint8_t begin[CARS_MOST];
        if (records[r] >> RAISED != raised) {
            continue;
        }
        cars_of(records[r], begin);
        found[founds] = (Fetched){records[r], 0};
        for (int k = 0; k < cars; k++) {
            found[founds].fetched |= (uint64_t)(far_of[(size_t)r * cars + k] != FAR) << begin[k];
        }
        founds++;
    }
    qsort(found, founds, sizeof *found, by_record);
}

/* Whether the far end of a belt of row 1 is free, and it holds whole cars. */
static int takes(uint64_t record, int first, int cells, int end) {
    return (record >> end & 3) == 0 && __builtin_popcountll(record >> first & ((UINT64_C(1) << cells) - 1)) % 2 == 0;
}

/* The test of crates/fetch: at most two cars left of the lift in row 1, or right of it. */
static int few(uint64_t record) { return __builtin_popcountll(record & 0x7FF) <= 4 || __builtin_popcountll(record & 0xFE000) <= 4; }

/* Whether every car of a record can be fetched. */
static int all_fetched(Fetched of) {
    uint8_t begin[CARS_MOST];
    uint64_t all = 0;
    for (int k = cars_of(of.record, begin) - 1; k >= 0; k--) {
        all |= UINT64_C(1) << begin[k];
    }
    return of.fetched == all;
}

int main(int argc, char **argv) {
    int cars = argc == 2 ? atoi(argv[1]) : 0;
    if (cars < 1 || cars >= CARS_MOST) {
        fprintf(stderr, "locks: usage: locks N, N from 1 to 29\n");
        return 2;
    }
    list_codes();
    list_found(cars, 0);
    Fetched *before = found;
    uint32_t befores = founds, locked = 0, taken = 0, taken_locked = 0, fews = 0;
    free(slots);
    free(steps);
    free(first);
    free(far_of);
    count = 0;
    steps = NULL;
    list_found(cars + 1, 1);
    for (uint32_t k = 0; k < befores; k++) {
        Fetched after = {before[k].record | UINT64_C(1) << RAISED, 0}, *driven = bsearch(&after, found, founds, sizeof *found, by_record);
        if (driven == NULL) {
            broken("after a drive-in there is no record", before[k].record);
        }
        int lock = (before[k].fetched & ~driven->fetched) != 0, take = takes(before[k].record, 2, 9, 2) || takes(before[k].record, 13, 5, 16);
        locked += (uint32_t)lock;
        taken += (uint32_t)take;
        taken_locked += (uint32_t)(lock && take);
        fews += (uint32_t)few(before[k].record);
        if (few(before[k].record) && !all_fetched(*driven)) {
            broken("it has few cars on one side, and a drive-in locks somebody in", before[k].record);
        }
    }
    printf("cars %d records %" PRIu32 " locked %" PRIu32 " with room on a belt %" PRIu32 " of these locked %" PRIu32 " with few on a side %" PRIu32 "\n", cars, befores,
           locked, taken, taken_locked, fews);
    return 0;
}

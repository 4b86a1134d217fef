/* A small planner over station.h. It lets one car in, parks it on row 2, fetches it again and lets it out. Before each set it
 * works out the record that must follow; after the motors' results (here all but one succeed at once) it holds the station's record
 * against that. One belt jams with the car on it: what it takes along is set apart, the planner goes on elsewhere, and no set that touches
 * it is taken until somebody has looked and the station was told what is there. How far a car goes along a row it learns from the reason
 * why the next move is not allowed. The row doesn't stop for the lift: once the car is off it, the lift goes up in one set with the belts
 * that take the car on, and comes down beside the shuttle that brings it back. Drivers take their time, and the first of them gives up:
 * while one is in the lift the planner may run a belt, but not the lift. A slow motor board says its result once more when the next set has
 * begun, which must be late. Every answer is checked: the first refusal that it doesn't count on ends the run with a message. */
#include "station.h"

#include <inttypes.h>
#include <stdio.h>
#include <stdlib.h>

#include "planner.h"

/* What a motor board reports done: an instruction, by its set and its place there. */
typedef struct {
    uint16_t issue;
    uint8_t number;
} Report;

static uint8_t room[STATION_SIZE];

/* ---- the calls, each with its check */

static Held held_now(void) {
    uint8_t both[STATION_SHOWN_SIZE];
    must("ask", station_ask(room, sizeof room, both, sizeof both));
    return (Held){number_of(both), number_of(both + STATION_IMAGE_SIZE)};
}

static uint64_t record_now(void) { return held_now().image; }

/* Whether the record allows an instruction. The planner counts on one reason why not, and says it; any other ends the run. */
static bool allows(Instruction i, unsigned reason) {
    uint32_t answer = garage_allowed(record_now(), i.five, sizeof i.five);
    if (STATION_NUMBER(answer) != reason) {
        must("question", answer);
        return true;
    }
    printf("not now, %u (%s): ", reason, station_words(reason));
    say_instruction(&i);
    return false;
}

/* The planner counts on it that a set of this instruction would be refused: the question must say so, and so must the request, which
 * names no instruction and changes nothing. */
static void must_refuse(Instruction i, unsigned number) {
    uint64_t before = record_now();
    uint32_t asked = garage_allowed(before, i.five, sizeof i.five), answer = station_request(room, sizeof room, 1, i.five, sizeof i.five);
    if (STATION_NUMBER(asked) != number || answer != asked || STATION_PLACE(answer) != STATION_NOWHERE || record_now() != before) {
        printf("stopped: %u was asked about and %u answered, not %u\n", STATION_NUMBER(asked), STATION_NUMBER(answer), number);
        exit(1);
    }
    printf("refused with %u (%s): ", number, station_words(number));
    say_instruction(&i);
}

static void drive(const char *what, uint8_t event) {
    headline(what);
    must("event", station_event(room, sizeof room, event));
    printf("  answer 0 (taken)\n");
    show(held_now());
}

static uint32_t report_done(Report report) { return station_result(room, sizeof room, report.issue, report.number, STATION_DONE); }

/* The motors carry out a set; before that the slow board says its last result of the set before again, where there is one. */
static void run_motors(uint16_t issue, uint8_t count) {
    static Report last;
    if (issue != 0 && STATION_NUMBER(report_done(last)) != STATION_LATE) {
        printf("stopped: a result of the set before isn't late\n");
        exit(1);
    }
    for (uint8_t i = 0; i < count; i++) {
        last = (Report){issue, i};
        must("result", report_done(last));
    }
}

/* One set: planned, requested, carried out, and the record held against the plan. */
static void carry_out(const char *what, const Instruction *set, uint8_t count) {
    uint8_t bytes[STATION_MOST * STATION_CODE_SIZE], eight[STATION_IMAGE_SIZE];
    uint64_t planned = record_now();
    headline(what);
    for (uint8_t i = 0; i < count; i++) {
        for (int k = 0; k < STATION_CODE_SIZE; k++) bytes[STATION_CODE_SIZE * i + k] = set[i].five[k];
        must("plan", garage_next(planned, set[i].five, STATION_CODE_SIZE, eight, sizeof eight));
        planned = number_of(eight);
        printf("  %u: ", i);
        say_instruction(&set[i]);
    }
    uint32_t answer = station_request(room, sizeof room, count, bytes, (size_t)STATION_CODE_SIZE * count);
    must("request", answer);
    run_motors(STATION_SET(answer), count);
    printf("  answer 0 (taken) as set %u, %u done\n", STATION_SET(answer), count);
    if (record_now() != planned) {
        printf("stopped: the record isn't the planned one\n");
        exit(1);
    }
    show(held_now());
}

static void one(const char *what, Instruction i) { carry_out(what, &i, 1); }

static void two(const char *what, Instruction i, Instruction j) {
    Instruction set[2];
    set[0] = i;
    set[1] = j;
    carry_out(what, set, 2);
}

/* A set of one instruction whose motor gets stuck: it is answered, so that a second result is none, and the record stays. */
static void gets_stuck(const char *what, Instruction i) {
    uint64_t before = record_now();
    headline(what);
    printf("  0: ");
    say_instruction(&i);
    uint32_t answer = station_request(room, sizeof room, 1, i.five, sizeof i.five);
    must("request", answer);
    must("result", station_result(room, sizeof room, STATION_SET(answer), 0, STATION_STUCK));
    printf("  answer 0 (taken) as set %u, 1 stuck\n", STATION_SET(answer));
    if (record_now() != before || held_now().apart == 0 || STATION_NUMBER(report_done((Report){STATION_SET(answer), 0})) != STATION_NO_SET) {
        printf("stopped: what is stuck isn't set apart\n");
        exit(1);
    }
    show(held_now());
}

/* The planner counts on it that a set of two is refused for its second, which touches what is set apart. */
static void must_keep_off(Instruction i, Instruction j) {
    uint8_t bytes[2 * STATION_CODE_SIZE];
    for (int k = 0; k < STATION_CODE_SIZE; k++) bytes[k] = i.five[k], bytes[STATION_CODE_SIZE + k] = j.five[k];
    uint32_t answer = station_request(room, sizeof room, 2, bytes, sizeof bytes);
    if (STATION_NUMBER(answer) != STATION_SET_APART || STATION_PLACE(answer) != 1) {
        printf("stopped: answered %u at %u\n", STATION_NUMBER(answer), STATION_PLACE(answer));
        exit(1);
    }
    printf("refused with %u (%s) at 1: ", STATION_SET_APART, station_words(STATION_SET_APART));
    say_instruction(&j);
}

/* Somebody has looked, and set right what was stuck: the image says what is there. One that still sets something apart is not taken. */
static void somebody_looked(const char *what, uint64_t seen) {
    headline(what);
    if (STATION_NUMBER(station_image(room, sizeof room, seen, held_now().apart)) != STATION_UNSOUND) {
        printf("stopped: an image that sets something apart is taken\n");
        exit(1);
    }
    must("image", station_image(room, sizeof room, seen, 0));
    printf("  answer 0 (taken)\n");
    show(held_now());
}

/* ---- the plan */

/* Belts of row 1 from the lift to the right shuttle, the same without the lift's, and of row 2 from its middle to the right shuttle. */
enum { TO_SHUTTLE_1 = 1 << 2 | 1 << 3 | 1 << 4, BESIDE_LIFT = 1 << 3 | 1 << 4, MIDDLE_2 = 1 << 1, TO_SHUTTLE_2 = 1 << 1 | 1 << 2 };

/* Rows that a shuttle move names. */
enum { ROWS_1_2 = 1 << 0 | 1 << 1, ROWS_2_3 = 1 << 1 | 1 << 2 };

/* By whole cells until the end is not free: from the lift's cells 11 and 12 to the right shuttle's 18 and 19 are seven half cells, so that
 * one is left then. */
static void along_row_1(int mask, int toward) {
    Instruction whole = belts(1, mask, toward, GARAGE_FULL);
    while (allows(whole, STATION_NOT_FREE)) one("along row 1", whole);
}

static void half_a_cell(int mask, int toward) { one("half a cell more", belts(1, mask, toward, GARAGE_HALF)); }

/* The belts take the car off the shuttle and jam: it may stand on the shuttle still, or on the belt. Beside it the lift goes down and up;
 * nothing touches those belts until somebody has looked. They find that the belts had finished. */
static void jam(void) {
    uint8_t eight[STATION_IMAGE_SIZE];
    Instruction off = belts(2, TO_SHUTTLE_2, GARAGE_LOWER, GARAGE_FULL);
    must("plan", garage_next(record_now(), off.five, sizeof off.five, eight, sizeof eight));
    gets_stuck("off the shuttle, but the belts jam", off);
    must_keep_off(lift(GARAGE_BASEMENT), belts(2, MIDDLE_2, GARAGE_LOWER, GARAGE_FULL));
    must_keep_off(lift(GARAGE_BASEMENT), shuttles(GARAGE_RIGHT, ROWS_2_3, GARAGE_LOWER));
    one("meanwhile the lift down", lift(GARAGE_BASEMENT));
    one("and up again", lift(GARAGE_STREET));
    somebody_looked("somebody looks: the car had come off the shuttle", number_of(eight));
}

static void park(void) {
    drive("a driver begins to drive in", STATION_BEGIN_IN);
    must_refuse(lift(GARAGE_BASEMENT), STATION_OUT_OF_TURN);
    drive("and gives up", STATION_END_NOT_DONE);
    drive("the next one begins", STATION_BEGIN_IN);
    one("meanwhile a belt of row 2", belts(2, MIDDLE_2, GARAGE_HIGHER, GARAGE_FULL));
    drive("the car is in", STATION_END_DONE);
    one("down with the lift", lift(GARAGE_BASEMENT));
    one("off the lift", belts(1, TO_SHUTTLE_1, GARAGE_HIGHER, GARAGE_FULL));
    two("along row 1 beside the lift, which goes up for the next driver", belts(1, BESIDE_LIFT, GARAGE_HIGHER, GARAGE_FULL), lift(GARAGE_STREET));
    along_row_1(BESIDE_LIFT, GARAGE_HIGHER);
    half_a_cell(BESIDE_LIFT, GARAGE_HIGHER);
    /* rows 1 and 2 go together, since row 2 has a shuttle of its own; row 3's is tilted and out of the way */
    one("by the shuttle to row 2", shuttles(GARAGE_RIGHT, ROWS_1_2, GARAGE_HIGHER));
    jam();
    two("further in, and the shuttles back", belts(2, MIDDLE_2, GARAGE_LOWER, GARAGE_FULL), shuttles(GARAGE_RIGHT, ROWS_2_3, GARAGE_LOWER));
}

static void fetch(void) {
    two("the car toward the shuttle, and the shuttles to rows 2 and 3", belts(2, MIDDLE_2, GARAGE_HIGHER, GARAGE_FULL), shuttles(GARAGE_RIGHT, ROWS_1_2, GARAGE_HIGHER));
    one("onto the shuttle", belts(2, TO_SHUTTLE_2, GARAGE_HIGHER, GARAGE_FULL));
    two("by the shuttle to row 1, and the lift down beside it", shuttles(GARAGE_RIGHT, ROWS_2_3, GARAGE_LOWER), lift(GARAGE_BASEMENT));
    along_row_1(TO_SHUTTLE_1, GARAGE_LOWER);
    /* what stands half on the lift still keeps it down */
    if (allows(lift(GARAGE_STREET), STATION_ODD_COUNT)) exit(1);
    half_a_cell(TO_SHUTTLE_1, GARAGE_LOWER);
    one("up with the lift", lift(GARAGE_STREET));
    drive("the driver begins to drive out", STATION_BEGIN_OUT);
    drive("the car is out", STATION_END_DONE);
}

int main(void) {
    must("start", station_start(room, sizeof room));
    printf("start\n");
    show(held_now());
    park();
    printf("parked\n");
    fetch();
    printf("%s\n", record_now() == STATION_START_IMAGE ? "the garage is as it was at the start" : "the garage differs from the start");
    return record_now() == STATION_START_IMAGE ? 0 : 1;
}

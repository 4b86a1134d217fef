/* The entries of station.h, report.h and panel.h under a coverage-guided fuzzer, against the reference. An input is a small program: each
 * of its bytes picks a call on one kept station and totals beside it, or damage to them, and the next ones are what the call is given. What
 * the call returns and what it leaves of every byte that it was lent must be what the reference says; and the same of the plain engine, on
 * the same bytes. `seeds` has programs, and how they are written. */
#define _GNU_SOURCE /* memfd_create */
#define SIDE STATION_SIDE
#include "compare.h"
#include "panel_command.h"
#include "report.h"

/* The reference's side, src/station.rs. */
uint16_t reference_reason(const struct command *command, uint32_t answer);
bool reference_refuses(uint8_t opcode, uint8_t number);

/* Where the record has the lift's car, height and drives, and the shuttles' slots. */
enum { LIFT_AT = 52, SLOTS_AT = 40 };

/* The report's entries, behind the station's. The station stands in the room, the totals that are counted in and the text in the run to
 * write; the totals that are only read in the run to read. Behind them the plain station's and the panel's, as panel_command.h numbers them. */
enum { REPORT_START = ENTRIES, REPORT_MESSAGE, REPORT_LINES, PLAIN_AT, ALL_ENTRIES = PLAIN_AT + PANEL_ENTRIES };

enum { NUMBERS = REPORT_FULL + 1, OPCODES = GARAGE_ROTATE + 1, SORTS = 32 };

/* ---- what was reached */

static uint64_t calls;
static bool seen[ALL_ENTRIES][NUMBERS], refused[OPCODES][NUMBERS];
static uint64_t handed[ENTRIES][SORTS]; /* how often an entry was called on each sort of handed-in station */

/* Told to the fuzzer beside the code that was reached: an input is kept where one of these is new. */
static struct {
    uint8_t answers[ALL_ENTRIES][NUMBERS];
    uint8_t reasons[OPCODES][NUMBERS];
    uint8_t handed[ENTRIES][SORTS];
    uint8_t cars[32];
    uint8_t lift[32];
    uint8_t shuttles[2][64];
    uint8_t outstanding[STATION_MOST + 1][STATION_MOST + 1];
    uint8_t apart[64];
} reached __attribute__((section("__libfuzzer_extra_counters")));

/* A call, the sort of station that it was made on (past the last, none of them), and its answer. */
static void tell(const struct command *command, uint8_t sort, uint32_t answer) {
    uint8_t number = STATION_NUMBER(answer);
    calls++;
    if (number < NUMBERS)
        reached.answers[command->entry][number] = seen[command->entry][number] = true;
    if (command->entry >= ENTRIES)
        return;
    uint16_t reason = reference_reason(command, answer);
    if (sort < reference_sorts(SIDE) && reference_shows(SIDE, sort, number)) {
        reached.handed[command->entry][sort] = 1;
        handed[command->entry][sort]++;
    }
    if (reason != 0)
        reached.reasons[reason >> 8][number] = refused[reason >> 8][number] = true;
}

/* Says whether each entry gave every number that it can give, and no other, each opcode was refused for all that it can be on a sound
 * record, and each call that tests a station was made on every sort of handed-in one; if not, too little was tried. */
static void summary(void) {
    bool all = true;
    uint64_t fewest = UINT64_MAX;
    for (uint8_t entry = REQUEST; entry <= MESSAGE; entry++)
        for (uint8_t sort = 0; sort < reference_sorts(SIDE); sort++) {
            if (handed[entry][sort] == 0) {
                fprintf(stderr, "entry %d was never called on a station of sort %d\n", entry, sort);
                all = false;
            }
            fewest = handed[entry][sort] < fewest ? handed[entry][sort] : fewest;
        }
    fprintf(stderr, "reached: sorts of handed-in stations: %d, each call on each %llu times or more\n", reference_sorts(SIDE), (unsigned long long)fewest);
    for (uint8_t opcode = 0; opcode < OPCODES; opcode++)
        for (uint8_t number = 0; number < NUMBERS; number++)
            if (reference_refuses(opcode, number) != refused[opcode][number]) {
                fprintf(stderr, "opcode %d was %s with %d\n", opcode, refused[opcode][number] ? "refused" : "never refused", number);
                all = false;
            }
    for (uint8_t entry = 0; entry < ALL_ENTRIES; entry++)
        for (uint8_t number = 0; number < NUMBERS; number++)
            if (entry != CARS && entry != VERSION && reference_gives(SIDE, entry, number) != seen[entry][number]) {
                fprintf(stderr, "entry %d %s %d\n", entry, seen[entry][number] ? "gave" : "never gave", number);
                all = false;
            }
    fprintf(stderr, "calls compared: %llu, %s\n", (unsigned long long)calls, all ? "every number and reason came" : "some are amiss");
}

/* ---- what compare.h asks for */

/* Makes the call. */
static uint32_t call_any(const struct command *c) {
    switch (c->entry) {
    case REPORT_START: return report_start(LENT(c->out));
    case REPORT_MESSAGE: return report_message(LENT(c->out), LENT(c->room), LENT(c->in));
    case REPORT_LINES: return report_lines(LENT(c->in), c->first, LENT(c->out));
    default: break;
    }
    if (c->entry < PLAIN_AT)
        return call_entry(c);
    struct command plain = *c;
    plain.entry -= PLAIN_AT;
    return call_panel(&plain);
}

/* Whether an entry may write a run at all. A call that isn't taken writes nothing; of a message that isn't, the refusal is written, and the
 * station's room is not; nor do questions and the report's calls write that. */
static bool may_write(uint8_t entry, int run, uint32_t answer) {
    uint8_t number = STATION_NUMBER(answer);
    switch (run) {
    case 0: return number == STATION_TAKEN && entry != ASK && (entry < SOUND || (PLAIN_AT <= entry && entry < PLAIN_AT + PANEL_CONDITION));
    case 2: return number == STATION_TAKEN || (entry == MESSAGE && number != STATION_NO_ROOM);
    default: return false;
    }
}

/* ---- the plain engine beside the packed one */

/* A size with some more, as far as a run goes. */
static size_t with_more(size_t size, size_t more) { return size + more < RUN_MOST ? size + more : RUN_MOST; }

/* What the plain engine says on the bytes that a call is about to be made on: of a call on the station the same; of a question on a record
 * the next one, each condition and one past them, or the cars. The panel's rooms have other sizes than the questions'. */
static void compare_plain(const struct command *command, unsigned places) {
    uint8_t room[RUN_MOST], out[RUN_MOST];
    struct command plain = *command;
    plain.room.bytes = room, plain.out.bytes = out;
    memcpy(room, command->room.bytes, command->room.size);
    memset(out, 0xA5, sizeof out);
    switch (command->entry) {
    case REQUEST: plain.entry = PLAIN_AT + PLAIN_REQUEST; break;
    case EVENT: plain.entry = PLAIN_AT + PLAIN_EVENT; break;
    case RESULT: plain.entry = PLAIN_AT + PLAIN_RESULT; break;
    case NEXT: plain.entry = PLAIN_AT + PANEL_NEXT; break;
    case ALLOWED:
        plain.entry = PLAIN_AT + PANEL_CONDITION;
        plain.out.size = with_more(command->out.size, PANEL_CONDITION_SIZE - STATION_IMAGE_SIZE);
        for (plain.first = 0; plain.first < PANEL_CONDITIONS_MOST; plain.first++)
            compare(&plain, places);
        plain.first += command->first;
        break;
    case CARS:
        plain.entry = PLAIN_AT + PANEL_CARS_OF;
        plain.out.size = with_more(command->out.size, PANEL_CARS_SIZE - STATION_IMAGE_SIZE);
        break;
    default: return;
    }
    compare(&plain, places);
}

/* ---- questions for building sets */

/* They are asked beside other calls, on the same bytes: beside a question on an instruction for its area; beside a request whether its
 * first instruction and what stands behind it may stand in one set; beside a start for the version. */
static void compare_sets(const struct command *command, unsigned places) {
    uint8_t other[RUN_MOST], out[RUN_MOST];
    struct command asked = *command;
    asked.out.bytes = out;
    memset(out, 0xA5, sizeof out);
    switch (command->entry) {
    case START: asked.entry = VERSION; break;
    case ALLOWED:
    case NEXT: asked.entry = AREA; break;
    case REQUEST:
        asked.entry = OVERLAP;
        if (asked.in.size > STATION_CODE_SIZE)
            asked.in.size = STATION_CODE_SIZE;
        asked.room = (struct lent){other, command->in.size - asked.in.size};
        memcpy(other, command->in.bytes + asked.in.size, asked.room.size);
        break;
    default: return;
    }
    compare(&asked, places);
}

/* ---- the steps of a program */

/* One call of an entry on the kept station. An unusual one is given any bytes and any lengths. */
static void one_call(uint8_t entry, unsigned places, bool unusual) {
    uint8_t in[RUN_MOST] = {0}, out[RUN_MOST];
    struct command command = {.entry = entry, .room = {kept, STATION_SIZE}, .in = {in, 0}, .out = {out, STATION_IMAGE_SIZE}};
    memset(out, 0xA5, sizeof out);
    switch (entry) {
    case REQUEST:
        command.first = take_set(in);
        command.in.size = STATION_CODE_SIZE * (size_t)command.first;
        break;
    case EVENT:
        command.first = (uint8_t)(STATION_BEGIN_IN + take() % 4);
        break;
    case RESULT: {
        uint8_t byte = take();
        command.first = byte & 15, command.second = byte >> 7 ? STATION_FAILED : STATION_DONE;
        if (command.first >= 12)
            command.first -= 12, command.second = STATION_STUCK;
        command.issue = take_issue(byte >> 4 & 7);
        break;
    }
    case ASK:
        command.out.size = STATION_SHOWN_SIZE;
        break;
    case MESSAGE:
        command.in.size = take_message(in);
        command.out.size = STATION_REPLY_MOST;
        break;
    case ALLOWED:
    case NEXT:
        take_five(in);
        command.in.size = STATION_CODE_SIZE;
        /* fall through */
    case IMAGE:
    case SOUND:
    case CARS:
        command.image = take_image();
        break;
    default:
        break;
    }
    if (unusual) {
        /* some of these, by the bits of one byte */
        uint8_t which = take();
        if (which & 1) command.room.size = take_size();
        if (which & 2) command.in.size = take_size();
        if (which & 4) command.out.size = take_size();
        if (which & 8) command.first = take();
        if (which & 16) command.second = take();
        if (which & 32) damage(in, 64);
        if (which & 64) damage(kept, 64);
        if (which & 128) command.apart = take_number();
    }
    compare_plain(&command, places);
    compare_sets(&command, places);
    compare(&command, places);
}

/* Reports each outstanding instruction done, from the first on or from the last back. */
static void settle(unsigned places, bool backward) {
    uint8_t none[1], count = kept[SET_AT] <= STATION_MOST ? kept[SET_AT] : 0;
    for (uint8_t at = 0; at < count; at++) {
        struct command command = {.entry = RESULT, .first = backward ? (uint8_t)(count - 1 - at) : at, .second = STATION_DONE,
                                  .issue = present_issue(), .room = {kept, STATION_SIZE}, .in = {none, 0}, .out = {none, 0}};
        compare_plain(&command, places);
        compare(&command, places);
    }
}

/* One call of the report's on the kept totals and station, with what a byte of bits says: sizes, a total at its end or one before, and for
 * the text any place as the one that is full. */
static void report_call(uint8_t entry, unsigned places) {
    uint8_t in[RUN_MOST] = {0}, out[RUN_MOST], which = take();
    struct command command = {.entry = entry, .first = REPORT_NONE, .room = {kept, 0}, .in = {in, 0}, .out = {totals, REPORT_TOTALS}};
    memset(out, 0xA5, sizeof out);
    if (which & 8) {
        uint8_t byte = take(), *total = totals + 4 * (byte % REPORT_PLACES);
        memset(total, 0xFF, 4);
        total[0] = byte >> 7 ? 0xFE : 0xFF;
    }
    switch (entry) {
    case REPORT_MESSAGE:
        command.room.size = STATION_SIZE;
        command.in.size = take_message(in);
        break;
    case REPORT_LINES:
        command.in = (struct lent){totals, REPORT_TOTALS};
        command.out = (struct lent){out, REPORT_TEXT_MOST};
        if (which & 16) command.first = take();
        break;
    default:
        break;
    }
    if (which & 1) command.room.size = take_size();
    if (which & 2) command.in.size = take_size_near(command.in.size);
    if (which & 4) command.out.size = take_size_near(command.out.size);
    compare(&command, places);
}

/* Damage that no call does, marks, the next issue or what is set apart among it, calls in a row, and the report's calls; numbered behind the
 * entries that a step picks. */
enum { NEW_RECORD = NEXT + 1, NEW_SET, NEW_MARKS, NEW_STATION, SETTLE };

static void one_step(void) {
    uint8_t pick = take();
    unsigned places = pick >> 4 & 7;
    if (pick >> 7) {
        switch (pick & 15) {
        case NEW_RECORD: report_call(REPORT_START, places); return;
        case NEW_SET: report_call(REPORT_MESSAGE, places); return;
        case NEW_STATION: report_call(REPORT_LINES, places); return;
        default: break;
        }
    }
    switch (pick & 15) {
    case NEW_RECORD:
        put_number(kept, take_image());
        break;
    case NEW_SET:
        put_set();
        break;
    case NEW_MARKS:
        if (pick >> 7)
            take_run(kept + ISSUE_AT, 2);
        else if (places & 1)
            take_run(kept + APART_AT, STATION_SIZE - APART_AT);
        else
            kept[MARKS_AT] = take();
        break;
    case NEW_STATION:
        take_run(kept, STATION_SIZE);
        break;
    case SETTLE:
        settle(places, pick >> 7);
        break;
    default:
        one_call(pick & 15, places, pick >> 7);
    }
}

static void tell_station(void) {
    uint64_t record = number_of(kept);
    uint8_t marks = 0;
    for (uint8_t left = kept[MARKS_AT]; left != 0; left &= (uint8_t)(left - 1))
        marks++;
    reached.cars[garage_cars(record) % 32] = 1;
    reached.lift[record >> LIFT_AT & 31] = 1;
    for (int side = 0; side < 2; side++)
        reached.shuttles[side][(record >> (SLOTS_AT + 3 * side) & 7) | (record >> (SLOTS_AT + 6 + 3 * side) & 7) << 3] = 1;
    uint64_t apart = number_of(kept + APART_AT);
    for (int part = 0; part < 64; part++)
        reached.apart[part] |= (uint8_t)(apart >> part & 1);
    if (kept[SET_AT] <= STATION_MOST)
        reached.outstanding[kept[SET_AT]][marks] = 1;
}

int LLVMFuzzerTestOneInput(const uint8_t *data, size_t size) {
    input = data, input_left = size;
    memset(kept, 0x5A, sizeof kept);
    memset(totals, 0, sizeof totals);
    one_call(START, size % 2, false);
    while (input_left > 0) {
        one_step();
        tell_station();
    }
    return 0;
}

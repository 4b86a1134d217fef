/* The entries of desk.h under a coverage-guided fuzzer, against the reference, as harness.c has those of station.h: each byte of an input
 * picks a call on one kept desk, or damage to it, and the next ones are what the call is given. `desk_seeds` has programs, and how they
 * are written. */
#define _GNU_SOURCE /* memfd_create */
#define SIDE DESK_SIDE
#include "compare.h"
#include "desk_command.h"

enum { NUMBERS = DESK_WRONG_COUNT + 1, SORTS = 32, DRIVE_IN = 55, UNWRITTEN = 0xA5 };

/* ---- what was reached */

static uint64_t calls;
static bool seen[DESK_ENTRIES][NUMBERS];
static uint64_t handed[DESK_ENTRIES][SORTS]; /* how often an entry was called on each sort of handed-in desk */
static bool told[2][DESK_NOT_HERE + 1];      /* which places were told, for sure and as the last known ones */

/* Told to the fuzzer beside the code that was reached: an input is kept where one of these is new. */
static struct {
    uint8_t answers[DESK_ENTRIES][NUMBERS];
    uint8_t handed[DESK_ENTRIES][SORTS];
    uint8_t told[2][DESK_NOT_HERE + 1];
    uint8_t cars[DESK_PLACES + 1];
} reached __attribute__((section("__libfuzzer_extra_counters")));

/* A call, the sort of desk that it was made on (past the last, none of them), and its answer. */
static void tell(const struct command *command, uint8_t sort, uint32_t answer) {
    uint8_t number = STATION_NUMBER(answer), entry = command->entry, last = (uint8_t)DESK_LAST_KNOWN(answer);
    calls++;
    if (number < NUMBERS)
        reached.answers[entry][number] = seen[entry][number] = true;
    if (sort < reference_sorts(SIDE) && reference_shows(SIDE, sort, number)) {
        reached.handed[entry][sort] = 1;
        handed[entry][sort]++;
    }
    if (entry == DESK_WHERE && number == STATION_TAKEN)
        reached.told[last][STATION_PLACE(answer)] = told[last][STATION_PLACE(answer)] = true;
}

/* Says whether each entry gave every number that it can give, and no other, each call that tests a desk was made on every sort of handed-in
 * one, and a car was told in each row, on the raised lift and nowhere, for sure and, but for the last, at its last known place. */
static void summary(void) {
    bool all = true;
    uint64_t fewest = UINT64_MAX;
    for (uint8_t entry = 0; entry < DESK_ENTRIES; entry++) {
        for (uint8_t number = 0; number < NUMBERS; number++)
            if (reference_gives(SIDE, entry, number) != seen[entry][number]) {
                fprintf(stderr, "entry %d %s %d\n", entry, seen[entry][number] ? "gave" : "never gave", number);
                all = false;
            }
        for (uint8_t sort = 0; entry != DESK_START && sort < reference_sorts(SIDE); sort++) {
            if (handed[entry][sort] == 0) {
                fprintf(stderr, "entry %d was never called on a desk of sort %d\n", entry, sort);
                all = false;
            }
            fewest = handed[entry][sort] < fewest ? handed[entry][sort] : fewest;
        }
    }
    for (int last = 0; last < 2; last++) {
        bool row[3] = {false, false, false};
        for (int cell = 0; cell < DESK_AT_LIFT; cell++)
            row[cell < 20 ? 0 : cell / 10 - 1] |= told[last][cell];
        if (!row[0] || !row[1] || !row[2] || !told[last][DESK_RAISED] || told[last][DESK_NOT_HERE] == (last == 1)) {
            fprintf(stderr, "entry %d did not tell every sort of place\n", DESK_WHERE);
            all = false;
        }
    }
    fprintf(stderr, "reached: sorts of handed-in desks: %d, each call on each %llu times or more\n", reference_sorts(SIDE), (unsigned long long)fewest);
    fprintf(stderr, "calls compared: %llu, %s\n", (unsigned long long)calls, all ? "every number and reason came" : "some are amiss");
}

/* ---- what compare.h asks for */

static uint32_t call_any(const struct command *c) { return call_desk(c); }

/* A call that isn't taken writes nothing, and a question never writes the desk. */
static bool may_write(uint8_t entry, int run, uint32_t answer) {
    bool asks = entry >= DESK_ASK;
    return STATION_NUMBER(answer) == STATION_TAKEN && ((run == 0 && !asks) || (run == 2 && asks));
}

/* ---- cards */

static uint8_t *number_at(size_t place) { return kept + STATION_SIZE + DESK_CARD_SIZE * place; }

static void put_card(uint8_t *four, uint32_t card) {
    for (int at = 0; at < DESK_CARD_SIZE; at++)
        four[at] = (uint8_t)(card >> (8 * at));
}

/* A card's number, by a byte: that of a place of the kept desk, a small one, or with the highest any four bytes. */
static uint32_t take_card(void) {
    uint8_t pick = take(), four[DESK_CARD_SIZE];
    if (pick < DESK_PLACES)
        return DESK_CARD(kept, pick);
    if (pick != 0xFF)
        return pick - DESK_PLACES;
    take_run(four, sizeof four);
    return four[0] | (uint32_t)four[1] << 8 | (uint32_t)four[2] << 16 | (uint32_t)four[3] << 24;
}

/* The places of a desk that bear a number by an image, in order; gives how many. */
static size_t bearing(uint64_t image, uint8_t *places) {
    size_t count = 0;
    for (uint8_t cell = 0; cell < DESK_AT_LIFT; cell++)
        if (image >> cell & 1) {
            places[count++] = cell;
            cell += cell < 20; /* a car of row 1 has the next one too */
        }
    if (image & RAISED)
        places[count++] = DESK_AT_LIFT;
    if (image >> DRIVE_IN & 1)
        places[count++] = DESK_AT_DRIVE;
    return count;
}

/* The numbers for an image: the kept desk's where it has one at that place, else one of the place's own. By a byte of bits some are
 * changed: one more, one less, one a zero, one like another, two exchanged, one another card, another count, fewer bytes. Gives the count;
 * the size is how many bytes are lent. */
static uint8_t take_cards(uint64_t image, uint8_t *cards, size_t *size) {
    uint8_t places[DESK_PLACES], which = take();
    size_t count = bearing(image, places);
    for (size_t at = 0; at < count; at++) {
        uint32_t card = DESK_CARD(kept, places[at]);
        put_card(cards + DESK_CARD_SIZE * at, card != 0 ? card : 0x1000u + places[at]);
    }
    if (which & 1) put_card(cards + DESK_CARD_SIZE * count++, take_card());
    if (which & 2 && count > 0) count--;
    if (which & 4 && count > 0) put_card(cards + DESK_CARD_SIZE * (take() % count), 0);
    if (which & 8 && count > 0) {
        size_t from = take() % count, to = take() % count;
        memmove(cards + DESK_CARD_SIZE * to, cards + DESK_CARD_SIZE * from, DESK_CARD_SIZE);
    }
    if (which & 64 && count > 0) {
        uint8_t *one = cards + DESK_CARD_SIZE * (take() % count), *other = cards + DESK_CARD_SIZE * (take() % count), four[DESK_CARD_SIZE];
        memcpy(four, one, sizeof four);
        memmove(one, other, sizeof four);
        memcpy(other, four, sizeof four);
    }
    if (which & 128 && count > 0) {
        uint8_t *one = cards + DESK_CARD_SIZE * (take() % count);
        put_card(one, take_card());
    }
    *size = DESK_CARD_SIZE * count;
    uint8_t given = which & 16 ? take() : (uint8_t)count;
    if (which & 32) *size = take_size();
    return given;
}

/* ---- the steps of a program */

/* The question that is asked before a call, with all that the call is given: before an image what it would change, before the record what is
 * outstanding, and before the card that is leaving all of them. */
static void ask_before(const struct command *command, unsigned places, bool any_size) {
    static const struct {
        uint8_t entry;
        size_t size;
    } asked[DESK_ENTRIES] = {
        [DESK_IMAGE] = {DESK_COMPARE, DESK_CHANGES_SIZE}, [DESK_ASK] = {DESK_OUTSTANDING, DESK_OPEN_SIZE}, [DESK_LEAVING] = {DESK_LIST, DESK_LIST_SIZE}};
    struct command question = *command;
    question.entry = asked[command->entry].entry;
    if (question.entry == DESK_START)
        return;
    if (!any_size) question.out.size = asked[command->entry].size;
    compare(&question, places);
    memset(question.out.bytes, UNWRITTEN, question.out.size);
}

/* One call of an entry on the kept desk. An unusual one is given any bytes and any lengths. */
static void one_call(uint8_t entry, unsigned places, bool unusual) {
    uint8_t in[RUN_MOST] = {0}, out[RUN_MOST];
    struct command command = {.entry = entry, .room = {kept, DESK_SIZE}, .in = {in, 0}, .out = {out, 0}};
    bool any_size = false;
    memset(out, UNWRITTEN, sizeof out);
    switch (entry) {
    case DESK_REQUEST:
        command.first = take_set(in);
        command.in.size = STATION_CODE_SIZE * (size_t)command.first;
        break;
    case DESK_EVENT:
        command.first = (uint8_t)(STATION_BEGIN_IN + take() % 4);
        command.card = take_card();
        break;
    case DESK_RESULT: {
        uint8_t byte = take();
        command.first = byte & 7, command.second = byte >> 3 & 3, command.issue = take_issue(byte >> 5);
        break;
    }
    case DESK_IMAGE:
        command.image = take_image();
        command.first = take_cards(command.image, in, &command.in.size);
        break;
    case DESK_ASK:
        command.out.size = STATION_SHOWN_SIZE;
        break;
    case DESK_WHERE:
        command.card = take_card();
        break;
    case DESK_LEAVING:
        command.out.size = DESK_CARD_SIZE;
        break;
    default:
        break;
    }
    if (unusual) {
        /* some of these, by the bits of one byte */
        uint8_t which = take();
        if (which & 1) command.room.size = take_size_near(DESK_SIZE);
        if (which & 2) command.in.size = take_size();
        if (which & 4) command.out.size = take_size();
        if (which & 8) command.first = take();
        if (which & 16) command.second = take();
        if (which & 32) damage(in, 64);
        if (which & 64) damage(kept, STATION_SIZE);
        if (which & 128) command.apart = take_number();
        any_size = which & 4;
    }
    ask_before(&command, places, any_size);
    compare(&command, places);
}

/* Reports each outstanding instruction as it is told, from the first on or from the last back. */
static void settle(unsigned places, bool backward, uint8_t ending) {
    uint8_t none[1], count = kept[SET_AT] <= STATION_MOST ? kept[SET_AT] : 0;
    for (uint8_t at = 0; at < count; at++) {
        struct command command = {.entry = DESK_RESULT, .first = backward ? (uint8_t)(count - 1 - at) : at, .second = ending,
                                  .issue = present_issue(), .room = {kept, DESK_SIZE}, .in = {none, 0}, .out = {none, 0}};
        compare(&command, places);
    }
}

/* Asks where the number of each place is. */
static void ask_all(unsigned places) {
    uint8_t none[1];
    for (uint8_t place = 0; place < DESK_PLACES; place++) {
        uint32_t card = DESK_CARD(kept, place);
        struct command command = {.entry = DESK_WHERE, .card = card, .room = {kept, DESK_SIZE}, .in = {none, 0}, .out = {none, 0}};
        if (place == 0 || card != 0)
            compare(&command, places);
    }
}

/* Damage that no call does, numbers among it, and calls in a row; numbered behind the entries that a byte picks, the last of which is
 * DESK_LEAVING. */
enum { NEW_RECORD = DESK_LEAVING + 1, NEW_SET, NEW_APART, NEW_NUMBER, ALL_NUMBERS, SETTLE, STICK, ASK_ALL };

static void one_step(void) {
    uint8_t pick = take(), fitting[DESK_PLACES];
    unsigned places = pick >> 4 & 7;
    switch (pick & 15) {
    case NEW_RECORD:
        put_number(kept, take_image());
        break;
    case NEW_SET:
        put_set();
        break;
    case NEW_APART:
        put_number(kept + APART_AT, pick >> 7 ? take_number() : UINT64_C(1) << take() % 64);
        break;
    case NEW_NUMBER:
        put_card(number_at(take() % DESK_PLACES), take_card());
        break;
    case ALL_NUMBERS:
        /* numbers that fit the record, whatever was there */
        memset(number_at(0), 0, DESK_SIZE - STATION_SIZE);
        for (size_t at = 0, count = bearing(number_of(kept), fitting); at < count; at++)
            put_card(number_at(fitting[at]), 0x01010101u * (1u + fitting[at]));
        break;
    case SETTLE:
        settle(places, pick >> 7, STATION_DONE);
        break;
    case STICK:
        settle(places, pick >> 7, STATION_STUCK);
        break;
    case ASK_ALL:
        ask_all(places);
        break;
    default:
        one_call(pick & 15, places, pick >> 7);
    }
}

int LLVMFuzzerTestOneInput(const uint8_t *data, size_t size) {
    input = data, input_left = size;
    memset(kept, 0x5A, sizeof kept);
    one_call(DESK_START, size % 2, false);
    while (input_left > 0) {
        size_t cars = 0;
        one_step();
        for (uint8_t place = 0; place < DESK_PLACES; place++)
            cars += DESK_CARD(kept, place) != 0;
        reached.cars[cars] = 1;
    }
    return 0;
}

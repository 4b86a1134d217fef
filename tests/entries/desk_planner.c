/* A small planner over desk.h that knows cars by their cards. It lets three cars in by card, parks them one behind the other in row 2,
 * fetches the middle one past the last and lets it out; after each step it asks where each of them is, and which card is leaving. Numbers
 * that can't be are refused: 0, and one that is in the garage; a driver who gives up takes his number with him. On the way a belt jams with
 * a car on it: from then on that car is told at its last known place, and the others for sure, until somebody has looked and sent an image
 * with the numbers of the cars, of which three wrong lists are refused. When its car has left, a number comes again. Every answer is
 * checked: the first one that the planner doesn't count on ends the run with a message. */
#include "planner.h"

#include <string.h>

/* The cards of the three cars in the order in which they come, and of a driver who gives up. */
enum { FIRST = 7001, MIDDLE = 7002, LAST = 7003, NEVER_IN = 7009 };
static const uint32_t cards[] = {FIRST, MIDDLE, LAST};
enum { CARDS = sizeof cards / sizeof *cards };

static uint8_t room[DESK_SIZE];

/* ---- what is asked after each step */

static void stop(const char *why) {
    printf("stopped: %s\n", why);
    exit(1);
}

static Held held_now(void) {
    uint8_t both[STATION_SHOWN_SIZE];
    must("ask", desk_ask(room, sizeof room, both, sizeof both));
    return (Held){number_of(both), number_of(both + STATION_IMAGE_SIZE)};
}

static uint32_t where(uint32_t card) {
    uint32_t answer = desk_where(room, sizeof room, card);
    must("where", answer);
    return answer;
}

static uint32_t leaving(void) {
    uint8_t four[DESK_CARD_SIZE];
    must("leaving", desk_leaving(room, sizeof room, four, sizeof four));
    return four[0] | (uint32_t)four[1] << 8 | (uint32_t)four[2] << 16 | (uint32_t)four[3] << 24;
}

static void say_where(uint32_t card) {
    uint32_t answer = where(card);
    unsigned place = STATION_PLACE(answer);
    printf("  card  %" PRIu32 ": ", card);
    if (place == DESK_NOT_HERE)
        printf("not here");
    else if (place == DESK_RAISED)
        printf("on the raised lift");
    else if (place < 20)
        printf("row 1, cells %u and %u", place, place + 1);
    else
        printf("row %u, cell %u", place / 10, place);
    if (DESK_MOVING(answer))
        printf(", in motion to %u", DESK_MOVING_TO(answer));
    printf("%s\n", DESK_LAST_KNOWN(answer) ? ", at its last known place" : "");
}

static void show_desk(void) {
    show(held_now());
    for (int at = 0; at < CARDS; at++)
        say_where(cards[at]);
    if (leaving() != 0)
        printf("  leaving %" PRIu32 "\n", leaving());
}

/* ---- the calls, each with its check */

static void drive(const char *what, uint8_t event, uint32_t card) {
    headline(what);
    must("event", desk_event(room, sizeof room, event, card));
    printf("  answer 0 (taken)\n");
    show_desk();
}

/* The planner counts on it that a call is refused with a number, names no instruction and changes nothing. */
static void must_refuse(const char *what, unsigned number, uint32_t answer, const uint8_t *before) {
    if (STATION_NUMBER(answer) != number || STATION_PLACE(answer) != STATION_NOWHERE || memcmp(room, before, sizeof room) != 0)
        stop(what);
    printf("refused with %u (%s): %s\n", number, station_words(number), what);
}

static void must_not_begin(const char *what, uint32_t card, unsigned number) {
    uint8_t before[DESK_SIZE];
    memcpy(before, room, sizeof room);
    must_refuse(what, number, desk_event(room, sizeof room, STATION_BEGIN_IN, card), before);
}

static uint16_t request(Instruction i) {
    uint32_t answer = desk_request(room, sizeof room, 1, i.five, sizeof i.five);
    must("request", answer);
    printf("  0: ");
    say_instruction(&i);
    return STATION_SET(answer);
}

/* One instruction: while it is under way no car has moved for the desk; when it is done they have. */
static void one(const char *what, Instruction i) {
    uint32_t before[CARDS];
    headline(what);
    for (int at = 0; at < CARDS; at++)
        before[at] = where(cards[at]);
    uint16_t issue = request(i);
    for (int at = 0; at < CARDS; at++)
        if (STATION_PLACE(where(cards[at])) != STATION_PLACE(before[at])) stop("a number moved before its car");
    must("result", desk_result(room, sizeof room, issue, 0, STATION_DONE));
    printf("  answer 0 (taken) as set %u, 1 done\n", issue);
    show_desk();
}

static void gets_stuck(const char *what, Instruction i) {
    headline(what);
    uint16_t issue = request(i);
    must("result", desk_result(room, sizeof room, issue, 0, STATION_STUCK));
    printf("  answer 0 (taken) as set %u, 1 stuck\n", issue);
    show_desk();
}

static void must_keep_off(Instruction i) {
    uint32_t answer = desk_request(room, sizeof room, 1, i.five, sizeof i.five);
    if (STATION_NUMBER(answer) != STATION_SET_APART) stop("what is set apart is touched");
    printf("refused with %u (%s): ", STATION_SET_APART, station_words(STATION_SET_APART));
    say_instruction(&i);
}

/* ---- an image with its numbers */

/* A car as whoever looks writes it down: where it stands, in row 1 by the lower of its cells, on the raised lift as DESK_RAISED; and its
 * card. */
typedef struct {
    unsigned place;
    uint32_t card;
} Seen;

static int by_place(const void *a, const void *b) {
    unsigned x = ((const Seen *)a)->place, y = ((const Seen *)b)->place;
    return (x > y) - (x < y);
}

/* The image with the numbers of the cars that were seen, in the order of their places. */
static uint32_t image(uint64_t record, const Seen *seen, uint8_t count) {
    Seen sorted[DESK_CARDS_MOST];
    uint8_t bytes[DESK_CARD_SIZE * DESK_CARDS_MOST];
    memcpy(sorted, seen, count * sizeof *seen);
    qsort(sorted, count, sizeof *sorted, by_place);
    for (int at = 0; at < DESK_CARD_SIZE * count; at++)
        bytes[at] = (uint8_t)(sorted[at / DESK_CARD_SIZE].card >> 8 * (at % DESK_CARD_SIZE));
    return desk_image(room, sizeof room, record, 0, count, bytes, (size_t)DESK_CARD_SIZE * count);
}

/* Three cars are seen. A list that leaves one out, has one twice, or has one without its number is refused; the right one is taken. */
static void somebody_looked(const char *what, uint64_t record, const Seen *three) {
    Seen wrong[3] = {three[0], three[1], three[2]};
    uint8_t before[DESK_SIZE];
    memcpy(before, room, sizeof room);
    must_refuse("a list that leaves a car out", DESK_WRONG_COUNT, image(record, three, 2), before);
    wrong[2].card = wrong[1].card;
    must_refuse("a list with a card twice", DESK_KNOWN_NUMBER, image(record, wrong, 3), before);
    wrong[0].card = 0;
    must_refuse("a list with a card twice and a car without its own", DESK_ZERO_NUMBER, image(record, wrong, 3), before);
    headline(what);
    must("image", image(record, three, 3));
    printf("  answer 0 (taken)\n");
    show_desk();
}

/* ---- the plan */

/* Belts of row 1 from the lift to the right shuttle, of rows 2 and 3 from the middle to the right shuttle; rows that a shuttle move
 * names. */
enum { TO_SHUTTLE_1 = 1 << 2 | 1 << 3 | 1 << 4, TO_SHUTTLE = 1 << 1 | 1 << 2, ROWS_1_2 = 1 << 0 | 1 << 1, ROWS_2_3 = 1 << 1 | 1 << 2 };

/* From the lift's cells to the right shuttle's are seven half cells: three whole moves and a half one. */
static void along_row_1(int toward) {
    for (int whole = 0; whole < 3; whole++)
        one("along row 1", belts(1, TO_SHUTTLE_1, toward, GARAGE_FULL));
    one("half a cell more", belts(1, TO_SHUTTLE_1, toward, GARAGE_HALF));
}

static void park(uint32_t card) {
    drive("a driver begins to drive in", STATION_BEGIN_IN, card);
    drive("the car is in", STATION_END_DONE, 0);
    one("down with the lift", lift(GARAGE_BASEMENT));
    along_row_1(GARAGE_HIGHER);
    one("by the shuttle to row 2", shuttles(GARAGE_RIGHT, ROWS_1_2, GARAGE_HIGHER));
    one("off the shuttle, and those before it further in", belts(2, TO_SHUTTLE, GARAGE_LOWER, GARAGE_FULL));
    one("the shuttles back", shuttles(GARAGE_RIGHT, ROWS_2_3, GARAGE_LOWER));
    one("the lift up", lift(GARAGE_STREET));
}

/* The last car goes to row 3, where the belts jam with it; meanwhile the middle one goes to the shuttle of row 2. They find that the belts
 * of row 3 had finished. */
static void past_the_last(void) {
    uint8_t eight[STATION_IMAGE_SIZE];
    Instruction off = belts(3, TO_SHUTTLE, GARAGE_LOWER, GARAGE_FULL);
    one("the last car onto the shuttle", belts(2, TO_SHUTTLE, GARAGE_HIGHER, GARAGE_FULL));
    one("by the shuttle to row 3", shuttles(GARAGE_RIGHT, ROWS_1_2, GARAGE_HIGHER));
    gets_stuck("off the shuttle, but the belts jam", off);
    one("meanwhile the middle car onto the other shuttle", belts(2, TO_SHUTTLE, GARAGE_HIGHER, GARAGE_FULL));
    must_keep_off(shuttles(GARAGE_RIGHT, ROWS_2_3, GARAGE_LOWER));
    must("plan", garage_next(held_now().image, off.five, sizeof off.five, eight, sizeof eight));
    somebody_looked("somebody looks: the last car had come off", number_of(eight), (Seen[]){{38, LAST}, {29, MIDDLE}, {28, FIRST}});
}

static void fetch_the_middle_one(void) {
    past_the_last();
    one("the middle car by the shuttle to row 1", shuttles(GARAGE_RIGHT, ROWS_2_3, GARAGE_LOWER));
    one("the lift down", lift(GARAGE_BASEMENT));
    along_row_1(GARAGE_LOWER);
    one("up with the lift", lift(GARAGE_STREET));
    drive("the driver begins to drive out", STATION_BEGIN_OUT, 0);
    drive("the car is out", STATION_END_DONE, 0);
}

int main(void) {
    must("start", desk_start(room, sizeof room));
    printf("start\n");
    show_desk();
    must_not_begin("a driver without a card", 0, DESK_ZERO_NUMBER);
    drive("a driver begins to drive in", STATION_BEGIN_IN, NEVER_IN);
    say_where(NEVER_IN);
    drive("and gives up", STATION_END_NOT_DONE, 0);
    say_where(NEVER_IN);
    park(FIRST);
    must_not_begin("a card whose car is in the garage", FIRST, DESK_KNOWN_NUMBER);
    park(MIDDLE);
    park(LAST);
    printf("parked\n");
    fetch_the_middle_one();
    drive("the card of the car that left comes again", STATION_BEGIN_IN, MIDDLE);
    drive("and its car is in", STATION_END_DONE, 0);
    bool there = STATION_PLACE(where(MIDDLE)) == DESK_RAISED && STATION_PLACE(where(FIRST)) == 28 && STATION_PLACE(where(LAST)) == 38;
    printf("%s\n", there ? "each car is where it should be" : "a car is elsewhere");
    return there ? 0 : 1;
}

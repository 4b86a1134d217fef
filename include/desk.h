/* desk.h: the street desk's entries, for a program in C or C++ that knows cars by their cards.
 *
 * A desk is a station (station.h) whose cars have card numbers of 32 bits, none of them 0. A drive-in brings its card's number when it
 * begins; from then on the number follows the car: with each instruction that is reported done it goes where the car goes, and with
 * nothing else. A drive-in that ends without its car drops its number; a car that has driven out takes its own along, and that number may
 * come again. The desk answers where the car with a number is, which card is leaving, where all cars are, what is outstanding, and what an
 * image would change. The entries below are proved to answer what the definitions in crates/desk_c/specs/Entries.antt say, on every input;
 * nothing proves this header or its caller right, so what a caller must see to is what station.h says of its own entries: pointers valid for
 * the lengths that follow them, bytes lent for writing that overlap nothing else that is lent to the call, one thread at a time on one desk.
 * Any numbers and any bytes may be passed. No entry allocates, prints, waits, or keeps anything between calls; none takes more stack than
 * DESK_STACK_MOST, but desk_list and desk_compare, which take no more than DESK_LISTS_STACK_MOST.
 *
 * A desk is all that a host needs: each of its calls but those that ask of cards or sets is the station's call of that name, made on the
 * station inside the desk, and is told what the station says. Where the station refuses, that is the answer. Where it would take a begin of
 * a drive-in or an image, the desk may still refuse it for its numbers, and then the station inside is as it was too. So no call is made
 * on that station beside the desk; but whoever does so with station.h's entries on the first STATION_SIZE bytes has a desk whose numbers
 * need not fit its record any more, and which is then refused with STATION_UNFIT. Questions on a record (garage_sound, garage_cars,
 * garage_allowed, garage_next) may be asked as ever.
 *
 * A desk is lent as DESK_SIZE bytes, `room`: the STATION_SIZE bytes of its station as station.h has them, then DESK_PLACES card numbers of
 * four bytes each, the lowest byte first, 0 where none is:
 *   0 to 39   that of the car in this cell. In row 1, where a car has two half cells, its number stands at the lower of them
 *   40        that of the car on the raised lift
 *   41        that of a car whose drive-in is under way: it is not in the garage yet
 * DESK_CARD reads one. A longer room is fine, and what stands past those bytes keeps its value.
 *
 * What may stand in a desk's room: any bytes.
 *   - Bytes that are no desk are refused with STATION_UNFIT, by every call but desk_start, before any other number but STATION_NO_ROOM and
 *     STATION_TOO_FEW_BYTES. They are a desk if they are a station, and its numbers fit its record: one that isn't 0 for each car at its
 *     place and, while a drive-in is under way (bit 55), at 41; 0 at every other place; and no number at two places.
 *   - Bytes that desk_start wrote, and after it these entries alone, are a desk with all that is promised: at every moment the numbered
 *     cars are exactly the cars of the record, each number once; and whichever of the instructions that got stuck since the last image did
 *     in fact finish, the numbers that go along with those are exactly the numbers of the cars that are there then. They may be copied,
 *     kept, and put back as they are.
 *   - Other bytes that happen to be a desk are answered as that desk, as with a station.
 *
 * Answers are those of station.h: STATION_NUMBER, STATION_PLACE and STATION_SET take them apart. Numbers are those of station.h, and three
 * more, with STATION_NOWHERE and 0 beside them. A call that isn't taken writes nothing.
 *
 * Where a car is (desk_where). Its place is the cell of its number: 0 to 39 as in the record, in row 1 the lower of its two, or
 * DESK_RAISED. After a jam (STATION_STUCK) it is not known what is in the parts set apart. A car of which a cell is set apart, in row 1
 * either of the two, or, on the raised lift, the lift, is told with DESK_LAST_KNOWN: at its last known place. It stands there if what got
 * stuck did nothing, or where that was to bring it, or between the two; somebody has to look. An image that is taken clears this
 * (desk_image). A car of which a part is in the area of an instruction that waits for its result is told with DESK_MOVING, and
 * DESK_MOVING_TO is the place that it would get: it stands there once that instruction has finished, else at its place, or between the
 * two. In all cases its number is still in the garage. A car that is told without either stands where it is told, whichever of the
 * instructions that wait or are stuck have finished.
 */
#ifndef DESK_H
#define DESK_H

#include "station.h"

#ifdef __cplusplus
extern "C" {
#endif

/* The desk's own numbers; all others are those of station.h. */
enum {
    DESK_ZERO_NUMBER = 37,  /* a card number is 0 */
    DESK_KNOWN_NUMBER = 38, /* a car in the garage has that number already; in an image: it is given twice */
    DESK_WRONG_COUNT = 39   /* an image comes with more or fewer numbers than it has cars */
};

/* Sizes in bytes, and how many numbers there are. */
enum {
    DESK_SIZE = 228,        /* a desk */
    DESK_CARD_SIZE = 4,     /* a card number, the lowest byte first */
    DESK_PLACES = 42,       /* card numbers of a desk */
    DESK_CARDS_MOST = 31,   /* the most numbers that an image can come with; more are refused and not looked at */
    DESK_LINE_SIZE = 8,     /* what is told of a car, by desk_list and desk_compare */
    DESK_LIST_SIZE = 248,   /* all cars: 31 lines */
    DESK_OPEN_SIZE = 44,    /* what is outstanding */
    DESK_CHANGES_SIZE = 496 /* what an image would change: 62 lines */
};

/* The places that are no cells: in a desk's room, and as an answer. */
enum {
    DESK_AT_LIFT = 40,  /* where the room has the number of the car on the raised lift */
    DESK_AT_DRIVE = 41, /* where it has that of a drive-in under way */
    DESK_RAISED = 52,   /* told of the car on the raised lift, which is its bit in the record */
    DESK_WAITS = 55,    /* told in lines of the card of a drive-in under way: no car has it yet */
    DESK_NOT_HERE = 255 /* told where no car in the garage has the number */
};

/* Of an answer of desk_where: whether the place is only the last known one; whether the car is in motion, and to which place. */
#define DESK_LAST_KNOWN(answer) ((int)((answer) >> 16 & 1u))
#define DESK_MOVING(answer) ((int)((answer) >> 17 & 1u))
#define DESK_MOVING_TO(answer) ((unsigned)((answer) >> 24))

/* The lines of desk_list and desk_compare, eight bytes each: the card, the lowest byte first; a place; a flag; the next place; and a zero.
 * DESK_COUNT of the answer says how many there are, and behind them are zeros. Line `i` of some, counted from 0: */
#define DESK_COUNT(answer) STATION_PLACE(answer)
#define DESK_LINE(lines, i) ((lines) + DESK_LINE_SIZE * (i))
#define DESK_LINE_BYTE(lines, i, k) ((uint32_t)DESK_LINE(lines, i)[k] << (8 * (k)))
#define DESK_LINE_CARD(lines, i) \
    (DESK_LINE_BYTE(lines, i, 0) | DESK_LINE_BYTE(lines, i, 1) | DESK_LINE_BYTE(lines, i, 2) | DESK_LINE_BYTE(lines, i, 3))
#define DESK_LINE_PLACE(lines, i) ((unsigned)DESK_LINE(lines, i)[4])
#define DESK_LINE_FLAG(lines, i) ((unsigned)DESK_LINE(lines, i)[5])
#define DESK_LINE_NEXT(lines, i) ((unsigned)DESK_LINE(lines, i)[6])

/* The flag of a line. */
enum {
    DESK_SURE = 0, /* the car is at the place */
    DESK_LAST = 1, /* that place is the last known one: a part under the car is set apart */
    DESK_MOVES = 2 /* the car is in motion, and gets the next place if what moves it finishes */
};

/* Of what desk_outstanding writes: the present issue, how many instructions it has, which of them are answered (bit 0 is the first one's),
 * and where instruction `i` is, five bytes. */
#define DESK_OPEN_ISSUE(open) ((unsigned)(open)[0] | (unsigned)(open)[1] << 8)
#define DESK_OPEN_COUNT(open) ((unsigned)(open)[2])
#define DESK_OPEN_ANSWERED(open, i) ((int)((open)[3] >> (i) & 1u))
#define DESK_OPEN_INSTRUCTION(open, i) ((open) + 4 + 5 * (i))

/* The card number at a place of a desk's room, 0 to DESK_PLACES less one. */
#define DESK_BYTE(room, place, i) ((uint32_t)(room)[STATION_SIZE + DESK_CARD_SIZE * (place) + (i)] << (8 * (i)))
#define DESK_CARD(room, place) \
    (DESK_BYTE(room, place, 0) | DESK_BYTE(room, place, 1) | DESK_BYTE(room, place, 2) | DESK_BYTE(room, place, 3))

/* The bytes of stack that a call may take on x86-64, below the frame that makes it. No theorem says so: it is measured on many calls, and
 * added up over the archive's instructions for every path, which comes to 8856 for desk_compare, 5256 for desk_list and at most 2136 for
 * the others; the C library's memcpy and the like are left out. */
enum {
    DESK_STACK_MOST = 2432,      /* every entry's but two */
    DESK_LISTS_STACK_MOST = 9344 /* those two: desk_list and desk_compare, which hold their lines there */
};

/* ---- calls on a lent desk
 *
 * Each is refused with 17 where `room` has fewer than DESK_SIZE bytes, and (but for desk_start) with 16 where its bytes are no desk. Taken,
 * it writes the next desk to `room`. */

/* Writes the start desk, whatever was there: the start station, and no number. */
uint32_t desk_start(uint8_t *room, size_t room_length);

/* Requests a set, as station_request: 17; 1 if count is at most eight and `set` is shorter than 5 * count; 16; then 6, 5, 7, 4, 31, 32, 8,
 * 20 to 28. No number moves. */
uint32_t desk_request(uint8_t *room, size_t room_length, uint8_t count, const uint8_t *set, size_t set_length);

/* A drive begins or ends, as station_event; a begin of a drive-in brings the number `card`. 17, 16, then the station's 4, 6, 31, 32, 10,
 * 33 and, of a begin of a drive-in (STATION_BEGIN_IN), 37 where `card` is 0, 38 where a car in the garage has it. With any other event `card`
 * is not looked at. An end that is done gives the number to the car on the raised lift, or takes that car's number away; of a drive-in that
 * is not done the number is dropped. */
uint32_t desk_event(uint8_t *room, size_t room_length, uint8_t way, uint32_t card);

/* The result of an instruction, as station_result: 17, 16, then 4, 11, 29, 30, 12, 13. With STATION_DONE each number goes where the
 * instruction takes its car; with STATION_FAILED and STATION_STUCK none moves. */
uint32_t desk_result(uint8_t *room, size_t room_length, uint16_t issue, uint8_t number, uint8_t ending);

/* Takes an image as the record, as station_image, with the numbers of its cars: the first 4 * count bytes of `cards`, four for each number,
 * the lowest first, and none past them. They come in the order of the cells, row 1, row 2, row 3, in each from the lowest, a car of row 1
 * once; then that of the car on the raised lift, if there is one; then that of a drive-in under way, if the image says so. From now on
 * these are the numbers, whatever was before, and no place is only the last known one. 17; 1 if count is at most DESK_CARDS_MOST and
 * `cards` is shorter than that; 16; the station's 6, 15; 39 where count is not the number of the image's cars, and one more with a drive-in
 * under way; 37 where one of them is 0; 38 where one is given twice. With count above DESK_CARDS_MOST no byte of `cards` is looked at. */
uint32_t desk_image(uint8_t *room, size_t room_length, uint64_t image, uint64_t apart, uint8_t count, const uint8_t *cards,
                    size_t cards_length);

/* ---- questions on a lent desk, which stays as it is */

/* Writes the record's eight bytes to `image`, and behind them the eight of what is set apart, as station_ask: STATION_SHOWN_SIZE bytes. 17
 * where either room is too short, 16. */
uint32_t desk_ask(const uint8_t *room, size_t room_length, uint8_t *image, size_t image_length);

/* Where the car with the number `card` is. 17, 16; else 0, and STATION_PLACE of the answer is the cell of its number, DESK_RAISED, or
 * DESK_NOT_HERE; DESK_LAST_KNOWN of it says whether that place is only the last known one, DESK_MOVING whether the car is in motion, and
 * then DESK_MOVING_TO the place that it would get. No car has the number 0, and one whose drive-in is under way is not here yet. */
uint32_t desk_where(const uint8_t *room, size_t room_length, uint32_t card);

/* Which card is leaving: writes DESK_CARD_SIZE bytes to `card`, the lowest first: the number of the car on the raised lift while a
 * drive-out is under way, else 0. 17 where either room is too short, 16. */
uint32_t desk_leaving(const uint8_t *room, size_t room_length, uint8_t *card, size_t card_length);

/* Every car: writes DESK_LIST_SIZE bytes to `lines`, a line for each card of the garage in the order in which an image wants its numbers:
 * the cells from 0 on, then the raised lift, then the card of a drive-in under way, at DESK_WAITS. A place and a flag are those of
 * desk_where; the next place is told with DESK_MOVES and is 0 else. 17 where either room is too short, 16; else 0, and DESK_COUNT of the
 * answer is how many lines there are. */
uint32_t desk_list(const uint8_t *room, size_t room_length, uint8_t *lines, size_t lines_length);

/* What is outstanding: writes DESK_OPEN_SIZE bytes to `set`: the issue of the last set that was accepted (65535 before the first), two
 * bytes, the lowest first; how many instructions are outstanding, 0 if there is no set; a bit for each that is answered; and forty bytes,
 * of which the first five for each instruction are as desk_request was given them. Exactly the results of instructions below that count,
 * with that issue and without their bit, are accepted. 17 where either room is too short, 16. */
uint32_t desk_outstanding(const uint8_t *room, size_t room_length, uint8_t *set, size_t set_length);

/* What an image with these numbers would change: as desk_image, but the desk stays as it is. It returns what desk_image would return where
 * that is not 0, and writes nothing; else 0, with DESK_COUNT lines, and DESK_CHANGES_SIZE bytes are written to `lines`. First the cards
 * that would leave or change places: the place that each has now, DESK_LAST if that is only the last known one, and as the next place the
 * one that the image has it at, DESK_NOT_HERE if it would leave. Then the cards that would appear: at DESK_NOT_HERE, with the place of the
 * image as the next one. A card that keeps its place has no line. 17 where either room is too short; 1, 16 and the others as desk_image. */
uint32_t desk_compare(const uint8_t *room, size_t room_length, uint64_t image, uint64_t apart, uint8_t count, const uint8_t *cards,
                      size_t cards_length, uint8_t *lines, size_t lines_length);

#ifdef __cplusplus
}
#endif

#endif

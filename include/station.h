/* station.h: the station's entries for a planner in C or C++.
 *
 * To compile a planner with it, one of these:
 *   cc planner.c $(pkg-config --cflags --libs station)                                        where it is installed (docs/INSTALL.md)
 *   tools/archive station_c && cc -Iinclude planner.c target/staticlib/libstation_c.a          in the tree, on x86-64
 *   tools/native station_archive station_c.o && cc -Iinclude planner.c station_c.o                  in the tree, on another processor
 *
 * The station keeps the record of one garage: which cells are occupied, where the shuttles stand, the lift's height. A planner
 * sends it sets of up to eight instructions; the station accepts a set or says why not, and changes its record only when an
 * instruction is reported done. It is told when a driver begins to drive in or out and how that ended; in between nothing may move the
 * lift. What is reported stuck is set apart: nothing may be run into it until somebody has looked. The entries below are proved to answer
 * what the definitions in crates/station_c/specs (Entries.antt, Sets.antt) say, on every input; nothing proves this header or its caller
 * right, so:
 *
 * What the caller must see to
 *   - Each pointer goes with the length that follows it, and is valid for that many bytes: to read where it is `const`, to read and
 *     write where it isn't. With a length of 0 any pointer will do, NULL too.
 *   - Bytes lent for writing overlap nothing else that is lent to the same call.
 *   - No two threads are in calls on one station at a time. Two stations are independent, and no entry keeps anything between calls.
 * There is no other duty: any numbers and any bytes may be passed, and each call comes back with the answer that the rules give for
 * them. No entry allocates, prints, or waits; none takes more stack than STATION_STACK_MOST.
 *
 * What may stand in a station's room: any bytes.
 *   - Bytes that are no station are rejected with STATION_UNFIT by every call but station_start, unless a check that comes before it
 *     fails: a room that is too short, fewer bytes than a count says, or a message that can't be read (STATION_NO_ROOM, and
 *     STATION_TOO_FEW_BYTES to STATION_TOO_MANY). In a station the record must be sound and what stands beside it well formed. A drive under way and a set with the lift in an area are no station together; nor is a set of which
 *     two instructions overlap, answered or not, or of which one that still waits for its result is not allowed on the record. One that
 *     is answered need not be. What is set apart may be anything, but has no bit above 52.
 *   - Bytes that station_start wrote, and after it these entries alone, are a station with all that is promised: each call answers by
 *     the rules, an accepted set is safe in any order of its results, and the record is what the results and events since the start,
 *     or since the last image that was taken, have made of it; whichever of the instructions that got stuck since then did in fact
 *     finish, the record on which these are done has a layout of as many cars. They may be copied, kept, and put back as they are; the
 *     record, the count of sets and what is set apart are then those of when they were kept.
 *   - Other bytes that happen to be a station, another garage's or made by hand, are answered as that station: each call still answers
 *     by the rules and leaves a station whose record is sound. But the record need not be this garage's, and the set that they say is
 *     outstanding need never have been accepted.
 *
 * A station is lent as STATION_SIZE bytes, `room`: the record in eight bytes, the lowest first; how many instructions the
 * outstanding set has; a bit for each of them that is answered; five bytes for each, and zeros in the unused places; the issue of the
 * next set in two bytes, the lowest first, which may be any; what is set apart in eight bytes, the lowest first. A longer room is fine, and
 * what stands past those bytes keeps its value.
 *
 * Answers. An entry that returns uint32_t answers with a number of the table below, a place and an issue: STATION_NUMBER, STATION_PLACE and
 * STATION_SET take them apart, and station_words.h has the words of each number. The place is the instruction at fault, counted from 0, in
 * a request (or of garage_overlap's two) for STATION_BAD_FIELD, STATION_SET_APART, STATION_OVERLAP and the reasons, 20 to 28; else it is
 * STATION_NOWHERE. The issue is that of the set where a request was taken, else 0. A call that isn't taken writes nothing; of a message
 * that isn't, only the refusal is written, as the message that answers it (station_message).
 *
 * Issues. Each accepted set has a number of 16 bits, its issue: 0 for the first set since station_start, then one more for each set,
 * and 0 again after 65535. A request that is refused takes none, and an event or an image leaves the count as it is. A result says of
 * which set it is, so that one that comes after its set has closed is not taken for the next set's. Of one that isn't of the
 * outstanding set the distance is told, counted backward from that set's issue and round the end: up to 32767 it is STATION_LATE,
 * beyond that STATION_NOT_ISSUED. A result that comes 65536 sets late, or a multiple of that, can't be told from one in time.
 *
 * Drives. A car's coming or going has a begin and an end (station_event). In between a driver is in the lift: bit 55 of the record says
 * that a drive-in is under way, bit 56 a drive-out. A begin while any drive is under way, an end while none is, and a set with the lift
 * in the area of any of its instructions while one is, are refused with STATION_OUT_OF_TURN. The lift is in the area of GARAGE_LIFT, of
 * GARAGE_ROTATE, and of GARAGE_BELTS in row 1 with the lift's belt. Everything else goes on meanwhile. An end that is done moves the car
 * on or off the raised lift (bit 52); one that isn't leaves it where it was. An image in the middle of a drive replaces it. Places are kept
 * open: a drive-in begins only while the record has fewer than 27 cars, else it is refused with STATION_KEPT_OPEN; an image may have more.
 *
 * The row beside the lift. GARAGE_LIFT has the lift and its two cells, 11 and 12, in its area, and no other place of row 1. So every
 * GARAGE_SHUTTLES, every GARAGE_TILT, and every GARAGE_BELTS that doesn't name the lift's belt, may stand in one set with it. Leaving the
 * basement with something on its cells it reads besides whether each side's count is even, which on the station's records nothing that
 * stands beside it can change.
 *
 * Jams. A motor may leave its load between two places: its instruction is reported stuck (STATION_STUCK). That answers it, and no other
 * result of it is taken. The record stays, but what is in fact there is not known, so everything in the instruction's area is set apart:
 * cells, shuttles' slots, and the lift. A number of 64 bits shows it, bits 0 to 51 as in the record and bit 52 for the lift. It grows by
 * each such result, outlives the set, and is cleared by an accepted image (station_image, or a message of kind 4). Of the entries only
 * station_start, which begins another garage, clears it too. Until then a set that
 * touches a part set apart is refused with STATION_SET_APART and the least such instruction as its place, whether it would be allowed or
 * not, and an event is while the lift is one. Everything else goes on meanwhile. The questions on a record know nothing of it.
 *
 * Reasons. An instruction that the record doesn't allow is refused for the first of its conditions that fails, in this order; a request,
 * for its least instruction that isn't allowed, whatever a later one has:
 *   GARAGE_BELTS     25, 20, 21, 22, 23, 24
 *   GARAGE_SHUTTLES  20, 21, 22, 24, 23
 *   GARAGE_TILT      22, 28 of a lowered shuttle; 22, 23 of a tilted one
 *   GARAGE_LIFT      26, 24
 *   GARAGE_ROTATE    27, 28
 */
#ifndef STATION_H
#define STATION_H

#include <stdbool.h>
#include <stddef.h>
#include <stdint.h>

#ifdef __cplusplus
extern "C" {
#endif

/* The version that this header belongs to: the first number moves where a caller must change something, the second where something was
 * added, the third else. station_version tells the archive's, as one number. */
#define STATION_VERSION_FIRST 1
#define STATION_VERSION_SECOND 0
#define STATION_VERSION_THIRD 0
#define STATION_VERSION (65536u * STATION_VERSION_FIRST + 256u * STATION_VERSION_SECOND + STATION_VERSION_THIRD)

/* The three parts of an answer. */
#define STATION_NUMBER(answer) ((uint8_t)((answer) & 0xFFu))
#define STATION_PLACE(answer) ((uint8_t)(((answer) >> 8) & 0xFFu))
#define STATION_SET(answer) ((uint16_t)(((answer) >> 16) & 0xFFFFu))

/* What the numbers mean; 9, 14, 18 and 19 are none. */
enum {
    STATION_TAKEN = 0,              /* taken */
    STATION_TOO_FEW_BYTES = 1,      /* fewer bytes than a message or a count says, or an instruction has */
    STATION_BAD_LENGTH = 2,         /* a message's length is below 2, above 43, or not its kind's */
    STATION_UNKNOWN_KIND = 3,       /* a message of a kind that the station doesn't read */
    STATION_BAD_FIELD = 4,          /* a field out of range, or a spare byte that isn't zero */
    STATION_TOO_MANY = 5,           /* more than eight instructions */
    STATION_SET_OUTSTANDING = 6,    /* a set still waits for results; for an event, one with the lift in an area */
    STATION_EMPTY_SET = 7,          /* no instruction */
    STATION_OVERLAP = 8,            /* an instruction touches what an earlier one of the set touches */
    STATION_EVENT_IMPOSSIBLE = 10,  /* no drive can begin: the lift isn't at street height, or is occupied (in) or empty (out) */
    STATION_NO_SET = 11,            /* a result, and no set is outstanding */
    STATION_NOT_IN_SET = 12,        /* a result for an instruction that the set doesn't have */
    STATION_ALREADY_ANSWERED = 13,  /* a second result for one instruction */
    STATION_UNSOUND = 15,           /* the image is no possible garage, or sets something apart */
    STATION_UNFIT = 16,             /* the lent bytes are no station */
    STATION_NO_ROOM = 17,           /* lent room is too short */
    STATION_NOTHING_NAMED = 20,     /* an instruction names no belt, or no row */
    STATION_GAP = 21,               /* the belts or rows that it names have one between them that it doesn't */
    STATION_NOT_AVAILABLE = 22,     /* a shuttle, or a belt's lift, isn't there; for a tilt: not all lowered, or none tilted there */
    STATION_NOT_FREE = 23,          /* the end of the belts, the next row or the slot below isn't free, or isn't there */
    STATION_ODD_COUNT = 24,         /* an odd count of occupied half cells: a car would be torn */
    STATION_HALF_MOVE = 25,         /* a half move in row 2 or 3 */
    STATION_SAME_HEIGHT = 26,       /* the lift is at that height */
    STATION_NOT_AT_ROTATION = 27,   /* the lift isn't at rotation height */
    STATION_CELLS_NOT_FREE = 28,    /* cells that must be free for the tilt or the rotation aren't */
    STATION_LATE = 29,              /* a result of a set 1 to 32767 before the outstanding one */
    STATION_NOT_ISSUED = 30,        /* a result of a set that is neither that nor the outstanding one */
    STATION_OUT_OF_TURN = 31,       /* a drive is under way, for a begin or a set with the lift in an area; none is, for an end */
    STATION_SET_APART = 32,         /* an instruction touches a part that is set apart; for an event, the lift is */
    STATION_KEPT_OPEN = 33          /* a drive-in would begin with 27 cars or more: the places that are left are kept open */
};

/* The place where an answer names no instruction. */
enum { STATION_NOWHERE = 255 };

/* Sizes in bytes, and the largest set. */
enum {
    STATION_SIZE = 60,         /* a station */
    STATION_IMAGE_SIZE = 8,    /* a record, the lowest byte first */
    STATION_SHOWN_SIZE = 16,   /* a record, then what is set apart, each with its lowest byte first */
    STATION_CODE_SIZE = 5,     /* an instruction */
    STATION_MOST = 8,          /* instructions in a set */
    STATION_MESSAGE_MOST = 45, /* the longest message */
    STATION_REPLY_MOST = 20    /* the longest message that station_message writes */
};

/* The bytes of stack that a call may take on x86-64, below the frame that makes it. No theorem says so: it is measured on many calls, and
 * added up over the archive's instructions for every path, which comes to 920 for station_message and less for the others; the C library's
 * memcpy and the like are left out. The desk's entries and the report's take more, as desk.h and report.h say. */
enum { STATION_STACK_MOST = 1024 };

/* The record of the start: no cars, rows 1 and 2 lowered and row 3 tilted on both sides, the lift at street height. */
#define STATION_START_IMAGE UINT64_C(0x00091B0000000000)

/* An instruction is five bytes, an opcode and four fields:
 *   GARAGE_BELTS     row 1 to 3, mask of belts from the left (bit 0 the leftmost), toward, size
 *   GARAGE_SHUTTLES  side, mask of rows (bit 0 is row 1), orientation, toward
 *   GARAGE_TILT      side, row 1 to 3, orientation that it has now, 0
 *   GARAGE_LIFT      height, 0, 0, 0
 *   GARAGE_ROTATE    0, 0, 0, 0
 * Row 1 has five belts (left shuttle, left, lift, right, right shuttle), rows 2 and 3 have three (left shuttle, belt, right shuttle). */
enum { GARAGE_BELTS = 1, GARAGE_SHUTTLES = 2, GARAGE_TILT = 3, GARAGE_LIFT = 4, GARAGE_ROTATE = 5 };
enum { GARAGE_LOWER = 0, GARAGE_HIGHER = 1 };                        /* toward lower or higher columns or rows */
enum { GARAGE_HALF = 0, GARAGE_FULL = 1 };                           /* how far a belt moves; rows 2 and 3 move full only */
enum { GARAGE_LEFT = 0, GARAGE_RIGHT = 1 };                          /* sides */
enum { GARAGE_LOWERED = 0, GARAGE_TILTED = 1 };                      /* how a shuttle stands */
enum { GARAGE_STREET = 0, GARAGE_ROTATION = 1, GARAGE_BASEMENT = 2 }; /* the lift's heights */

/* Events and results. */
enum {
    STATION_BEGIN_IN = 1,    /* a drive into the lift begins */
    STATION_BEGIN_OUT = 2,   /* a drive out of it begins */
    STATION_END_DONE = 3,    /* the drive has ended, and the car did come or go */
    STATION_END_NOT_DONE = 4 /* it has ended, and the car did not */
};
enum {
    STATION_FAILED = 0, /* nothing moved */
    STATION_DONE = 1,   /* it is done */
    STATION_STUCK = 2   /* it got stuck on the way, and what is in its area is not known */
};

/* Kinds of messages: those that a station reads, and the two that it answers with. */
enum {
    STATION_KIND_REQUEST = 1,
    STATION_KIND_EVENT = 2,
    STATION_KIND_RESULT = 3,
    STATION_KIND_IMAGE = 4,
    STATION_KIND_ASK = 5,
    STATION_KIND_ANSWER = 128,
    STATION_KIND_HELD = 129
};

/* ---- calls on a lent station
 *
 * Each is refused with 17 where `room` has fewer than STATION_SIZE bytes, and (but for station_start) with 16 where its bytes are no
 * station. Taken, it writes the next station to `room`. */

/* Writes the start station, whatever was there. */
uint32_t station_start(uint8_t *room, size_t room_length);

/* Requests a set of `count` instructions: the first 5 * count bytes of `set`, and none past them. 17; 1 if count is at most eight and
 * `set` is shorter than that; 16; then 6, 5, 7, 4, 31, 32, 8, 20 to 28. Taken, the set is outstanding, the record is as it was, and the
 * answer has the set's issue: STATION_SET. */
uint32_t station_request(uint8_t *room, size_t room_length, uint8_t count, const uint8_t *set, size_t set_length);

/* A drive begins (STATION_BEGIN_IN, STATION_BEGIN_OUT) or ends (STATION_END_DONE, STATION_END_NOT_DONE). A begin leaves cars as they are;
 * with an end the drive is no longer under way. 17, 16, then 4, 6, 31, 32, of a begin 10, and of a begin of a drive-in, last, 33: it begins
 * only while the record has fewer than 27 cars. An end is not asked for their number. */
uint32_t station_event(uint8_t *room, size_t room_length, uint8_t way);

/* The result of instruction `number`, counted from 0, of the set that was given `issue`: with STATION_DONE as its `ending` it is applied to
 * the record; STATION_FAILED leaves the record as it is; STATION_STUCK does too, and sets the instruction's area apart. With the last
 * result the set is no longer outstanding. 17, 16, then 4, 11, 29, 30, 12, 13. */
uint32_t station_result(uint8_t *room, size_t room_length, uint16_t issue, uint8_t number, uint8_t ending);

/* Takes an image as the record, as after somebody looked for themselves; whoever looks must see too whether a driver is in the lift, since
 * a drive is under way from now on only if the image says so. Nothing is set apart from now on, and so `apart` must be zero: whoever looks
 * must have cleared what was stuck. 17, 16, then 6, 15. */
uint32_t station_image(uint8_t *room, size_t room_length, uint64_t image, uint64_t apart);

/* Writes the record's eight bytes to `image`, and behind them the eight of what is set apart: STATION_SHOWN_SIZE bytes; the station stays.
 * 17 where either room is too short, 16. */
uint32_t station_ask(const uint8_t *room, size_t room_length, uint8_t *image, size_t image_length);

/* Answers the first message of `message`, as the program does: the message that answers is written to `reply` (its first two bytes
 * say how many follow) and, if the message is taken, the next station to `room`. A message that is refused is answered too: `reply`
 * then has the refusal, and `room` is not written. 17 is returned where `room` or `reply` is too short, and nothing is written; a room of
 * STATION_REPLY_MOST bytes is always enough. Else returns the number, the place and the issue that were answered, or 0 with
 * STATION_NOWHERE where the image was. What stands past the first message is not looked at. */
uint32_t station_message(uint8_t *room, size_t room_length, const uint8_t *message, size_t message_length, uint8_t *reply,
                         size_t reply_length);

/* ---- questions on a record, for planning ahead; no station is needed and nothing is remembered */

/* Whether an image is a possible garage. */
bool garage_sound(uint64_t image);

/* The number of cars of a sound record, at most 30, and at most 28 where the lift is empty at street height; 255 if the image isn't sound. A
 * drive-in begins with 26 or fewer (STATION_KEPT_OPEN). */
uint32_t garage_cars(uint64_t image);

/* What a request of the one instruction that the first five bytes of `five` say would be told on the record: 1 where there are fewer
 * bytes, 4 where they say no instruction, 31 where a drive is under way and the lift is in its area, then the reason, 20 to 28, or 0. The
 * place is always STATION_NOWHERE. The image is not tested for soundness. */
uint32_t garage_allowed(uint64_t image, const uint8_t *five, size_t five_length);

/* The same, and if it is 0 the eight bytes of the record after the instruction are written to `next`. 17 where that is too short, then 1,
 * 4, 31, 20 to 28. */
uint32_t garage_next(uint64_t image, const uint8_t *five, size_t five_length, uint8_t *next, size_t next_length);

/* ---- questions for building sets: areas are the same on every record, so none is given. What stands past five bytes is not looked at */

/* Writes the eight bytes of the instruction's area to `area`, the lowest first, in the record's own bits; the lift is bits 52 to 54. Two
 * instructions overlap exactly if their areas share a bit, and one touches what is set apart exactly if its area shares a bit with the
 * number that shows it. 17 where `area` is too short, then 1, 4, with STATION_NOWHERE as the place. */
uint32_t garage_area(const uint8_t *five, size_t five_length, uint8_t *area, size_t area_length);

/* Whether the two may not stand in one set, as a request of these two in this order would be told so far as the instructions alone decide:
 * 1 where either has fewer than five bytes; 4 where either says no instruction, with 0 as the place if the first doesn't, else 1; 8 with
 * place 1 where they overlap; else 0. A set of more is free of overlaps exactly if each two of it are. */
uint32_t garage_overlap(const uint8_t *one, size_t one_length, const uint8_t *other, size_t other_length);

/* ---- the version */

/* The archive's version: 65536 times its first number, 256 times its second, and its third. A caller may hold it against
 * STATION_VERSION. */
uint32_t station_version(void);

#ifdef __cplusplus
}
#endif

#endif

/* Plans tried before the day: the entries for a host in C or C++ that wants to know what the station would say to a whole plan, and why.
 *
 * A plan is a starting record, up to PLAN_SETS_MOST sets of instructions one after the other, and a wish: that at the end the lift be at
 * street, with a car on it or without one. It is accepted exactly if the record would be taken as an image, each set in turn would be, all
 * instructions of the sets before it having succeeded, and the last record meets the wish. The entries are proved to answer what the
 * definitions in crates/plan/specs/Plans.antt and crates/plan_c/specs/Entries.antt say, on every input; nothing proves this header or its
 * caller right, so what a caller must see to is what station.h says of its own entries: a pointer is valid for the length that follows it,
 * nobody writes those bytes meanwhile, and the room overlaps nothing else that is lent. With a length of 0 any pointer will do, NULL too. No
 * station is needed, and the caller's own plays no part. The entries write nothing but the room of plan_explain, don't allocate, print or
 * wait, and keep nothing between calls: any number of threads may be in them. They take no more stack than PLAN_STACK_MOST.
 *
 * The bytes of a plan, numbers with the lowest byte first; a plan has one form:
 *    0 to 7   the starting record, as station_image takes it
 *    8 to 15  what is set apart there: zeros
 *   16        the wish: PLAN_WITHOUT_A_CAR or PLAN_WITH_A_CAR
 *   17        how many sets
 *   18 on     for each set how many instructions it has, and then five bytes for each of them, as station_request takes them
 *
 * Refusals, in this order. Of the bytes: 1 where they are cut short anywhere, then 4 where the wish is neither or bytes are left over. Of
 * the plan: 15 where the record is no possible garage, or something is set apart; 35 where there are more than PLAN_SETS_MOST sets, before
 * any of them is looked at; then of the first set that is refused what a request would be told there, 5, 7, 4, 31, 8, 20 to 28; at last 36
 * where the wish isn't met. With a set's own number its set is told, counted from 0, else PLAN_NO_SET. plan_explain also
 * tells the instruction at fault.
 */
#ifndef PLAN_H
#define PLAN_H

#include <stddef.h>
#include <stdint.h>

#ifdef __cplusplus
extern "C" {
#endif

/* The parts of an answer. */
#define PLAN_NUMBER(answer) ((uint8_t)((answer) & 0xFFu))
#define PLAN_SET(answer) ((uint8_t)(((answer) >> 8) & 0xFFu))

/* The numbers that a plan is told as a whole; with PLAN_BAD_FIELD a set is told where it is in one of its instructions. The others are
 * those of station.h: STATION_TOO_MANY, STATION_EMPTY_SET, STATION_OUT_OF_TURN, STATION_OVERLAP and the reasons. */
enum {
    PLAN_ACCEPTED = 0,       /* accepted */
    PLAN_CUT_SHORT = 1,      /* fewer bytes than the plan says */
    PLAN_BAD_FIELD = 4,      /* a wish that is neither, or bytes left over; with a set, a field out of range or a spare byte that isn't zero */
    PLAN_UNSOUND = 15,       /* the starting record is no possible garage, or something is set apart there */
    PLAN_TOO_MANY_SETS = 35, /* more than PLAN_SETS_MOST sets */
    PLAN_WISH_NOT_MET = 36   /* the last record doesn't have what is wished for */
};

/* Where no set is at fault. */
enum { PLAN_NO_SET = 255 };

/* The wish for the end: the lift at street, and on it a car or none. A car counts until its drive-out has ended, and from when its drive-in
 * has. */
enum { PLAN_WITHOUT_A_CAR = 0, PLAN_WITH_A_CAR = 1 };

/* How many sets an accepted plan has at most, and how many bytes: 64 sets of eight. */
enum { PLAN_SETS_MOST = 64, PLAN_BYTES_MOST = 2642 };

/* The bytes of the grounds that plan_explain writes, and where they have what, numbers with the lowest byte first:
 *    0 to 7   the record before the set that is refused; the last record where none is (PLAN_ACCEPTED, PLAN_WISH_NOT_MET); 0, which is no
 *             record, where no set was tried
 *    8 to 15  with STATION_OVERLAP the parts that both instructions take, with STATION_OUT_OF_TURN the lift, as in what is set apart; else 0
 *   16        the place of the instruction at fault in that set, as station_request tells it, or PLAN_NO_INSTRUCTION
 *   17        with STATION_OVERLAP the first instruction of that set that it overlaps, else PLAN_NO_INSTRUCTION */
enum { PLAN_GROUNDS = 18, PLAN_RECORD = 0, PLAN_PARTS = 8, PLAN_PLACE = 16, PLAN_EARLIER = 17 };

/* Where no instruction is at fault. */
enum { PLAN_NO_INSTRUCTION = 255 };

/* The bytes of stack that a call may take on x86-64, below the frame that makes it. No theorem says so: it is added up over the archive's
 * instructions for every path, which comes to 632, and measured on calls; the C library's memcpy and the like are left out. */
enum { PLAN_STACK_MOST = 1024 };

/* What the plan of these bytes is told: PLAN_NUMBER and PLAN_SET take the answer apart. */
uint32_t plan_judge(const uint8_t *plan, size_t plan_length);

/* The same, and writes the grounds to the first PLAN_GROUNDS bytes of the room, whatever the plan is told. With a shorter room nothing is
 * written, and STATION_NO_ROOM and PLAN_NO_SET are returned. */
uint32_t plan_explain(const uint8_t *plan, size_t plan_length, uint8_t *room, size_t room_length);

#ifdef __cplusplus
}
#endif

#endif

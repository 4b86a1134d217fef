/* panel.h: the plain station and the service panel, for a host in C or C++ that explains.
 *
 * The plain station follows the rules as the paper has them, cell by cell: forty cells, twelve shuttles' slots and the lift, each yes or no.
 * On every sound record and every fit station it says what the station of station.h says, which is proved; so a host that has one need not
 * call the other, and a host that calls both must never see them differ. It is slower. The panel says of an instruction on a record each of
 * its conditions, in the paper's order: whether it holds, what would be told if it were the first to fail, and which cells, slots or
 * whether the lift decide it. docs/PANEL.md has it in words, and bin/panel is a program over these entries.
 *
 * The entries are proved to answer what the definitions in crates/panel_c/specs/ say, on every input; nothing proves this header or its
 * caller right, so what a caller must see to is what station.h says of its own entries: pointers valid for the lengths that follow them,
 * room for writing that overlaps nothing else that is lent to the call, no two threads in calls on one station. With a length of 0 any
 * pointer will do, NULL too. Any number and any bytes may be passed. No entry allocates, prints, waits, or keeps anything between calls.
 * None takes more stack than PANEL_STACK_MOST.
 *
 * Answers are those of station.h, and so are the numbers: STATION_NUMBER, STATION_PLACE and STATION_SET take them apart. A call that isn't
 * answered with 0 writes nothing, and bytes past what is written keep their values.
 */
#ifndef PANEL_H
#define PANEL_H

#include "station.h"

#ifdef __cplusplus
extern "C" {
#endif

/* Sizes in bytes. */
enum {
    PANEL_CONDITION_SIZE = 11, /* a condition explained */
    PANEL_CARS_SIZE = 31       /* the places of the cars, which are at most 30 */
};

/* Where a condition's bytes have what: whether there is a condition of this number, whether it holds (1 or 0 each), the number that is told
 * where it is the first to fail, and the parts that decide it, in eight bytes, the lowest first. */
enum { PANEL_IS_THERE = 0, PANEL_HOLDS = 1, PANEL_WHY = 2, PANEL_PARTS = 3 };

/* The parts are a number with a bit for each: 0 to 39 the cells and 40 to 51 the shuttles' slots, as in a record, and PANEL_LIFT the lift.
 * A condition that the instruction's own words decide has none. */
enum { PANEL_LIFT = 52 };

/* No instruction has more conditions. */
enum { PANEL_CONDITIONS_MOST = 6 };

/* The place of a car on the raised lift; any other is the cell where the car begins. */
enum { PANEL_RAISED = 52 };

/* How many cars panel_cars told. */
#define PANEL_CARS(answer) STATION_SET(answer)

/* The bytes of stack that a call may take on x86-64, below the frame that makes it. No theorem says so: it is measured on many calls, and
 * added up over the archive's instructions for every path; the C library's memcpy and the like are left out. */
enum { PANEL_STACK_MOST = 8192 };

/* ---- the plain station: calls on a lent one, the same bytes as for station.h */

/* As station_request, number for number and byte for byte. */
uint32_t plain_request(uint8_t *room, size_t room_length, uint8_t count, const uint8_t *set, size_t set_length);

/* As station_event. */
uint32_t plain_event(uint8_t *room, size_t room_length, uint8_t way);

/* As station_result. */
uint32_t plain_result(uint8_t *room, size_t room_length, uint16_t issue, uint8_t number, uint8_t ending);

/* ---- the panel: questions on a record; no station is needed */

/* Condition `c`, from 0 in the paper's order, of the instruction that the first five bytes of `five` say, on the record `image`: writes
 * PANEL_CONDITION_SIZE bytes to `room`. 17 where that is too short, 1 where there are fewer than five bytes, 4 where they say no
 * instruction, 15 where the record isn't sound. Past the last condition PANEL_IS_THERE is 0, PANEL_HOLDS 1, PANEL_WHY 20, and there are no
 * parts. The conditions know nothing of a drive under way: panel_next does. */
uint32_t panel_condition(uint64_t image, const uint8_t *five, size_t five_length, uint8_t c, uint8_t *room, size_t room_length);

/* The record after the instruction, by the plain engine: writes its eight bytes to `next`. 17 where that is too short, 1, 15 where the record
 * isn't sound, then as garage_next: 4, 31, 20 to 28. */
uint32_t panel_next(uint64_t image, const uint8_t *five, size_t five_length, uint8_t *next, size_t next_length);

/* The cars of the record, by walking its rows: writes PANEL_CARS_SIZE bytes to `room`, for each car the cell where it begins (of two half
 * cells in row 1 the lower), row 1 first, then rows 2 and 3, PANEL_RAISED last, and zeros past them. PANEL_CARS(answer) of them are cars. 17
 * where the room is too short, 15 where the record isn't sound. */
uint32_t panel_cars(uint64_t image, uint8_t *room, size_t room_length);

#ifdef __cplusplus
}
#endif

#endif

/* The week in numbers: entries for a host in C or C++ that keeps the report's totals beside its station.
 *
 * The totals say how many messages of each kind came, how many answers of each number were given, how many results and drives were
 * taken, and the most cars that there were. The entries below are proved to answer what the definitions in
 * crates/report_c/specs/Entries.antt say, on every input; nothing proves this header or its caller right, so what a caller must see to is
 * what station.h says of its own entries: pointers valid for the lengths that follow them, rooms for writing that overlap nothing else
 * that is lent to the call, one thread at a time on one room of totals. Any numbers and any bytes may be passed. No entry allocates,
 * prints, waits, or keeps anything between calls; none takes more stack than REPORT_STACK_MOST.
 *
 * How to keep totals beside a station. Each message is counted on the station as it is before the message, so the two calls come in this
 * order, with the same bytes:
 *
 *     report_start(totals, sizeof totals);
 *     station_start(station, sizeof station);
 *     for each message:
 *         told = report_message(totals, sizeof totals, station, sizeof station, message, length);
 *         station_message(station, sizeof station, message, length, reply, sizeof reply);
 *
 * report_message only reads the station's room. What it counts is what station_message then answers, if nothing changed the station in
 * between and the reply has room: a refused message counts under its kind, once that was read and known, and under the number that
 * refuses it. A station's room with bytes that are no station is answered with 16, and counted so. Calls other than station_message are
 * not messages, and are not counted.
 *
 * Totals are lent as REPORT_TOTALS bytes: each total four bytes, the lowest first, the one at place p at bytes 4p to 4p + 3
 * (REPORT_TOTAL reads it). All bytes are totals: they may be copied, kept, and put back as they are. A longer room is fine, and what
 * stands past those bytes keeps its value.
 *
 * Answers. An entry answers with a number and a place; REPORT_NUMBER and REPORT_PLACE take them apart. Numbers are those of station.h,
 * and REPORT_FULL. The place is that of the total that is full, else it is REPORT_NONE. A call that isn't answered with 0 writes
 * nothing.
 */
#ifndef REPORT_H
#define REPORT_H

#include <stddef.h>
#include <stdint.h>

#ifdef __cplusplus
extern "C" {
#endif

/* The parts of an answer; the length is that of a text that was written. */
#define REPORT_NUMBER(answer) ((uint8_t)((answer) & 0xFFu))
#define REPORT_PLACE(answer) ((uint8_t)(((answer) >> 8) & 0xFFu))
#define REPORT_LENGTH(answer) ((uint16_t)(((answer) >> 16) & 0xFFFFu))

/* The numbers that are answered. */
enum {
    REPORT_TAKEN = 0,     /* taken */
    REPORT_BAD_FIELD = 4, /* what is said to be full is neither a place nor REPORT_NONE */
    REPORT_NO_ROOM = 17,  /* lent room is too short */
    REPORT_FULL = 40      /* the total at the place that is told is about to pass 4,294,967,295 */
};

/* Sizes in bytes, and how many totals there are. */
enum {
    REPORT_TOTALS = 208,     /* totals */
    REPORT_TEXT_MOST = 1092, /* enough for the longest text */
    REPORT_PLACES = 52       /* how many totals: places 0 to 51 */
};

/* The place where no total is full. */
enum { REPORT_NONE = 255 };

/* The places, in the report's order. An answer's number has its place whether or not it is in use. */
#define REPORT_KIND(kind) ((kind) - 1)       /* messages of kind 1 to 5: places 0 to 4 */
#define REPORT_ANSWER(number) (5 + (number)) /* answers with number 0 to 33: places 5 to 38 */
#define REPORT_DONE(op) (38 + (op))          /* results taken as done, by opcode 1 to 5: places 39 to 43 */
#define REPORT_FAILED(op) (43 + (op))        /* results taken as failed or stuck: places 44 to 48 */
enum {
    REPORT_CARS_IN = 49,  /* drives in that were done */
    REPORT_CARS_OUT = 50, /* drives out that were done */
    REPORT_MOST_CARS = 51 /* the most cars after any message; no count, and never full */
};

/* The total at a place. */
#define REPORT_BYTE(totals, place, i) ((uint32_t)(totals)[4 * (place) + (i)] << (8 * (i)))
#define REPORT_TOTAL(totals, place) \
    (REPORT_BYTE(totals, place, 0) | REPORT_BYTE(totals, place, 1) | REPORT_BYTE(totals, place, 2) | REPORT_BYTE(totals, place, 3))

/* The bytes of stack that a call may take on x86-64, below the frame that makes it. No theorem says so: it is added up over the archive's
 * instructions for every path. That comes to 3720 for report_lines, which has its whole text there, to 1464 for report_message and to 8 for
 * report_start; the C library's memcpy and the like are left out. */
enum { REPORT_STACK_MOST = 3840 };

/* Writes zeros as the totals of a new report, whatever was there. 17 where `totals` has fewer than REPORT_TOTALS bytes. */
uint32_t report_start(uint8_t *totals, size_t totals_length);

/* Counts the first message of `message`, by what it does on the station in `station`, which is left as it is. 17 where `totals` has fewer
 * than REPORT_TOTALS bytes or `station` fewer than STATION_SIZE; 40 where a total would pass 4,294,967,295: then all totals stay as they
 * were, and the place is that of the first in order. What stands past the first message is not looked at; bytes that are cut short, or
 * none, count as the refusal that station_message answers them with. */
uint32_t report_message(uint8_t *totals, size_t totals_length, const uint8_t *station, size_t station_length, const uint8_t *message,
                        size_t message_length);

/* Writes the report's text to `out`, with no zero byte at its end: a line `name value` for each total of an answer in use and each other
 * one; or, where `full` is a place, the line `full name` alone. `full` is the place that report_message told, REPORT_NONE where none is.
 * 4 where it is neither that nor below REPORT_PLACES; 17 where `totals` has fewer than REPORT_TOTALS bytes or `out` fewer than the text
 * (REPORT_TEXT_MOST is always enough). Taken, the answer has the text's length: REPORT_LENGTH. */
uint32_t report_lines(const uint8_t *totals, size_t totals_length, uint8_t full, uint8_t *out, size_t out_length);

#ifdef __cplusplus
}
#endif

#endif

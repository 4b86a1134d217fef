/* The floor on paper: entries for a host in C or C++ that writes a record as a drawing, and reads one that somebody has drawn; and what is
 * set apart, in a second drawing.
 *
 * A drawing is six lines of text, each ended by one line feed. This is the record that a station starts with:
 *
 *     ....................     row 1: a mark for each of its twenty half cells, `#` occupied and `.` free
 *     ..........               row 2: ten marks
 *     ..........               row 3: ten marks
 *     LLT                      the left side's shuttles in rows 1, 2, 3: `L` lowered, `T` tilted, `B` both, `-` none
 *     LLT                      the right side's
 *     street                   the lift: `street`, `rotation` or `basement`; then ` car` where one is on the raised lift; then ` in` or
 *                              ` out` where a drive is under way
 *
 * What is set apart is six such lines: a cell that is set apart is `x`; a letter tells which slots of a shuttle's position are; the last line
 * is `lift` where the lift is set apart, else `-`.
 *
 * Every record that is sound (garage_sound) has one drawing, of DRAWING_LEAST to DRAWING_MOST bytes, and so has every number of the 53 parts,
 * of DRAWING_APART_LEAST or DRAWING_APART_MOST. A text that is read is the only one of its number, and none is read as both. The entries are proved to answer what the definitions in crates/drawing/specs/ and
 * crates/drawing_c/specs/ say, on every input; nothing proves this header or its caller right, so what a caller must see to is what station.h
 * says of its own entries: pointers valid for the lengths that follow them, room for writing that overlaps nothing else that is lent to the
 * call. With a length of 0 any pointer will do, NULL too. Any number and any bytes may be passed. No station is needed. No entry allocates,
 * prints, waits, or keeps anything between calls: any number of threads may be in them. None takes more stack than DRAWING_STACK_MOST.
 *
 * Answers. An entry answers with a number and a place, and of a drawing that was written its length: DRAWING_NUMBER, DRAWING_PLACE and
 * DRAWING_LENGTH take them apart. The place is the first bad line where the number is DRAWING_BAD_LINE, else DRAWING_NOWHERE. A call that
 * isn't answered with 0 writes nothing. No entry writes a zero byte behind the text, or looks for one.
 */
#ifndef DRAWING_H
#define DRAWING_H

#include <stddef.h>
#include <stdint.h>

#ifdef __cplusplus
extern "C" {
#endif

/* The parts of an answer; the length is that of a drawing that was written. */
#define DRAWING_NUMBER(answer) ((uint8_t)((answer) & 0xFFu))
#define DRAWING_PLACE(answer) ((uint8_t)(((answer) >> 8) & 0xFFu))
#define DRAWING_LENGTH(answer) ((uint16_t)(((answer) >> 16) & 0xFFFFu))

/* The numbers that are answered. */
enum {
    DRAWING_TAKEN = 0,    /* written, or read */
    DRAWING_UNSOUND = 15, /* the record is no possible garage; or no part has that bit */
    DRAWING_NO_ROOM = 17, /* lent room is too short */
    DRAWING_BAD_LINE = 41 /* not a drawing: the line at the place that is told is the first that isn't of its form */
};

/* Sizes in bytes. */
enum {
    DRAWING_LEAST = 58,    /* the shortest drawing */
    DRAWING_MOST = 66,     /* the longest: enough for every one */
    DRAWING_APART_LEAST = 53, /* the drawing of what is set apart, without the lift */
    DRAWING_APART_MOST = 56,  /* and with it */
    DRAWING_IMAGE_SIZE = 8 /* a record, or what is set apart */
};

/* Lines are told from 0 to 5; one past them is told where text follows the last line. */
enum { DRAWING_PAST_THE_LAST = 6, DRAWING_NOWHERE = 255 };

/* The bytes of stack that a call may take on x86-64, below the frame that makes it. No theorem says so: it is added up over the archive's
 * instructions for every path, which comes to 304 for drawing_write and 320 for drawing_read, and measured on calls; the C
 * library's memcpy and the like are left out. */
enum { DRAWING_STACK_MOST = 640 };

/* Writes the drawing of the record `image` to `text`. 15 where the record isn't sound; then 17 where `text` has fewer bytes than the drawing
 * (DRAWING_MOST is always enough). Taken, the answer has the drawing's length, and bytes past it keep their values. */
uint32_t drawing_write(uint64_t image, uint8_t *text, size_t text_length);

/* Reads the drawing that is all of `text`, and writes its record to the first DRAWING_IMAGE_SIZE bytes of `room`, the lowest byte first; bytes
 * past them keep their values. 17 where `room` has fewer bytes; then 41 where the text isn't a drawing, with the first line that isn't of
 * its form: a line that isn't there or whose line feed is missing is such a line, so of a text of no bytes line 0 is told, and
 * DRAWING_PAST_THE_LAST where something follows six good lines; then 15 where a garage is drawn that can't be. */
uint32_t drawing_read(const uint8_t *text, size_t text_length, uint8_t *room, size_t room_length);

/* Writes the drawing of what is set apart, the second number that station_ask returns. 15 where it has a bit above 52; then 17. Taken, as
 * drawing_write. */
uint32_t drawing_write_apart(uint64_t apart, uint8_t *text, size_t text_length);

/* Reads the drawing of what is set apart, as drawing_read does that of a record; never 15. */
uint32_t drawing_read_apart(const uint8_t *text, size_t text_length, uint8_t *room, size_t room_length);

#ifdef __cplusplus
}
#endif

#endif

/* One call of an entry of station.h with all that it is given, for programs that make calls as they are told to. command.rs has the
 * same for the reference, with the same numbers. */
#ifndef COMMAND_H
#define COMMAND_H

#include "station.h"

struct lent {
    uint8_t *bytes;
    size_t size;
};

/* What an entry doesn't take is not looked at. */
struct command {
    uint8_t entry;
    uint8_t first, second; /* its byte arguments: a count, an event, or a number and an outcome */
    uint16_t issue;        /* the set that a result is of */
    uint64_t image, apart; /* a record, and what it sets apart */
    uint32_t card;         /* a card's number */
    struct lent room, in, out; /* the station, or the second of two instructions; a run of bytes to read; a run to write */
};

enum { START, REQUEST, EVENT, RESULT, IMAGE, ASK, MESSAGE, SOUND, CARS, ALLOWED, NEXT, AREA, OVERLAP, VERSION, ENTRIES };

/* A run of bytes crosses as its address and its length. */
#define LENT(run) (run).bytes, (run).size

/* Makes the call and gives what it returned; the number must be an entry's. */
static inline uint32_t call_entry(const struct command *c) {
    switch (c->entry) {
    case START: return station_start(LENT(c->room));
    case REQUEST: return station_request(LENT(c->room), c->first, LENT(c->in));
    case EVENT: return station_event(LENT(c->room), c->first);
    case RESULT: return station_result(LENT(c->room), c->issue, c->first, c->second);
    case IMAGE: return station_image(LENT(c->room), c->image, c->apart);
    case ASK: return station_ask(LENT(c->room), LENT(c->out));
    case MESSAGE: return station_message(LENT(c->room), LENT(c->in), LENT(c->out));
    case SOUND: return garage_sound(c->image);
    case CARS: return garage_cars(c->image);
    case ALLOWED: return garage_allowed(c->image, LENT(c->in));
    case NEXT: return garage_next(c->image, LENT(c->in), LENT(c->out));
    case AREA: return garage_area(LENT(c->in), LENT(c->out));
    case OVERLAP: return garage_overlap(LENT(c->in), LENT(c->room));
    default: return station_version();
    }
}

#endif

/* One call of an entry of desk.h, as command.h has them for station.h; desk_command.rs has the same for the reference. */
#ifndef DESK_COMMAND_H
#define DESK_COMMAND_H

#include "command.h"
#include "desk.h"

enum {
    DESK_START,
    DESK_REQUEST,
    DESK_EVENT,
    DESK_RESULT,
    DESK_IMAGE,
    DESK_ASK,
    DESK_WHERE,
    DESK_LEAVING,
    DESK_LIST,
    DESK_OUTSTANDING,
    DESK_COMPARE,
    DESK_ENTRIES
};

/* Makes the call and gives what it returned; the number must be an entry's. */
static inline uint32_t call_desk(const struct command *c) {
    switch (c->entry) {
    case DESK_START: return desk_start(LENT(c->room));
    case DESK_REQUEST: return desk_request(LENT(c->room), c->first, LENT(c->in));
    case DESK_EVENT: return desk_event(LENT(c->room), c->first, c->card);
    case DESK_RESULT: return desk_result(LENT(c->room), c->issue, c->first, c->second);
    case DESK_IMAGE: return desk_image(LENT(c->room), c->image, c->apart, c->first, LENT(c->in));
    case DESK_ASK: return desk_ask(LENT(c->room), LENT(c->out));
    case DESK_WHERE: return desk_where(LENT(c->room), c->card);
    case DESK_LEAVING: return desk_leaving(LENT(c->room), LENT(c->out));
    case DESK_LIST: return desk_list(LENT(c->room), LENT(c->out));
    case DESK_OUTSTANDING: return desk_outstanding(LENT(c->room), LENT(c->out));
    default: return desk_compare(LENT(c->room), c->image, c->apart, c->first, LENT(c->in), LENT(c->out));
    }
}

#endif

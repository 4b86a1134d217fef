/* One call of an entry of panel.h, as command.h has them for station.h; panel_command.rs has the same for the reference. */
#ifndef PANEL_COMMAND_H
#define PANEL_COMMAND_H

#include "command.h"
#include "panel.h"

enum { PLAIN_REQUEST, PLAIN_EVENT, PLAIN_RESULT, PANEL_CONDITION, PANEL_NEXT, PANEL_CARS_OF, PANEL_ENTRIES };

/* Makes the call and gives what it returned; the number must be an entry's. */
static inline uint32_t call_panel(const struct command *c) {
    switch (c->entry) {
    case PLAIN_REQUEST: return plain_request(LENT(c->room), c->first, LENT(c->in));
    case PLAIN_EVENT: return plain_event(LENT(c->room), c->first);
    case PLAIN_RESULT: return plain_result(LENT(c->room), c->issue, c->first, c->second);
    case PANEL_CONDITION: return panel_condition(c->image, LENT(c->in), c->first, LENT(c->out));
    case PANEL_NEXT: return panel_next(c->image, LENT(c->in), LENT(c->out));
    default: return panel_cars(c->image, LENT(c->out));
    }
}

#endif

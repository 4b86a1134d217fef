/* Runs the entries of station.h, behind them those of desk.h, and behind these those of panel.h, on commands from standard input and writes
 * what each returned and left, so that another program can compare. A command: its number, two byte arguments, an issue of two bytes, an
 * image of eight, what it sets apart in eight more, a card's number of four, and three lent runs of bytes, each with a byte for its length,
 * or with 255 and two bytes for a longer one's. An answer: four bytes, how many bytes of stack the call took in four more, then the two rooms
 * that an entry may write. All numbers have the lowest byte first. */
#include "desk_command.h"
#include "panel_command.h"
#include "stack.h"
#include "told.h"

/* The longest run: what an image would change, and some bytes behind it. */
enum { RUN_MOST = 600, LONG_RUN = 255 };

/* A run is lent in its own room; where it has no bytes, every other time at NULL. */
static void take_run(struct lent *run, uint8_t *room) {
    static bool odd;
    run->size = take_byte();
    if (run->size == LONG_RUN)
        run->size = (size_t)take_number(2);
    if (run->size > RUN_MOST) {
        fprintf(stderr, "a run is too long\n");
        exit(1);
    }
    take(room, run->size);
    odd = !odd;
    run->bytes = run->size == 0 && odd ? NULL : room;
}

struct answered {
    struct command command;
    uint32_t answer;
};

static void answer_command(void *given) {
    struct answered *it = given;
    it->answer = call_entry(&it->command);
}

static void answer_at_desk(void *given) {
    struct answered *it = given;
    it->answer = call_desk(&it->command);
}

static void answer_by_panel(void *given) {
    struct answered *it = given;
    it->answer = call_panel(&it->command);
}

/* One behind the other. */
enum { GROUPS = 3 };
static const struct {
    int entries;
    void (*answer)(void *);
} groups[GROUPS] = {{ENTRIES, answer_command}, {DESK_ENTRIES, answer_at_desk}, {PANEL_ENTRIES, answer_by_panel}};

int main(void) {
    static uint8_t room[RUN_MOST], in[RUN_MOST], out[RUN_MOST];
    struct answered it;
    int entry;
    if (station_version() != STATION_VERSION) {
        fprintf(stderr, "the header is of another version than the archive\n");
        return 1;
    }
    while ((entry = getchar()) != EOF) {
        size_t group = 0;
        while (group < GROUPS && entry >= groups[group].entries)
            entry -= groups[group++].entries;
        if (group == GROUPS) {
            fprintf(stderr, "unknown command\n");
            return 1;
        }
        it.command.entry = (uint8_t)entry;
        it.command.first = take_byte();
        it.command.second = take_byte();
        it.command.issue = (uint16_t)take_number(2);
        it.command.image = take_number(8);
        it.command.apart = take_number(8);
        it.command.card = (uint32_t)take_number(4);
        take_run(&it.command.room, room);
        take_run(&it.command.in, in);
        take_run(&it.command.out, out);
        size_t stack = stack_of(groups[group].answer, &it);
        give_number(it.answer);
        give_number((uint32_t)stack);
        give_run(LENT(it.command.room));
        give_run(LENT(it.command.out));
    }
    return 0;
}

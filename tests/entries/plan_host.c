/* Asks plan_judge and plan_explain (plan.h) for each plan of standard input and writes what they returned, so that another program can
 * compare. A plan: four bytes for its length, and its bytes. An answer: four bytes for each, how many bytes of stack the calls took at most
 * in four more, and the grounds. All numbers have the lowest byte first. A plan is lent where it can't be written, and ends against a page
 * that can't be touched, and so does the room; a plan of no bytes is lent at NULL. */
#define _GNU_SOURCE
#include "../fuzz/guards.h"
#include "plan.h"
#include "stack.h"
#include "told.h"

enum { MOST = 1 << 19, ROOM_PAGE = 1 << 16 }; /* more than the longest plan that has a form; a page on every machine */

struct asked {
    const uint8_t *plan;
    size_t size;
    uint8_t *room;
    uint32_t answer, explained;
};

static void ask(void *given) {
    struct asked *it = given;
    it->answer = plan_judge(it->plan, it->size);
    it->explained = plan_explain(it->plan, it->size, it->room, PLAN_GROUNDS);
}

int main(void) {
    struct page page, room;
    open_page(&page, MOST);
    open_page(&room, ROOM_PAGE);
    uint8_t size[4];
    while (fread(size, 1, sizeof size, stdin) == sizeof size) {
        struct asked it;
        it.size = size[0] | (size_t)size[1] << 8 | (size_t)size[2] << 16 | (size_t)size[3] << 24;
        if (it.size > MOST || fread(page.writable + MOST - it.size, 1, it.size, stdin) != it.size) {
            fprintf(stderr, "a plan was cut short, or is too long\n");
            return 1;
        }
        it.room = room.writable + ROOM_PAGE - PLAN_GROUNDS;
        it.plan = it.size == 0 ? NULL : page.readable + MOST - it.size;
        size_t stack = stack_of(ask, &it);
        give_number(it.answer);
        give_number(it.explained);
        give_number((uint32_t)stack);
        give_run(it.room, PLAN_GROUNDS);
    }
    return 0;
}

/* Makes the calls of drawing.h that standard input tells and writes what each returned and left, so that another program can compare. A call:
 * 0 to write or 1 to read a drawing of a record, 2 or 3 one of what is set apart, 1 where it may write its room or 0, a record of eight bytes, four bytes for the length of the text to read and
 * four for that of the room, then both. An answer: four bytes, how many bytes of stack the call took in four more, and the room. All numbers
 * have the lowest byte first. A text to read is lent where it can't be written, and so is a room that the call may not write; in turns both
 * end against a page that can't be touched, or begin behind one; of no bytes they are then lent at NULL. */
#define _GNU_SOURCE
#include "../fuzz/guards.h"
#include "drawing.h"
#include "stack.h"
#include "told.h"

enum { MOST = 1 << 16 }; /* of each run */

struct called {
    uint8_t entry;
    uint64_t image;
    const uint8_t *text;
    uint8_t *room;
    size_t text_size, room_size;
    uint32_t answer;
};

static void call(void *given) {
    struct called *it = given;
    switch (it->entry) {
    case 0: it->answer = drawing_write(it->image, it->room, it->room_size); break;
    case 1: it->answer = drawing_read(it->text, it->text_size, it->room, it->room_size); break;
    case 2: it->answer = drawing_write_apart(it->image, it->room, it->room_size); break;
    default: it->answer = drawing_read_apart(it->text, it->text_size, it->room, it->room_size);
    }
}

/* Takes a run's bytes to where it is lent, and says how far that is into its page. */
static size_t take_run(const struct page *page, size_t size, int low) {
    size_t at = low ? 0 : MOST - size;
    take(page->writable + at, size);
    return at;
}

int main(void) {
    struct page text, room;
    open_page(&text, MOST);
    open_page(&room, MOST);
    int entry, low = 0;
    while ((entry = getchar()) != EOF) {
        struct called it = {.entry = (uint8_t)entry};
        uint8_t writes = take_byte();
        it.image = take_number(8);
        it.text_size = take_number(4);
        it.room_size = take_number(4);
        if (it.text_size > MOST || it.room_size > MOST) {
            fprintf(stderr, "a run is too long\n");
            return 1;
        }
        size_t text_at = take_run(&text, it.text_size, low), room_at = take_run(&room, it.room_size, low);
        it.text = low && it.text_size == 0 ? NULL : text.readable + text_at;
        it.room = low && it.room_size == 0 ? NULL : (writes ? room.writable : room.readable) + room_at;
        size_t stack = stack_of(call, &it);
        give_number(it.answer);
        give_number((uint32_t)stack);
        give_run(room.readable + room_at, it.room_size);
        low = !low;
    }
    return 0;
}

/* Tries a board's own memcpy, memmove, memset and memcmp: every size up to MOST at every distance, the runs apart and overlapping, at places
 * of every alignment; what is round them must stay. Writes one line. The entries call these with few sizes and never on runs that
 * overlap, so that a fault here could be long unseen. */
#include <stddef.h>
#include <stdint.h>
#include <stdio.h>

void *memcpy(void *to, const void *from, size_t size);
void *memmove(void *to, const void *from, size_t size);
void *memset(void *to, int byte, size_t size);
int memcmp(const void *one, const void *other, size_t size);

enum { MOST = 24, ROOM = 4 * MOST };
static uint8_t room[ROOM], expected[ROOM];

static void say(const char *text) {
    while (*text != 0)
        putchar(*text++);
    putchar('\n');
}

static void fill(void) {
    for (int at = 0; at < ROOM; at++)
        room[at] = expected[at] = (uint8_t)(7 * at + 1);
}

static int same(void) {
    for (int at = 0; at < ROOM; at++)
        if (room[at] != expected[at])
            return 0;
    return 1;
}

/* From one place to another; `apart` by memcpy. */
static int moved(int to, int from, int size, int apart) {
    uint8_t between[MOST];
    fill();
    for (int at = 0; at < size; at++)
        between[at] = room[from + at];
    for (int at = 0; at < size; at++)
        expected[to + at] = between[at];
    void *gave = apart ? memcpy(room + to, room + from, (size_t)size) : memmove(room + to, room + from, (size_t)size);
    return gave == room + to && same();
}

static int set(int to, int size) {
    fill();
    for (int at = 0; at < size; at++)
        expected[to + at] = 0xA5;
    return memset(room + to, 0x1A5, (size_t)size) == room + to && same();
}

static int compared(int one, int other, int size) {
    for (int at = 0; at < ROOM; at++)
        room[at] = 0x80;
    if (memcmp(room + one, room + other, (size_t)size) != 0)
        return 0;
    if (size == 0)
        return 1;
    room[one + size - 1] = 0x81;
    return memcmp(room + one, room + other, (size_t)size) > 0 && memcmp(room + other, room + one, (size_t)size) < 0;
}

int main(void) {
    for (int size = 0; size <= MOST; size++) {
        for (int from = 0; from < MOST + 4; from++) {
            for (int to = 0; to + size <= ROOM; to++)
                if (!moved(to, from, size, 0))
                    return say("memory: memmove is wrong"), 0;
            if (!moved(from + MOST, from, size, 1) || !moved(from, from + MOST, size, 1))
                return say("memory: memcpy is wrong"), 0;
            if (!set(from, size))
                return say("memory: memset is wrong"), 0;
            if (!compared(from, from + MOST, size))
                return say("memory: memcmp is wrong"), 0;
        }
    }
    say("memory: well");
    return 0;
}

/* A station on a board: reads messages from the serial line and answers each, as the program `station` does without a journal. After a
 * length that is out of range, or bytes that were lost, nobody knows where the next message begins: the refusal is the last answer, and
 * a reset begins anew with an empty garage. */
#include "board.h"
#include "station.h"

enum { LENGTH_SIZE = 2, LEAST = 2, MOST = STATION_MESSAGE_MOST - LENGTH_SIZE };

static uint8_t room[STATION_SIZE], message[STATION_MESSAGE_MOST], reply[STATION_REPLY_MOST];

/* Reads a message; gives its size, or only the length's own where that is out of range. */
static uint32_t take_message(void) {
    message[0] = serial_take();
    message[1] = serial_take();
    uint32_t follow = message[0] | (uint32_t)message[1] << 8, size = LENGTH_SIZE;
    if (follow < LEAST || follow > MOST)
        return size;
    while (follow-- > 0)
        message[size++] = serial_take();
    return size;
}

int main(void) {
    station_start(room, sizeof room);
    for (;;) {
        uint32_t size = take_message();
        if (serial_lost())
            message[0] = message[1] = 0, size = LENGTH_SIZE;
        station_message(room, sizeof room, message, size, reply, sizeof reply);
        for (uint32_t at = 0; at < LENGTH_SIZE + (uint32_t)reply[0]; at++)
            serial_give(reply[at]);
        if (size == LENGTH_SIZE)
            return 0;
    }
}

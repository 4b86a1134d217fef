/* Time and stack of each call of desk.h, behind the station's own on the same garage of thirteen cars, as calls.h measures them: the lines
 * come in pairs, and last the two questions that only a desk answers. */
#define _POSIX_C_SOURCE 200809L
#include "calls.h"
#include "desk.h"

/* Two cars in row 1, five in each of the other rows, one on the raised lift. */
#define CARS UINT64_C(0x00191B0F83E0018C)
enum { CARDS = 13 };

static uint8_t station[STATION_SIZE], moving_station[STATION_SIZE], desk[DESK_SIZE], moving_desk[DESK_SIZE], room[DESK_SIZE];
static uint8_t cards[DESK_CARD_SIZE * CARDS], image[STATION_SHOWN_SIZE], card[DESK_CARD_SIZE];
static const uint8_t belt[STATION_CODE_SIZE] = {GARAGE_BELTS, 2, 2, GARAGE_HIGHER, GARAGE_FULL};

CALL(station_start) { station_start(room, STATION_SIZE); }
CALL(desk_start) { desk_start(room, DESK_SIZE); }
CALL(station_request) { memcpy(room, station, STATION_SIZE); station_request(room, STATION_SIZE, 1, belt, sizeof belt); }
CALL(desk_request) { memcpy(room, desk, DESK_SIZE); desk_request(room, DESK_SIZE, 1, belt, sizeof belt); }
CALL(station_event) { memcpy(room, station, STATION_SIZE); station_event(room, STATION_SIZE, STATION_BEGIN_OUT); }
CALL(desk_event) { memcpy(room, desk, DESK_SIZE); desk_event(room, DESK_SIZE, STATION_BEGIN_OUT, 0); }
CALL(station_result) { memcpy(room, moving_station, STATION_SIZE); station_result(room, STATION_SIZE, 0, 0, STATION_DONE); }
CALL(desk_result) { memcpy(room, moving_desk, DESK_SIZE); desk_result(room, DESK_SIZE, 0, 0, STATION_DONE); }
CALL(station_image) { memcpy(room, station, STATION_SIZE); station_image(room, STATION_SIZE, CARS, 0); }
CALL(desk_image) { memcpy(room, desk, DESK_SIZE); desk_image(room, DESK_SIZE, CARS, 0, CARDS, cards, sizeof cards); }
CALL(station_ask) { station_ask(station, STATION_SIZE, image, sizeof image); }
CALL(desk_ask) { desk_ask(desk, DESK_SIZE, image, sizeof image); }
CALL(desk_where) { desk_where(desk, DESK_SIZE, 7000 + CARDS - 1); }
CALL(desk_leaving) { desk_leaving(desk, DESK_SIZE, card, sizeof card); }

static const struct entry entries[] = {
    {"station_start", call_station_start},     {"desk_start", call_desk_start},     {"station_request", call_station_request},
    {"desk_request", call_desk_request},       {"station_event", call_station_event}, {"desk_event", call_desk_event},
    {"station_result", call_station_result},   {"desk_result", call_desk_result},   {"station_image", call_station_image},
    {"desk_image", call_desk_image},           {"station_ask", call_station_ask},   {"desk_ask", call_desk_ask},
    {"desk_where", call_desk_where},           {"desk_leaving", call_desk_leaving},
};

int main(int words, char **word) {
    for (uint32_t at = 0; at < CARDS; at++)
        for (int byte = 0; byte < DESK_CARD_SIZE; byte++)
            cards[DESK_CARD_SIZE * at + (uint32_t)byte] = (uint8_t)((7000 + at) >> (8 * byte));
    const uint32_t taken = STATION_NOWHERE << 8;
    bool all = station_start(station, sizeof station) == taken && station_image(station, sizeof station, CARS, 0) == taken;
    all = all && desk_start(desk, sizeof desk) == taken && desk_image(desk, sizeof desk, CARS, 0, CARDS, cards, sizeof cards) == taken;
    memcpy(moving_station, station, sizeof station);
    memcpy(moving_desk, desk, sizeof desk);
    all = all && station_request(moving_station, sizeof moving_station, 1, belt, sizeof belt) == taken;
    all = all && desk_request(moving_desk, sizeof moving_desk, 1, belt, sizeof belt) == taken;
    if (!all)
        return 1;
    measure(entries, sizeof entries / sizeof *entries, words > 1 ? word[1] : NULL);
    return 0;
}

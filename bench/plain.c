/* Time and stack of each call of panel.h, behind the packed engine's on the same garage of thirteen cars, as calls.h measures them: the
 * lines come in pairs, and last the explanation of a condition, which the packed engine doesn't have. */
#define _POSIX_C_SOURCE 200809L
#include "calls.h"
#include "panel.h"

/* Two cars in row 1, five in each of the other rows, one on the raised lift. */
#define CARS UINT64_C(0x00191B0F83E0018C)

static uint8_t station[STATION_SIZE], moving[STATION_SIZE], moving_eight[STATION_SIZE], room[STATION_SIZE];
static uint8_t next[STATION_IMAGE_SIZE], places[PANEL_CARS_SIZE], condition[PANEL_CONDITION_SIZE];
static const uint8_t belt[STATION_CODE_SIZE] = {GARAGE_BELTS, 1, 2, GARAGE_HIGHER, GARAGE_FULL};
static const uint8_t shuttle[STATION_CODE_SIZE] = {GARAGE_SHUTTLES, GARAGE_LEFT, 2, GARAGE_LOWERED, GARAGE_HIGHER};
static const uint8_t lift[STATION_CODE_SIZE] = {GARAGE_LIFT, GARAGE_BASEMENT, 0, 0, 0};
static const uint8_t eight[STATION_MOST * STATION_CODE_SIZE] = {
    GARAGE_BELTS, 1, 1,  GARAGE_LOWER, GARAGE_FULL, GARAGE_BELTS, 1, 2, GARAGE_HIGHER, GARAGE_FULL,
    GARAGE_BELTS, 1, 8,  GARAGE_LOWER, GARAGE_FULL, GARAGE_BELTS, 1, 16, GARAGE_LOWER, GARAGE_FULL,
    GARAGE_BELTS, 2, 1,  GARAGE_LOWER, GARAGE_FULL, GARAGE_BELTS, 2, 2, GARAGE_HIGHER, GARAGE_FULL,
    GARAGE_BELTS, 2, 4,  GARAGE_LOWER, GARAGE_FULL, GARAGE_BELTS, 3, 2, GARAGE_HIGHER, GARAGE_FULL,
};

#define ON(bytes) memcpy(room, bytes, STATION_SIZE)
CALL(station_request) { ON(station); station_request(room, STATION_SIZE, 1, belt, sizeof belt); }
CALL(plain_request) { ON(station); plain_request(room, STATION_SIZE, 1, belt, sizeof belt); }
CALL(station_eight) { ON(station); station_request(room, STATION_SIZE, STATION_MOST, eight, sizeof eight); }
CALL(plain_eight) { ON(station); plain_request(room, STATION_SIZE, STATION_MOST, eight, sizeof eight); }
CALL(station_event) { ON(station); station_event(room, STATION_SIZE, STATION_BEGIN_OUT); }
CALL(plain_event) { ON(station); plain_event(room, STATION_SIZE, STATION_BEGIN_OUT); }
CALL(station_result) { ON(moving); station_result(room, STATION_SIZE, 0, 0, STATION_DONE); }
CALL(plain_result) { ON(moving); plain_result(room, STATION_SIZE, 0, 0, STATION_DONE); }
CALL(station_of_eight) { ON(moving_eight); station_result(room, STATION_SIZE, 0, 7, STATION_DONE); }
CALL(plain_of_eight) { ON(moving_eight); plain_result(room, STATION_SIZE, 0, 7, STATION_DONE); }
CALL(garage_cars) { garage_cars(CARS); }
CALL(panel_cars) { panel_cars(CARS, places, sizeof places); }
#define NEXT(name) \
    CALL(garage_next_##name) { garage_next(CARS, name, sizeof name, next, sizeof next); } \
    CALL(panel_next_##name) { panel_next(CARS, name, sizeof name, next, sizeof next); }
NEXT(belt)
NEXT(shuttle)
NEXT(lift)
CALL(panel_condition) { panel_condition(CARS, lift, sizeof lift, 1, condition, sizeof condition); }

static const struct entry entries[] = {
    {"station_request", call_station_request}, {"plain_request", call_plain_request},
    {"request_of_eight", call_station_eight},  {"plain_of_eight", call_plain_eight},
    {"station_event", call_station_event},     {"plain_event", call_plain_event},
    {"station_result", call_station_result},   {"plain_result", call_plain_result},
    {"result_of_eight", call_station_of_eight}, {"plain_result_8", call_plain_of_eight},
    {"garage_cars", call_garage_cars},         {"panel_cars", call_panel_cars},
    {"next_by_belt", call_garage_next_belt},   {"panel_by_belt", call_panel_next_belt},
    {"next_by_shuttle", call_garage_next_shuttle}, {"panel_by_shuttle", call_panel_next_shuttle},
    {"next_by_lift", call_garage_next_lift},   {"panel_by_lift", call_panel_next_lift},
    {"panel_condition", call_panel_condition},
};

int main(int words, char **word) {
    const uint32_t taken = STATION_NOWHERE << 8;
    bool all = station_start(station, sizeof station) == taken && station_image(station, sizeof station, CARS, 0) == taken;
    memcpy(moving, station, sizeof station);
    memcpy(moving_eight, station, sizeof station);
    all = all && station_request(moving, sizeof moving, 1, belt, sizeof belt) == taken;
    all = all && station_request(moving_eight, sizeof moving_eight, STATION_MOST, eight, sizeof eight) == taken;
    all = all && panel_next(CARS, shuttle, sizeof shuttle, next, sizeof next) == taken;
    all = all && panel_next(CARS, lift, sizeof lift, next, sizeof next) == taken;
    if (!all)
        return 1;
    measure(entries, sizeof entries / sizeof *entries, words > 1 ? word[1] : NULL);
    return 0;
}

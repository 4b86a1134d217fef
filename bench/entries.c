/* Time and stack of each entry of station.h, of a request of eight instructions, of calls on a station where eight are outstanding, and of
 * the next record by each kind of instruction, as calls.h measures them. */
#define _POSIX_C_SOURCE 200809L
#include "calls.h"
#include "station.h"

static uint8_t start[STATION_SIZE], outstanding[STATION_SIZE], with_eight[STATION_SIZE], room[STATION_SIZE];
static uint8_t image[STATION_SHOWN_SIZE], answer[STATION_REPLY_MOST];
static uint16_t issue; /* the outstanding set's */
static const uint8_t left_belt[STATION_CODE_SIZE] = {GARAGE_BELTS, 1, 2, GARAGE_LOWER, GARAGE_FULL};
static const uint8_t shuttle[STATION_CODE_SIZE] = {GARAGE_SHUTTLES, GARAGE_LEFT, 2, GARAGE_LOWERED, GARAGE_HIGHER};
static const uint8_t tilt[STATION_CODE_SIZE] = {GARAGE_TILT, GARAGE_LEFT, 3, GARAGE_TILTED, 0};
static const uint8_t lift[STATION_CODE_SIZE] = {GARAGE_LIFT, GARAGE_BASEMENT, 0, 0, 0};
/* all belts but the lift's, one by one, as far as there are lowered shuttles */
static const uint8_t eight[STATION_MOST * STATION_CODE_SIZE] = {
    GARAGE_BELTS, 1, 1,  GARAGE_LOWER, GARAGE_FULL, GARAGE_BELTS, 1, 2, GARAGE_LOWER, GARAGE_FULL,
    GARAGE_BELTS, 1, 8,  GARAGE_LOWER, GARAGE_FULL, GARAGE_BELTS, 1, 16, GARAGE_LOWER, GARAGE_FULL,
    GARAGE_BELTS, 2, 1,  GARAGE_LOWER, GARAGE_FULL, GARAGE_BELTS, 2, 2, GARAGE_LOWER, GARAGE_FULL,
    GARAGE_BELTS, 2, 4,  GARAGE_LOWER, GARAGE_FULL, GARAGE_BELTS, 3, 2, GARAGE_LOWER, GARAGE_FULL,
};
static const uint8_t request[10] = {8, 0, STATION_KIND_REQUEST, 0, 1, GARAGE_BELTS, 1, 2, GARAGE_LOWER, GARAGE_FULL};

CALL(start) { station_start(room, STATION_SIZE); }
CALL(request) { memcpy(room, start, STATION_SIZE); station_request(room, STATION_SIZE, 1, left_belt, sizeof left_belt); }
CALL(eight) { memcpy(room, start, STATION_SIZE); station_request(room, STATION_SIZE, STATION_MOST, eight, sizeof eight); }
CALL(event) { memcpy(room, start, STATION_SIZE); station_event(room, STATION_SIZE, STATION_BEGIN_IN); }
CALL(result) { memcpy(room, outstanding, STATION_SIZE); station_result(room, STATION_SIZE, issue, 0, STATION_DONE); }
CALL(image) { memcpy(room, start, STATION_SIZE); station_image(room, STATION_SIZE, STATION_START_IMAGE, 0); }
CALL(ask) { station_ask(start, STATION_SIZE, image, sizeof image); }
CALL(message) { memcpy(room, start, STATION_SIZE); station_message(room, STATION_SIZE, request, sizeof request, answer, sizeof answer); }
CALL(result_of_eight) { memcpy(room, with_eight, STATION_SIZE); station_result(room, STATION_SIZE, issue, 0, STATION_DONE); }
CALL(event_beside_eight) { memcpy(room, with_eight, STATION_SIZE); station_event(room, STATION_SIZE, STATION_BEGIN_IN); }
CALL(ask_beside_eight) { station_ask(with_eight, STATION_SIZE, image, sizeof image); }
CALL(sound) { garage_sound(STATION_START_IMAGE); }
CALL(cars) { garage_cars(STATION_START_IMAGE); }
CALL(allowed) { garage_allowed(STATION_START_IMAGE, left_belt, sizeof left_belt); }
#define NEXT(name) CALL(next_##name) { garage_next(STATION_START_IMAGE, name, sizeof name, image, STATION_IMAGE_SIZE); }
NEXT(left_belt)
NEXT(shuttle)
NEXT(tilt)
NEXT(lift)

static const struct entry entries[] = {
    {"station_start", call_start},     {"station_request", call_request}, {"station_event", call_event}, {"station_result", call_result},
    {"station_image", call_image},     {"station_ask", call_ask},         {"station_message", call_message}, {"garage_sound", call_sound},
    {"garage_cars", call_cars},        {"garage_allowed", call_allowed},  {"request_of_eight", call_eight},
    {"result_of_eight", call_result_of_eight}, {"event_beside_eight", call_event_beside_eight}, {"ask_beside_eight", call_ask_beside_eight},
    {"next_by_belt", call_next_left_belt}, {"next_by_shuttle", call_next_shuttle}, {"next_by_tilt", call_next_tilt}, {"next_by_lift", call_next_lift},
};

int main(int words, char **word) {
    station_start(start, sizeof start);
    memcpy(outstanding, start, sizeof start);
    memcpy(with_eight, start, sizeof start);
    issue = STATION_SET(station_request(outstanding, sizeof outstanding, 1, left_belt, sizeof left_belt));
    if (station_request(with_eight, sizeof with_eight, STATION_MOST, eight, sizeof eight) != (STATION_NOWHERE << 8 | (uint32_t)issue << 16))
        return 1;
    measure(entries, sizeof entries / sizeof *entries, words > 1 ? word[1] : NULL);
    return 0;
}

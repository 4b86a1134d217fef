/* A first planner: a car drives in, the lift takes it down, and the floor is drawn. */
#include <station.h>

#include <drawing.h>
#include <stdio.h>
#include <stdlib.h>

static uint8_t room[STATION_SIZE];

/* Goes on if the call was taken, else tells the number that refuses it. */
static uint32_t taken(const char *what, uint32_t answer) {
    if (STATION_NUMBER(answer) != STATION_TAKEN) {
        fprintf(stderr, "%s: refused with %d\n", what, STATION_NUMBER(answer));
        exit(1);
    }
    printf("%s: taken\n", what);
    return answer;
}

int main(void) {
    const uint8_t down[STATION_CODE_SIZE] = {GARAGE_LIFT, GARAGE_BASEMENT, 0, 0, 0};
    uint8_t shown[STATION_SHOWN_SIZE], text[DRAWING_MOST];
    uint64_t image = 0;

    taken("start", station_start(room, sizeof room));
    taken("a drive in begins", station_event(room, sizeof room, STATION_BEGIN_IN));
    taken("it has ended, done", station_event(room, sizeof room, STATION_END_DONE));

    uint32_t set = taken("the lift down", station_request(room, sizeof room, 1, down, sizeof down));
    /* here the motor runs, and tells how it ended */
    taken("it is done", station_result(room, sizeof room, STATION_SET(set), 0, STATION_DONE));

    taken("the record", station_ask(room, sizeof room, shown, sizeof shown));
    for (int i = STATION_IMAGE_SIZE - 1; i >= 0; i--) image = image << 8 | shown[i];
    uint32_t drawn = drawing_write(image, text, sizeof text);
    printf("%u cars\n%.*s", garage_cars(image), (int)DRAWING_LENGTH(drawn), (const char *)text);
    return 0;
}

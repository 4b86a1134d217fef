/* A planner in C, as station.h and drawing.h have it: a car drives in, is parked through a jam, and is fetched. */
#include <drawing.h>
#include <station.h>
#include <station_words.h>
#include <stdio.h>
#include <stdlib.h>

static uint8_t garage[STATION_SIZE];

/* The motor's report comes from the garage; here it is told beforehand. */
struct step {
    const char *words;
    uint8_t five[STATION_CODE_SIZE];
};
static const struct step down = {"lift basement", {GARAGE_LIFT, GARAGE_BASEMENT}}, up = {"lift street", {GARAGE_LIFT, GARAGE_STREET}},
    park = {"belts row 1 left lift, lower, full", {GARAGE_BELTS, 1, 2 | 4, GARAGE_LOWER, GARAGE_FULL}},
    fetch = {"belts row 1 left lift, higher, full", {GARAGE_BELTS, 1, 2 | 4, GARAGE_HIGHER, GARAGE_FULL}};

static void accepted(const char *what, uint32_t answer) {
    if (STATION_NUMBER(answer) != STATION_TAKEN) {
        printf("%s: %d (%s)\n", what, STATION_NUMBER(answer), station_words(STATION_NUMBER(answer)));
        exit(1);
    }
}

static void event(const char *what, uint8_t begins) {
    accepted(what, station_event(garage, sizeof garage, begins));
    accepted(what, station_event(garage, sizeof garage, STATION_END_DONE));
    printf("%s: accepted\n", what);
}

/* What is asked: the record and what is set apart. */
static void ask(uint64_t *record, uint64_t *apart) {
    uint8_t shown[STATION_SHOWN_SIZE];
    accepted("ask", station_ask(garage, sizeof garage, shown, sizeof shown));
    *record = *apart = 0;
    for (int i = STATION_IMAGE_SIZE - 1; i >= 0; i--) {
        *record = *record << 8 | shown[i];
        *apart = *apart << 8 | shown[STATION_IMAGE_SIZE + i];
    }
}

static void draw(uint32_t answer, const uint8_t *text) {
    accepted("draw", DRAWING_NUMBER(answer));
    printf("%.*s", (int)DRAWING_LENGTH(answer), (const char *)text);
}

static void show(void) {
    uint64_t record, apart;
    uint8_t text[DRAWING_MOST];
    ask(&record, &apart);
    printf("cars: %u\n", garage_cars(record));
    draw(drawing_write(record, text, sizeof text), text);
}

/* Somebody looks at what is set apart, and sends what is there: here nothing had moved. */
static void look(void) {
    uint64_t record, apart;
    uint8_t text[DRAWING_APART_MOST];
    ask(&record, &apart);
    draw(drawing_write_apart(apart, text, sizeof text), text);
    accepted("image", station_image(garage, sizeof garage, record, 0));
    printf("image: accepted\n");
}

static void move(const struct step *step, uint8_t ending, const char *ended) {
    uint32_t answer = station_request(garage, sizeof garage, 1, step->five, sizeof step->five);
    if (STATION_NUMBER(answer) == STATION_SET_APART) {
        printf("%s: %d (%s)\n", step->words, STATION_NUMBER(answer), station_words(STATION_NUMBER(answer)));
        look();
        answer = station_request(garage, sizeof garage, 1, step->five, sizeof step->five);
    }
    accepted(step->words, answer);
    accepted(step->words, station_result(garage, sizeof garage, STATION_SET(answer), 0, ending));
    printf("%s: %s\n", step->words, ended);
}

int main(void) {
    accepted("start", station_start(garage, sizeof garage));
    event("in", STATION_BEGIN_IN);
    move(&down, STATION_DONE, "done");
    move(&park, STATION_STUCK, "stuck");
    move(&park, STATION_DONE, "done");
    show();
    move(&fetch, STATION_DONE, "done");
    move(&up, STATION_DONE, "done");
    event("out", STATION_BEGIN_OUT);
    show();
    return 0;
}

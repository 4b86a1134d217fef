/* The report of recorded messages on standard input, by the entries of report.h: each message is counted and then answered, as a host does
 * that keeps totals beside its station. The text is also made from the totals by the header's names of their places, and must be the
 * same. */
#include "report.h"
#include "station.h"

#include <inttypes.h>
#include <stdio.h>
#include <string.h>

static uint8_t recorded[1 << 21], totals[REPORT_TOTALS], station[STATION_SIZE], reply[STATION_REPLY_MOST], text[REPORT_TEXT_MOST];
static char own[REPORT_TEXT_MOST + 1];

/* A line, put to the end of the text that is made here; a number of 0 or more stands in its name. */
static void line(const char *name, int number, int place) {
    char *at = own + strlen(own);
    size_t left = sizeof own - strlen(own);
    uint32_t value = REPORT_TOTAL(totals, place);
    if (number < 0)
        snprintf(at, left, "%s %" PRIu32 "\n", name, value);
    else
        snprintf(at, left, "%s-%d %" PRIu32 "\n", name, number, value);
}

static bool in_force(int number) { return number != 9 && number != 14 && number != 18 && number != 19; }

static void lines(void) {
    for (int kind = 1; kind <= 5; kind++)
        line("kind", kind, REPORT_KIND(kind));
    for (int number = STATION_TAKEN; number <= STATION_KEPT_OPEN; number++)
        if (in_force(number))
            line("answer", number, REPORT_ANSWER(number));
    for (int op = GARAGE_BELTS; op <= GARAGE_ROTATE; op++)
        line("done", op, REPORT_DONE(op));
    for (int op = GARAGE_BELTS; op <= GARAGE_ROTATE; op++)
        line("failed", op, REPORT_FAILED(op));
    line("cars-in", -1, REPORT_CARS_IN);
    line("cars-out", -1, REPORT_CARS_OUT);
    line("most-cars", -1, REPORT_MOST_CARS);
}

/* Counts and answers the first message of some bytes; gives how many it took, or all where the station stops. */
static size_t message(const uint8_t *bytes, size_t size, uint8_t *full) {
    uint32_t told = report_message(totals, sizeof totals, station, sizeof station, bytes, size);
    uint32_t answer = station_message(station, sizeof station, bytes, size, reply, sizeof reply);
    if (REPORT_NUMBER(told) == REPORT_FULL)
        *full = REPORT_PLACE(told);
    size_t length = size < 2 ? 0 : bytes[0] + 256u * bytes[1];
    bool stops = STATION_NUMBER(answer) == STATION_TOO_FEW_BYTES || length < 2 || length > STATION_MESSAGE_MOST - 2;
    return stops || *full != REPORT_NONE ? size : 2 + length;
}

int main(void) {
    size_t size = fread(recorded, 1, sizeof recorded, stdin);
    uint8_t full = REPORT_NONE;
    report_start(totals, sizeof totals);
    station_start(station, sizeof station);
    for (size_t at = 0; at < size;)
        at += message(recorded + at, size - at, &full);
    uint32_t told = report_lines(totals, sizeof totals, full, text, sizeof text);
    lines();
    if (REPORT_NUMBER(told) != REPORT_TAKEN || REPORT_LENGTH(told) != strlen(own) || memcmp(text, own, strlen(own)) != 0) {
        fprintf(stderr, "the text is not the totals'\n");
        return 1;
    }
    fwrite(text, 1, REPORT_LENGTH(told), stdout);
    return 0;
}

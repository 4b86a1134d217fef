/* What the bytes of an input give to a call, and the station that the calls are made on. */
#ifndef INPUT_H
#define INPUT_H

#include "station.h"

#include <string.h>

/* Runs are lent up to lengths that no longer fit a byte, and that the report's longest text fits. */
enum { RUN_MOST = 1200 };

/* Where a station's room has its set, the next issue and what is set apart. */
enum { SET_AT = 8, MARKS_AT = 9, CODES_AT = 10, ISSUE_AT = 50, APART_AT = 52 };

/* Where the record has the cells of row 1, and of the middle belts of the others. */
#define ROW_1 UINT64_C(0xFFFFF)
#define MIDDLES (UINT64_C(0xFF) << 21 | UINT64_C(0xFF) << 31)

/* Where it has the car on the raised lift, and the drives under way. */
#define RAISED (UINT64_C(1) << 52)
enum { DRIVES_AT = 55 };

static const uint8_t *input;
static size_t input_left;

/* The next byte; zeros past the end. */
static uint8_t take(void) {
    if (input_left == 0)
        return 0;
    input_left--;
    return *input++;
}

static void take_run(uint8_t *to, size_t size) {
    for (size_t at = 0; at < size; at++)
        to[at] = take();
}

/* How much is lent: about what is needed, or more than a byte can say. */
static inline size_t take_size(void) {
    uint8_t byte = take();
    return byte < 0xC0 ? byte % 64 : RUN_MOST - 64 + byte % 64;
}

/* The same round another size: up to 32 bytes less or more, or any. */
static inline size_t take_size_near(size_t size) {
    uint8_t byte = take();
    size_t least = size < 32 ? 0 : size - 32;
    return byte < 0xC0 ? least + byte % 65 : (byte % 64u << 8 | take()) % RUN_MOST;
}

/* Changes some bits of one byte. */
static inline void damage(uint8_t *bytes, size_t size) {
    size_t at = take() % size;
    bytes[at] ^= take();
}

/* The station as the calls before left it, and the report's totals, each with bytes behind it. */
static uint8_t kept[RUN_MOST], totals[RUN_MOST];

static uint64_t number_of(const uint8_t *eight) {
    uint64_t image = 0;
    for (int at = 0; at < STATION_IMAGE_SIZE; at++)
        image |= (uint64_t)eight[at] << (8 * at);
    return image;
}

static inline void put_number(uint8_t *eight, uint64_t image) {
    for (int at = 0; at < STATION_IMAGE_SIZE; at++)
        eight[at] = (uint8_t)(image >> (8 * at));
}

/* Any number. */
static uint64_t take_number(void) {
    uint8_t eight[STATION_IMAGE_SIZE];
    take_run(eight, sizeof eight);
    return number_of(eight);
}

/* An image: mostly the station's record, with one thing changed; or many cars more, other drives under way and another raised car. */
static inline uint64_t take_image(void) {
    uint64_t record = number_of(kept);
    uint8_t pick = take();
    switch (pick >> 6) {
    case 0: return record ^ UINT64_C(3) << pick % 19; /* a car of row 1 */
    case 1: return record ^ UINT64_C(1) << pick % 64;
    case 2: return (record | (pick & 1 ? ROW_1 : 0) | (pick & 2 ? MIDDLES : 0)) ^ (pick & 4 ? RAISED : 0) ^ (uint64_t)(pick >> 3 & 3) << DRIVES_AT;
    default: return take_number();
    }
}

static inline uint8_t bit(uint8_t byte, int at) { return byte >> at & 1; }

/* An instruction: well formed, from two bytes, or any five. */
static inline void take_five(uint8_t *five) {
    uint8_t pick = take(), fields = take(), row = (uint8_t)(1 + (pick >> 3) % 3);
    uint8_t well_formed[][STATION_CODE_SIZE] = {
        {GARAGE_BELTS, row, fields & (row == 1 ? 31 : 7), bit(fields, 5), bit(fields, 6)},
        {GARAGE_SHUTTLES, bit(fields, 3), fields & 7, bit(fields, 4), bit(fields, 5)},
        {GARAGE_TILT, bit(fields, 3), row, bit(fields, 4), 0},
        {GARAGE_LIFT, fields % 3, 0, 0, 0},
        {GARAGE_ROTATE, 0, 0, 0, 0},
    };
    uint8_t opcode = pick & 7;
    if (GARAGE_BELTS <= opcode && opcode <= GARAGE_ROTATE) {
        memcpy(five, well_formed[opcode - GARAGE_BELTS], STATION_CODE_SIZE);
    } else {
        five[0] = fields;
        take_run(five + 1, STATION_CODE_SIZE - 1);
    }
}

/* A count and as many instructions, up to nine of them. */
static inline uint8_t take_set(uint8_t *set) {
    uint8_t count = take() % 10;
    for (int at = 0; at < count; at++)
        take_five(set + STATION_CODE_SIZE * at);
    return count;
}

/* A set that no request opened, in place of the kept one. */
static inline void put_set(void) {
    memset(kept + SET_AT, 0, ISSUE_AT - SET_AT);
    kept[SET_AT] = take_set(kept + CODES_AT) % (STATION_MOST + 1);
}

static inline uint16_t present_issue(void) { return (uint16_t)((kept[ISSUE_AT] | kept[ISSUE_AT + 1] << 8) - 1); }

/* The issue of a result: the present one's, one that lies behind it by a distance that counts, or any two bytes. */
static inline uint16_t take_issue(unsigned pick) {
    static const uint16_t behind[] = {0, 0, 0, 1, 32767, 32768, 65535};
    uint8_t two[2];
    if (pick < sizeof behind / sizeof *behind)
        return (uint16_t)(present_issue() - behind[pick]);
    take_run(two, sizeof two);
    return (uint16_t)(two[0] | two[1] << 8);
}

/* A message of a kind that is read, or any bytes; gives its size. */
static inline size_t take_message(uint8_t *message) {
    uint8_t pick = take(), kind = pick % 8, *body = message + 4;
    size_t size = 0;
    switch (kind) {
    case STATION_KIND_REQUEST:
        body[0] = take_set(body + 1);
        size = 1 + STATION_CODE_SIZE * (size_t)body[0];
        break;
    case STATION_KIND_EVENT:
        body[size++] = take() % (STATION_END_NOT_DONE + 2);
        break;
    case STATION_KIND_RESULT: {
        uint8_t byte = take();
        uint16_t issue = take_issue(byte >> 2 & 7);
        body[size++] = issue & 255;
        body[size++] = (uint8_t)(issue >> 8);
        body[size++] = pick >> 3 & 15;
        body[size++] = byte & 3;
        break;
    }
    case STATION_KIND_IMAGE:
        put_number(body, take_image());
        put_number(body + STATION_IMAGE_SIZE, pick >> 7 ? take_number() : 0);
        size = STATION_SHOWN_SIZE;
        break;
    case STATION_KIND_ASK:
        break;
    default:
        size = take() % 64;
        take_run(message, size);
        return size;
    }
    message[0] = (uint8_t)(2 + size), message[1] = 0, message[2] = kind, message[3] = 0;
    return 4 + size;
}

#endif

/* Numbers and runs of bytes on standard input and output, for hosts in C that make calls as they are told to. All numbers have the lowest
 * byte first. */
#ifndef TOLD_H
#define TOLD_H

#include <stddef.h>
#include <stdint.h>
#include <stdio.h>
#include <stdlib.h>

static inline void take(void *to, size_t size) {
    if (fread(to, 1, size, stdin) != size) {
        fprintf(stderr, "a command was cut short\n");
        exit(1);
    }
}

static inline uint8_t take_byte(void) {
    uint8_t byte;
    take(&byte, 1);
    return byte;
}

static inline uint64_t take_number(int size) {
    uint64_t number = 0;
    for (int at = 0; at < size; at++)
        number |= (uint64_t)take_byte() << (8 * at);
    return number;
}

static inline void give_number(uint32_t number) {
    for (int at = 0; at < 4; at++)
        putchar((int)(number >> (8 * at) & 255));
}

static inline void give_run(const uint8_t *bytes, size_t size) {
    if (size != 0)
        fwrite(bytes, 1, size, stdout);
}

#endif

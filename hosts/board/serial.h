/* A serial line of the kind 16550, by its interrupt, for the boards here. Each says before where a register of it is (UART), and how its
 * processor shuts interrupts off (INTERRUPTS_OFF), lets them come again (INTERRUPTS_ON) and waits for one though they are off (WAIT).
 * The interrupt puts bytes into a ring, and the program takes them. Where the ring is full the interrupt leaves bytes in the line's own
 * buffer and is shut off, until the program takes one. */
#ifndef SERIAL_H
#define SERIAL_H

#include "board.h"

#define UART_DATA UART(0)
#define UART_INTERRUPTS UART(1)
#define UART_BUFFER UART(2)
#define UART_STATE UART(5)
enum { RECEIVED = 1 };                                         /* of its interrupts */
enum { BUFFER_ON = 0xC1 };                                     /* an interrupt for fourteen bytes, or some time after the last */
enum { STATE_RECEIVED = 1, STATE_LOST = 2, STATE_EMPTY = 32 }; /* of its state */

enum { RING_SIZE = 64 };
static volatile uint8_t ring[RING_SIZE];
static volatile uint32_t put, taken;
static volatile bool lost;

static inline void serial_begin(void) {
    UART_BUFFER = BUFFER_ON;
    UART_INTERRUPTS = RECEIVED;
}

static inline void serial_interrupted(void) {
    uint8_t state;
    while ((state = UART_STATE) & STATE_RECEIVED) {
        if (state & STATE_LOST)
            lost = true;
        if (put - taken == RING_SIZE) {
            UART_INTERRUPTS = 0;
            return;
        }
        ring[put % RING_SIZE] = UART_DATA;
        put = put + 1;
    }
}

uint8_t serial_take(void) {
    INTERRUPTS_OFF;
    while (put == taken) {
        WAIT;
        INTERRUPTS_ON;
        INTERRUPTS_OFF;
    }
    uint8_t byte = ring[taken % RING_SIZE];
    taken = taken + 1;
    UART_INTERRUPTS = RECEIVED;
    INTERRUPTS_ON;
    return byte;
}

bool serial_lost(void) { return lost; }

void serial_give(uint8_t byte) {
    while (!(UART_STATE & STATE_EMPTY))
        ;
    UART_DATA = byte;
}

#endif

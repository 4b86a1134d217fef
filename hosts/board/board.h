/* What the firmware has of a board, whichever it is: start code that paints the stack and guards its end, and a serial line.
 * cortex_m4.c and rv32.c are two such boards. */
#ifndef BOARD_H
#define BOARD_H

#include <stdbool.h>
#include <stdint.h>

/* The stack's ends, by board.ld. It is the lowest of the memory; what is below it is the guard's. */
extern uint32_t stack_bottom[], stack_top[];

/* What each word of the stack has before it is used; start has it too. */
#define STACK_PAINT UINT32_C(0xA55A3CC3)

/* How it goes with the board: a debugger reads it. */
enum { STARTING = 0, RUNNING = 1, STACK_TOO_SMALL = 2, OTHER_FAULT = 3, ENDED = 4 };
extern volatile struct state {
    uint32_t now, address; /* with a fault, the address that was not to be touched */
} board_state;

/* The next byte of the serial line; waits for it. */
uint8_t serial_take(void);
/* Whether bytes were lost before one that was taken. */
bool serial_lost(void);
void serial_give(uint8_t byte);

int main(void);

#endif

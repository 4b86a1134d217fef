/* What both boards do round main, and how they stop. */
#ifndef BEGIN_H
#define BEGIN_H

#include "board.h"

extern uint32_t data_begin[], data_end[], data_kept[], bss_begin[], bss_end[];
volatile struct state board_state;

static inline void memory_begin_as_c(void) {
    uint32_t *kept = data_kept;
    for (uint32_t *at = data_begin; at < data_end; at++)
        *at = *kept++;
    for (uint32_t *at = bss_begin; at < bss_end; at++)
        *at = 0;
}

/* The guard is all below the stack that a function's frame can reach. */
enum { GUARD_SIZE = 4096 };
static inline bool guarded(uint32_t address) { return (uint32_t)stack_bottom - 1 - address < GUARD_SIZE; }

/* It never goes on from here: a station that began anew by itself would have forgotten the garage. */
__attribute__((noreturn)) static inline void stop_as(uint32_t state, uint32_t address) {
    board_state.address = address;
    board_state.now = state;
    for (;;)
        WAIT;
}

#endif

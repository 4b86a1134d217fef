/* How much stack a call takes: what lies MARGIN bytes and more below the frame that makes it is painted before the call, and after it we
 * look how far down the paint is gone. So it is never below MARGIN, and counts the caller's frame and the call's own return address; a
 * call that reserves bytes and touches none of the lowest of them takes more than is seen. */
#ifndef STACK_H
#define STACK_H

#include <stddef.h>
#include <stdint.h>

/* On a board there is more to do round a call (tests/board/measured.h). */
#ifndef MEASURED
#define MEASURED(call) call
#endif

enum { PAINTED = 8192, MARGIN = 256 };
#define PAINT UINT64_C(0xA55A3CC3699617E8)

__attribute__((noinline)) static size_t stack_of(void (*call)(void *), void *given) {
    volatile uint8_t here = 0;
    uintptr_t top = (uintptr_t)&here & ~(uintptr_t)7;
    volatile uint64_t *low = (volatile uint64_t *)(top - PAINTED);
    size_t kept = 0, words = (PAINTED - MARGIN) / sizeof *low;
    for (size_t at = 0; at < words; at++)
        low[at] = PAINT;
    MEASURED(call(given));
    while (kept < words && low[kept] == PAINT)
        kept++;
    return PAINTED - kept * sizeof *low + here;
}

#endif

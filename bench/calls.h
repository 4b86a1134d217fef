/* Time and stack of calls, by their names: a line for each with nanoseconds a call and bytes of stack (stack.h). With a name, only those
 * calls are made, and nothing is printed, so that their instructions can be counted; with any other word none are. Needs
 * _POSIX_C_SOURCE, for clock_gettime. */
#ifndef CALLS_H
#define CALLS_H

#include "stack.h"

#include <stdio.h>
#include <string.h>
#include <time.h>

enum { CALLS = 200000 };

struct entry {
    const char *name;
    void (*call)(void *);
};

#define CALL(name) static void call_##name(__attribute__((unused)) void *none)

static double nanoseconds_of(void (*call)(void *)) {
    struct timespec begun, ended;
    clock_gettime(CLOCK_MONOTONIC, &begun);
    for (int at = 0; at < CALLS; at++)
        call(NULL);
    clock_gettime(CLOCK_MONOTONIC, &ended);
    return ((double)(ended.tv_sec - begun.tv_sec) * 1e9 + (double)(ended.tv_nsec - begun.tv_nsec)) / CALLS;
}

static void measure(const struct entry *entries, size_t count, const char *only) {
    for (size_t at = 0; at < count; at++) {
        if (only != NULL) {
            if (strcmp(only, entries[at].name) == 0)
                nanoseconds_of(entries[at].call);
            continue;
        }
        printf("%-18s %8.1f ns, at most %5zu bytes of stack\n", entries[at].name, nanoseconds_of(entries[at].call), stack_of(entries[at].call, NULL));
    }
}

#endif

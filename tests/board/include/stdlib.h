#ifndef BOARD_STDLIB_H
#define BOARD_STDLIB_H

static inline void exit(int status) {
    (void)status;
    for (;;)
        ;
}

#endif

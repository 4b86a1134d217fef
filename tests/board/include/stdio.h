/* What the hosts in C take of the C library, for an emulated board: line.c has it. */
#ifndef BOARD_STDIO_H
#define BOARD_STDIO_H

#include <stddef.h>

enum { EOF = -1 };
typedef struct line FILE;
#define stdin ((FILE *)0)
#define stdout ((FILE *)0)
#define fprintf(...) ((void)0)

int getchar(void);
int putchar(int byte);
size_t fread(void *to, size_t one, size_t size, FILE *line);
size_t fwrite(const void *from, size_t one, size_t size, FILE *line);

/* The host's own main is called by that of line.c, which ends the emulator after it. */
#define main host_main
int host_main(void);

#endif

/* Included before a host in C: a call stands between two functions that whoever counts instructions knows, and no interrupt comes
 * meanwhile, so that the stack is the call's own. */
#ifndef MEASURED_H
#define MEASURED_H

void measured_begin(void);
void measured_end(void);

#if defined __arm__
#define UNDISTURBED(call) __asm__ volatile("cpsid i" ::: "memory"); call; __asm__ volatile("cpsie i" ::: "memory")
#elif defined __riscv
#define UNDISTURBED(call) __asm__ volatile("csrci mstatus, 8" ::: "memory"); call; __asm__ volatile("csrsi mstatus, 8" ::: "memory")
#else
#define UNDISTURBED(call) call
#endif
#define MEASURED(call) do { UNDISTURBED(measured_begin(); call; measured_end()); } while (0)

#endif

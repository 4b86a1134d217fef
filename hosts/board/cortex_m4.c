/* A board with a Cortex-M4: Aspeed's AST1030, as QEMU has it (ast1030-evb). For another board change where its serial line is and which
 * interrupt that has. */
#define UART(at) (*(volatile uint8_t *)(0x7E784000 + 4 * (at)))
#define INTERRUPTS_OFF __asm__ volatile("cpsid i" ::: "memory")
#define INTERRUPTS_ON __asm__ volatile("cpsie i\n\tisb" ::: "memory")
#define WAIT __asm__ volatile("wfi")
enum { UART_NUMBER = 8 };

#include "begin.h"
#include "serial.h"

/* The processor's own registers. */
#define REGISTER(address) (*(volatile uint32_t *)(address))
#define NVIC_ENABLE REGISTER(0xE000E100)
#define CONFIGURATION REGISTER(0xE000ED14)
#define SYSTEM_HANDLERS REGISTER(0xE000ED24)
#define FAULT_STATUS REGISTER(0xE000ED28)
#define FAULT_ADDRESS REGISTER(0xE000ED34)
#define MPU_CONTROL REGISTER(0xE000ED94)
#define MPU_BASE REGISTER(0xE000ED9C)
#define MPU_REGION REGISTER(0xE000EDA0)
enum { TRAP_UNALIGNED = 1 << 3, MEMORY_FAULTS = 1 << 16, STACKING_FAULT = 1 << 4, ADDRESS_VALID = 1 << 7 };
/* A region of 4096 bytes with neither reads nor writes; the rest of memory is as without a region. */
enum { MPU_VALID = 1 << 4, MPU_NEVER = 1 << 28 | 11 << 1 | 1, MPU_ON = 1 << 2 | 1 };

void stop(void) {
    uint32_t status = FAULT_STATUS, address = FAULT_ADDRESS;
    bool stack = status & STACKING_FAULT || (status & ADDRESS_VALID && guarded(address));
    stop_as(stack ? STACK_TOO_SMALL : OTHER_FAULT, address);
}

/* A fault may come with the stack at its end: the stack of what has failed is not needed any more. */
__attribute__((naked)) void fault(void) { __asm__("cpsid i\n\tldr r0, =stack_top\n\tmov sp, r0\n\tb stop"); }

void serial_interrupt(void) { serial_interrupted(); }

__attribute__((noreturn)) void begin(void) {
    memory_begin_as_c();
    MPU_BASE = ((uint32_t)stack_bottom - GUARD_SIZE) | MPU_VALID;
    MPU_REGION = MPU_NEVER;
    MPU_CONTROL = MPU_ON;
    SYSTEM_HANDLERS = MEMORY_FAULTS;
    CONFIGURATION |= TRAP_UNALIGNED;
    __asm__ volatile("dsb\n\tisb" ::: "memory");
    serial_begin();
    NVIC_ENABLE = 1 << UART_NUMBER;
    board_state.now = RUNNING;
    main();
    stop_as(ENDED, 0);
}

/* Paints the stack before anything is on it. */
__attribute__((naked)) void start(void) {
    __asm__("ldr r0, =stack_bottom\n\tldr r1, =stack_top\n\tldr r2, =0xA55A3CC3\n"
            "1:\tstr r2, [r0], #4\n\tcmp r0, r1\n\tblo 1b\n\tb begin");
}

/* The stack's top, where to begin, the processor's own exceptions, and the serial line's interrupt. */
enum { OWN = 16 };
__attribute__((section(".vectors"), used)) static void *const vectors[OWN + UART_NUMBER + 1] = {
    [0] = stack_top,      [1] = (void *)start,  [2] = (void *)fault,  [3] = (void *)fault,
    [4] = (void *)fault,  [5] = (void *)fault,  [6] = (void *)fault,  [11] = (void *)fault,
    [12] = (void *)fault, [14] = (void *)fault, [15] = (void *)fault, [OWN + UART_NUMBER] = (void *)serial_interrupt,
};

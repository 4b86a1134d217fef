/* A board with an RV32: QEMU's virt, started without firmware of its own. For another board change where its serial line and its
 * interrupts' controller are. */
#define UART(at) (*(volatile uint8_t *)(0x10000000 + (at)))
#define INTERRUPTS_OFF __asm__ volatile("csrci mstatus, 8" ::: "memory")
#define INTERRUPTS_ON __asm__ volatile("csrsi mstatus, 8" ::: "memory")
#define WAIT __asm__ volatile("wfi")
enum { UART_NUMBER = 10 };

#include "begin.h"
#include "serial.h"

/* The interrupts' controller, for the first processor's machine mode. */
#define REGISTER(address) (*(volatile uint32_t *)(address))
#define PLIC_PRIORITY(number) REGISTER(0x0C000000 + 4 * (number))
#define PLIC_ENABLE REGISTER(0x0C002000)
#define PLIC_THRESHOLD REGISTER(0x0C200000)
#define PLIC_CLAIM REGISTER(0x0C200004)

#define WRITE(name, value) __asm__ volatile("csrw " name ", %0" ::"r"(value) : "memory")
enum { EXTERNAL_INTERRUPTS = 1 << 11 };
/* A region of 4096 bytes, locked, with neither reads nor writes; the rest of memory is as without a region. */
enum { PMP_NEVER = 0x80 | 0x18 };

void stop(void) {
    uint32_t address;
    __asm__ volatile("csrr %0, mtval" : "=r"(address));
    stop_as(guarded(address) ? STACK_TOO_SMALL : OTHER_FAULT, address);
}

__attribute__((interrupt("machine"))) void serial_interrupt(void) {
    uint32_t number = PLIC_CLAIM;
    serial_interrupted();
    PLIC_CLAIM = number;
}

/* A fault may come with the stack at its end: the stack of what has failed is not needed any more. An interrupt goes on, on the stack
 * as it is. */
__attribute__((naked, aligned(4))) void trap(void) {
    __asm__("csrw mscratch, t0\n\tcsrr t0, mcause\n\tbgez t0, 1f\n\tcsrr t0, mscratch\n\tj serial_interrupt\n"
            "1:\tla sp, stack_top\n\tj stop");
}

__attribute__((noreturn)) void begin(void) {
    memory_begin_as_c();
    WRITE("mtvec", (uint32_t)trap);
    WRITE("pmpaddr0", ((uint32_t)stack_bottom - GUARD_SIZE) >> 2 | (GUARD_SIZE / 8 - 1));
    WRITE("pmpcfg0", PMP_NEVER);
    serial_begin();
    PLIC_PRIORITY(UART_NUMBER) = 1;
    PLIC_ENABLE = 1 << UART_NUMBER;
    PLIC_THRESHOLD = 0;
    WRITE("mie", EXTERNAL_INTERRUPTS);
    INTERRUPTS_ON;
    board_state.now = RUNNING;
    main();
    stop_as(ENDED, 0);
}

/* Paints the stack before anything is on it. */
__attribute__((naked, section(".vectors"))) void start(void) {
    __asm__("la t0, stack_bottom\n\tla sp, stack_top\n\tli t2, 0xA55A3CC3\n"
            "1:\tsw t2, 0(t0)\n\taddi t0, t0, 4\n\tbltu t0, sp, 1b\n\tj begin");
}

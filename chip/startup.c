/* From reset to main on a Cortex-M33, and from main's end to the emulator's, which ends with main's result. Printing and files
 * are those of newlib over semihosting: a breakpoint that the emulator, or a debugger, answers. A fault ends the emulator with
 * status 3. */
#include <stdint.h>
#include <stdlib.h>
#include <string.h>

int main(void);
void reset(void);
void initialise_monitor_handles(void); /* newlib's: opens standard input and output */

extern uint8_t stack_limit[], stack_top[]; /* an505.ld's, as those below */
extern uint8_t data_stored[], data_begin[], data_end[], bss_begin[], bss_end[];

/* ---- The emulator */

enum { WRITE_TEXT = 0x04, EXIT_WITH_STATUS = 0x20, BY_ITSELF = 0x20026 };

static void ask_emulator(uint32_t what, const void *with) {
    register uint32_t r0 __asm__("r0") = what;
    register const void *r1 __asm__("r1") = with;
    __asm__ volatile("bkpt 0xAB" : "+r"(r0) : "r"(r1) : "memory");
}

/* newlib's exit comes here. */
_Noreturn void _exit(int status) {
    uint32_t how[2] = {BY_ITSELF, (uint32_t)status};
    for (;;) {
        ask_emulator(EXIT_WITH_STATUS, how);
    }
}

/* ---- Faults */

#define CFSR (*(volatile uint32_t *)0xE000ED28)
enum { UNDEFINED_INSTRUCTION = 1 << 16, STACK_AT_LIMIT = 1 << 20, UNALIGNED = 1 << 24 };

__attribute__((used)) static _Noreturn void tell_fault(void) {
    uint32_t cause = CFSR;
    ask_emulator(WRITE_TEXT, cause & STACK_AT_LIMIT          ? "FAULT: no room is left on the stack\n"
                             : cause & UNDEFINED_INSTRUCTION ? "FAULT: an instruction that traps\n"
                             : cause & UNALIGNED             ? "FAULT: an unaligned access\n"
                                                             : "FAULT\n");
    _exit(3);
}

/* The stack may be what failed, so that nothing of it is used further. */
__attribute__((naked)) static void fault(void) {
    __asm__ volatile("ldr r0, =stack_top\n"
                     "mov sp, r0\n"
                     "b tell_fault\n");
}

/* ---- Reset */

#define CPACR (*(volatile uint32_t *)0xE000ED88)

__attribute__((used)) static _Noreturn void start(void) {
#ifdef __ARM_FP
    /* The driver has no floating point, but a C library that is built for it may. */
    CPACR |= 0xFU << 20;
    __asm__ volatile("dsb\n"
                     "isb\n");
#endif
    memcpy(data_begin, data_stored, (size_t)(data_end - data_begin));
    memset(bss_begin, 0, (size_t)(bss_end - bss_begin));
    initialise_monitor_handles();
    exit(main());
}

/* The core has set the stack pointer from the vectors. Its limit comes first: from here on a stack that has no room left is a
 * fault. */
__attribute__((naked)) void reset(void) {
    __asm__ volatile("ldr r0, =stack_limit\n"
                     "msr msplim, r0\n"
                     "b start\n");
}

/* newlib calls these around main, for constructors, of which C has none. */
void _init(void);
void _init(void) {
}
void _fini(void);
void _fini(void) {
}

typedef struct {
    void *stack;
    void (*handlers[15])(void); /* reset, then the core's own exceptions; no interrupt is used */
} vector_table;

__attribute__((section(".vectors"), used)) static const vector_table vectors = {
    stack_top, {reset, fault, fault, fault, fault, fault, fault, 0, 0, 0, fault, fault, 0, fault, fault}};

/*
 * Starts a program on a bare Cortex-M3 under QEMU. What it prints and its exit status go out by semihosting, through
 * newlib's librdimon. A fault ends the run with a line, but for the one that `fault_wanted` asks for.
 */
#include <stdint.h>
#include <stdio.h>
#include <stdlib.h>
#include <string.h>

extern uint8_t data_from[], data_start[], data_end[], bss_start[], bss_end[], stack_top[];
extern void initialise_monitor_handles(void);
extern int main(void);

/* Set before an instruction of four bytes that must fault: the fault clears it, and steps over the instruction. */
volatile uint32_t fault_wanted;

static void semihosting(uint32_t call, const void *word)
{
    register uint32_t r0 __asm__("r0") = call;
    register const void *r1 __asm__("r1") = word;
    __asm__ volatile("bkpt 0xab" : "+r"(r0) : "r"(r1) : "memory");
}

/* `frame` is what the CPU pushed: r0 to r3, r12, lr, and in place 6 where it was. */
__attribute__((used)) static void fault_at(uint32_t *frame)
{
    if (fault_wanted) {
        fault_wanted = 0;
        frame[6] += 4;
        return;
    }
    semihosting(0x04, "FAULT\n");             /* SYS_WRITE0 */
    semihosting(0x18, (const void *)0x20023); /* SYS_EXIT: a run-time error */
}

__attribute__((naked)) static void fault(void)
{
    __asm__ volatile("mov r0, sp\n\tb fault_at");
}

void reset(void)
{
    memcpy(data_start, data_from, (size_t)(data_end - data_start));
    memset(bss_start, 0, (size_t)(bss_end - bss_start));
    initialise_monitor_handles();
    int status = main();
    fflush(stdout);
    _Exit(status);
}

__attribute__((section(".vectors"), used)) static void *const vectors[16] = {
    stack_top, (void *)reset, (void *)fault, (void *)fault, (void *)fault, (void *)fault, (void *)fault,
};

/* What a call of the library takes, on QEMU's mps2-an385: see probe.h. */
#include <inttypes.h>
#include <stdio.h>

#include "probe.h"

uint64_t probe_instructions;
uint32_t probe_stack;
static uint32_t stack_most[CALLS];

#define PAINT 0xa5c3965au
/* Timer 0 counts down at 25 MHz. Under -icount shift=0 an instruction takes 1 ns, so that a tick is 40 instructions. */
#define TIMER_CONTROL (*(volatile uint32_t *)0x40000000)
#define TIMER_VALUE (*(volatile uint32_t *)0x40000004)
#define TIMER_RELOAD (*(volatile uint32_t *)0x40000008)
#define INSTRUCTIONS_A_TICK 40
/* The CPU's configuration, and its bit that makes a fault of every access that is not aligned. */
#define CCR (*(volatile uint32_t *)0xe000ed14)
#define UNALIGN_TRP 8u

extern uint32_t stack_low[];
extern volatile uint32_t fault_wanted;
static uint32_t ticks_before;

static void trap_unaligned(int on)
{
    CCR = on ? CCR | UNALIGN_TRP : CCR & ~UNALIGN_TRP;
    __asm__ volatile("dsb\n\tisb" : : : "memory");
}

int probe_traps(void)
{
    uint32_t words[2] = {0, 0};
    fault_wanted = 1;
    trap_unaligned(1);
    __asm__ volatile("ldr.w r3, [%0, #1]" : : "r"(words) : "r3", "memory");
    trap_unaligned(0);
    return fault_wanted == 0;
}

/*
 * Paints the stack below this function's own frame. The few words between that frame and the caller's are not painted: a
 * call of the library goes deeper.
 */
__attribute__((noinline)) void probe_paint(void)
{
    for (volatile uint32_t *p = stack_low; p < probe_sp(); p++) {
        *p = PAINT;
    }
    TIMER_RELOAD = 0xffffffff;
    TIMER_VALUE = 0xffffffff;
    TIMER_CONTROL = 1;
    trap_unaligned(1);
    ticks_before = TIMER_VALUE;
}

/* The first word from below that is no paint is the deepest that the call wrote. */
__attribute__((noinline)) void probe_look(enum probe_call call, const volatile uint32_t *caller)
{
    probe_instructions = (uint64_t)(ticks_before - TIMER_VALUE) * INSTRUCTIONS_A_TICK;
    trap_unaligned(0);
    const volatile uint32_t *p = stack_low;
    while (p < caller && *p == PAINT) {
        p++;
    }
    probe_stack = (uint32_t)(caller - p) * 4;
    if (probe_stack > stack_most[call]) {
        stack_most[call] = probe_stack;
    }
}

void probe_say_stack(void)
{
    static const char *const names[CALLS] = {
        "stall_fill", "stall_fill_begin", "stall_fill_some", "stall_fill_end", "stall_route", "stall_read",
    };
    for (int call = 0; call < CALLS; call++) {
        printf("# %s %" PRIu32 "\n", names[call], stack_most[call]);
    }
}

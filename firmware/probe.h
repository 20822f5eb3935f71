/*
 * What a call of the library takes on the controller: instructions and stack. Each call of a test stands between
 * probe_begin and probe_end. Between them an access to memory that is not aligned is a fault.
 * On other machines both do nothing, so that a test can run there too.
 */
#ifndef PROBE_H
#define PROBE_H

#include <stdint.h>

enum probe_call { FILL, FILL_BEGIN, FILL_SOME, FILL_END, ROUTE, READ, CALLS };

/* Of the last call: its instructions, to within 80, and the bytes of stack below the stack pointer of its caller. */
extern uint64_t probe_instructions;
extern uint32_t probe_stack;

#ifdef __arm__

/* Is an access that is not aligned really a fault between probe_begin and probe_end? */
int probe_traps(void);

/* Prints a line for each call, as "# stall_fill 2048": the greatest stack that it took so far. */
void probe_say_stack(void);

void probe_paint(void);
void probe_look(enum probe_call call, const volatile uint32_t *caller);

/* The stack pointer of the function that this is drawn into. */
static inline __attribute__((always_inline)) uint32_t *probe_sp(void)
{
    uint32_t *sp;
    __asm__ volatile("mov %0, sp" : "=r"(sp) : : "memory");
    return sp;
}

#define probe_begin() probe_paint()
#define probe_end(call) probe_look(call, probe_sp())

#else

#define probe_traps() 1
#define probe_say_stack() ((void)0)
#define probe_begin() ((void)0)
#define probe_end(call) ((void)(call))

#endif

#endif

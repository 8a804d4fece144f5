// The stack that a call takes: it is run on a painted one, and what is no longer painted is counted.
// A file that includes this defines _GNU_SOURCE first.
#include <stdint.h>
#include <string.h>
#include <ucontext.h>

enum { STACK = 1 << 20, PAINT = 0xA5 };

static uint8_t stack[STACK] __attribute__((aligned(16)));
static ucontext_t outside, inside;

static size_t stack_of(void (*call)(void))
{
    memset(stack, PAINT, STACK);
    getcontext(&inside);
    inside.uc_stack.ss_sp = stack;
    inside.uc_stack.ss_size = STACK;
    inside.uc_link = &outside;
    makecontext(&inside, call, 0);
    swapcontext(&outside, &inside);
    size_t i = 0;
    while (i < STACK && stack[i] == PAINT)
        i++;
    return STACK - i;
}

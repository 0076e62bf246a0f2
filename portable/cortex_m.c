/* The start of a program on a bare Cortex-M, for the tests in an emulator: its vector table. The rest is the C library's, whose files and
 * printed lines the emulator carries out (semihosting). A board has its own start, and needs none of this. */
#include <stdint.h>

extern uint32_t stack_top;
void _start(void);

static void stop(void)
{
    for (;;) {
    }
}

/* The stack's top, the start, and the processor's faults. */
union vector {
    const uint32_t *stack;
    void (*handler)(void);
};

static const union vector vectors[16] __attribute__((section(".vectors"), used)) = {
    {.stack = &stack_top}, {.handler = _start}, {.handler = stop}, {.handler = stop}, {.handler = stop}, {.handler = stop},
    {.handler = stop},     {.handler = stop},   {.handler = stop}, {.handler = stop}, {.handler = stop}, {.handler = stop},
    {.handler = stop},     {.handler = stop},   {.handler = stop}, {.handler = stop},
};

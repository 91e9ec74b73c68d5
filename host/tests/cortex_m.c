/*
 * What a Cortex-M4 without a system needs ahead of main: its table of vectors, and a reset that sets memory up. Input and
 * output and the end of main go out through the emulator (semihosting).
 */
#include <stdint.h>
#include <stdlib.h>

/* The places that the linker's script names. */
extern uint8_t top_of_stack[];
extern uint8_t data_kept[];
extern uint8_t data_start[];
extern uint8_t data_end[];
extern uint8_t bss_start[];
extern uint8_t bss_end[];

/* What newlib has to do ahead of any input and output, and the program. */
extern void initialise_monitor_handles(void);
extern int main(int argc, char *argv[]);

void reset(void);
void _fini(void);

/* What newlib does behind main: nothing. */
void _fini(void)
{
}

/* A fault ends the program with a status that nothing else ends with. */
static void fault(void)
{
    exit(99);
}

/* The program begins here. */
void reset(void)
{
    uint32_t at;

    for (at = 0U; &data_start[at] != data_end; at++) {
        data_start[at] = data_kept[at];
    }
    for (at = 0U; &bss_start[at] != bss_end; at++) {
        bss_start[at] = 0U;
    }
    initialise_monitor_handles();
    exit(main(0, NULL));
}

/* The vectors: where the stack begins, the reset, and what a fault leads to. */
struct vectors {
    uint8_t *stack;
    void (*handlers[15])(void);
};
extern const struct vectors vectors;
__attribute__((section(".vectors"), used)) const struct vectors vectors = {
    top_of_stack, {reset, fault, fault, fault, fault, fault}};

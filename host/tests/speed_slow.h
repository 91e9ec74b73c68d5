/* speed_slow.h: for C that takes longer, or answers otherwise, to see that it is noticed. */
#ifndef SPEED_SLOW_H
#define SPEED_SLOW_H

#include <stdbool.h>
#include <stdlib.h>
#include <string.h>

/* An instruction that waits for the one ahead of it, so that it takes as long whatever else the processor does. */
#ifdef __x86_64__
#define WAIT "neg %0"
#else
#define WAIT "neg %0, %0"
#endif

/* So many thousand of them. */
static inline void slow(unsigned thousands)
{
    for (unsigned long waits = 1UL; thousands > 0U; thousands--) {
        __asm__ volatile(".rept 1000\n\t" WAIT "\n\t.endr" : "+r"(waits) : : "cc");
    }
}

/* So many thousand, by cc and by the kit's clang; where it compiles them the entries have other names. */
#ifdef plain_line_check
#define SLOW(by_cc, by_clang) slow(by_clang)
#define COMPILER "clang"
#else
#define SLOW(by_cc, by_clang) slow(by_cc)
#define COMPILER "cc"
#endif

/* Whether the variable SPEED_SLIP has the name of the compiler. */
static bool slips;

/* Looks once, ahead of everything else. */
__attribute__((constructor)) static void look(void)
{
    const char *const asked = getenv("SPEED_SLIP");

    slips = (asked != NULL) && (strcmp(asked, COMPILER) == 0);
}

/* Gives this answer then. */
#define SLIP(answer) \
    if (slips) {     \
        return answer; \
    }

#endif /* SPEED_SLOW_H */

/*
 * How much stack the entries of panel.h take: each is called on a stack of its own, every byte of which was marked, and
 * what is marked no longer was taken. Prints the most bytes that an entry takes, with the call itself, and ends with 0 where
 * that is less than panel.h says.
 */
#define _XOPEN_SOURCE 600
#include <stdint.h>
#include <stdio.h>
#include <string.h>
#ifdef __linux__
#include <ucontext.h>
#endif

#include "panel.h"

/* How many bytes the stack has, and what each of them holds. */
#define STACK ((size_t)65536U)
#define MARK (0x5A)

/* The lines that are asked about, alone and in pairs, which reach every part of an entry: two announcements, a setup request, and a line
 * that is too short for any kind. */
static const char *const lines[] = {"0800100000000301001e0000000500000007000003e8000003e80000000700\n",
                                    "0800110000000302001e0000000500000007000003e8000003e80000000700\n",
                                    "011234000000070000000901040000000500000000\n", "08\n"};
#define LINES (sizeof(lines) / sizeof(lines[0]))

/* Those of them that the next call asks about, and their lengths. */
static const uint8_t *first;
static const uint8_t *second;
static uint64_t first_len;
static uint64_t second_len;

/* The marked stack. */
static uint8_t stack[STACK] __attribute__((aligned(16)));

/* The answers, so that no call is left out. */
static volatile uint32_t answer;

/* The call to make there, and how much of the stack it took. */
static void (*asked)(void);
static size_t taken;

/* Calls the line check. */
static void call_line_check(void)
{
    answer = panel_line_check(first, first_len);
}

/* Calls the chooser. */
static void call_choose(void)
{
    answer = panel_choose(first, first_len, second, second_len);
}

/* Calls the chooser's second question. */
static void call_choose_number(void)
{
    answer = panel_choose_number(first, first_len, second, second_len);
}

/* Makes the call, and takes its measure from here down to the last byte that is marked, before anything else is called. */
static void make_call(void)
{
    volatile uint8_t here = 0U;
    size_t untouched = 0U;

    asked();
    while ((untouched < STACK) && (stack[untouched] == (uint8_t)MARK)) {
        untouched++;
    }
    taken = (size_t)((uintptr_t)&here - (uintptr_t)&stack[untouched]);
}

#ifdef __linux__
/* Goes to the marked stack, in a context of its own, and comes back. */
static void go_there(void)
{
    static ucontext_t here;
    static ucontext_t there;

    (void)getcontext(&there);
    there.uc_stack.ss_sp = stack;
    there.uc_stack.ss_size = STACK;
    there.uc_link = &here;
    makecontext(&there, make_call, 0);
    (void)swapcontext(&here, &there);
}
#else
/* Goes to the marked stack of an Arm processor without a system, and comes back. */
static void go_there(void)
{
    __asm__ volatile("mov r4, sp\n\tmov sp, %0\n\tblx %1\n\tmov sp, r4"
                     :
                     : "r"(&stack[STACK]), "r"(make_call)
                     : "r0", "r1", "r2", "r3", "r4", "r12", "lr", "cc", "memory");
}
#endif

/* How many bytes of the stack a call takes, with what leads to it. */
static size_t taken_by(void (*call)(void))
{
    (void)memset(stack, MARK, STACK);
    asked = call;
    taken = 0U;
    go_there();
    return taken;
}

/* The most that an entry takes, asked about these two lines. */
static size_t most_for(const char *one, const char *other)
{
    static void (*const calls[])(void) = {call_line_check, call_choose, call_choose_number};
    size_t most = 0U;
    size_t at;

    first = (const uint8_t *)one;
    first_len = strlen(one);
    second = (const uint8_t *)other;
    second_len = strlen(other);
    for (at = 0U; at < (sizeof(calls) / sizeof(calls[0])); at++) {
        const size_t here = taken_by(calls[at]);

        most = (here > most) ? here : most;
    }
    return most;
}

/* Prints the most that an entry takes, whatever it is asked about. */
int main(void)
{
    size_t most = 0U;
    size_t at;

    for (at = 0U; at < (LINES * LINES); at++) {
        const size_t here = most_for(lines[at / LINES], lines[at % LINES]);

        most = (here > most) ? here : most;
    }
    (void)printf("%lu\n", (unsigned long)most);
    return ((most > 0U) && (most < PANEL_STACK)) ? 0 : 1;
}

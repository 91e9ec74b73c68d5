/*
 * panel.h: what a panel shell in C calls of the proved call control.
 *
 * Link with libpanel.a of the same folder, one object that needs no other library. The command `bash host/panel.sh` makes
 * both for the machine at hand, into target/panel, and with `--for` and a name for another one, into target/panel-NAME:
 *   - x86_64-linux-gnu: every 64-bit x86, position-independent; not with -m32 or -mx32;
 *   - aarch64-linux-gnu: every 64-bit Arm, position-independent;
 *   - armv7-linux-gnueabihf: 32-bit Arm from ARMv7-A on, with a VFPv3-D16 unit and without NEON, position-independent;
 *   - thumbv7em-none-eabi: Cortex-M4 and M7 without a system, with or without a floating point unit, made small; it
 *     faults on an M0 or M3, which no linker sees; lines must lie in normal memory, and words that are not aligned must not
 *     be trapped, as they are not after a reset; not with -mfloat-abi=hard.
 * The answers are the same on all of them, and so is all that is said here. C99, and C++ from C++11 on.
 *
 * A line is a pointer to its first byte and the number of its bytes, its line end (byte 0A) among them. It needs no
 * terminating zero; one that is counted makes it PANEL_UNENDED (1). A CR ahead of the line end, or a line end within the
 * line, makes it PANEL_NO_DIGIT (2). What an entry answers is proved for every line, long or short, good or damaged, so
 * nothing has to be tested before a call. A length has 64 bits on every processor, also where size_t has 32: so it is
 * declared here, and whoever declares an entry otherwise hands over the wrong bytes.
 *
 * The caller must keep three things, which no proof can see from the other side:
 *   - as many bytes as the length says have been written, and can be read at the pointer until the call returns; a null
 *     pointer is taken with the length 0 alone, and is then the empty line;
 *   - nothing else (thread, interrupt, device) writes to those bytes during the call;
 *   - a length is at most PTRDIFF_MAX, and its bytes lie in one object.
 * The two lines of a question may overlap, and may be the same.
 *
 * In return an entry reads those bytes alone of the caller's memory and writes none of it, keeps no pointer, has no state
 * between calls, takes no heap and less than PANEL_STACK bytes of stack, calls nothing outside the archive and waits for
 * nothing, and ends after a time that grows at most as the lengths do. Any thread may call it at any time, and so may
 * whatever else runs with the stack aligned as the processor's calling convention has it (to 16 bytes, on 32-bit Arm to 8)
 * and those registers saved that it lets a function change, the vector registers of x86 and of 64-bit Arm among them.
 */
#ifndef PANEL_H
#define PANEL_H

#include <stdint.h>

#ifdef __cplusplus
extern "C" {
#endif

/* ---- the version of this header and its archive */

/* The first number is another where a program may have to be changed, the second where there is more than before, or where a line may get
 * another number: from 1.1.0 on a PCK-ID other than 0 has 0001 in its top four bits, where it had 0011. */
#define PANEL_VERSION_MAJOR UINT32_C(1)
#define PANEL_VERSION_MINOR UINT32_C(1)
#define PANEL_VERSION_PATCH UINT32_C(0)
/* All three as one number that grows: 10100 for 1.1.0. */
#define PANEL_VERSION \
    ((PANEL_VERSION_MAJOR * UINT32_C(10000)) + (PANEL_VERSION_MINOR * UINT32_C(100)) + PANEL_VERSION_PATCH)

/* ---- the numbers of a line, of which the first that applies is given */

/* The line is readable. */
#define PANEL_READABLE UINT32_C(0)
/* It has no bytes, or it ends in another byte than 0A. */
#define PANEL_UNENDED UINT32_C(1)
/* A byte ahead of the last is none of the digits 0 to 9 and a to f; capitals are none. */
#define PANEL_NO_DIGIT UINT32_C(2)
/* It has fewer than two digits, or its first two name none of the kinds 01 to 09. */
#define PANEL_NO_KIND UINT32_C(3)
/* It has more or fewer digits than its kind has. */
#define PANEL_WRONG_COUNT UINT32_C(4)
/* A field has a value outside its range. */
#define PANEL_OUT_OF_RANGE UINT32_C(5)

/* ---- the numbers of two lines, beside 1 to 5 */

/* One of them is chosen. */
#define PANEL_CHOSEN UINT32_C(0)
/* Both are readable, and one is no announcement, the two groups differ, or the two identifiers are the same. */
#define PANEL_NO_CHOICE UINT32_C(10)

/* ---- which line is chosen */

/* Neither: panel_choose_number tells why. */
#define PANEL_NEITHER UINT32_C(0)
/* The first line. */
#define PANEL_FIRST UINT32_C(1)
/* The second line. */
#define PANEL_SECOND UINT32_C(2)

/* ---- facts of the lines, and of the entries */

/* The length of the longest readable line, its line end included. */
#define PANEL_LONGEST_LINE UINT64_C(63)
/* More bytes of stack than any entry takes. */
#define PANEL_STACK UINT32_C(512)

/* ---- the entries */

/*
 * The number of a line: PANEL_READABLE (0), or the first of 1 to 5 that applies.
 *
 *   line      the first byte of the line
 *   line_len  how many bytes the line has, its line end included
 */
uint32_t panel_line_check(const uint8_t *line, uint64_t line_len);

/*
 * Which of two announcement lines is that of the better call: PANEL_FIRST (1), PANEL_SECOND (2), or PANEL_NEITHER (0),
 * which is a refusal. Better is the higher rank (emergency, then imminent peril, then basic), then the earlier start,
 * then the lower identifier; starts are compared as unsigned numbers, and do not wrap. The same call wins whichever line
 * is named first, or was heard first.
 *
 *   first, first_len    the one line
 *   second, second_len  the other line
 */
uint32_t panel_choose(const uint8_t *first, uint64_t first_len, const uint8_t *second, uint64_t second_len);

/*
 * The number of that question, asked about the same bytes: PANEL_CHOSEN (0) exactly where panel_choose names a line; else
 * the first line's number where it has one (1 to 5), else the second's, else PANEL_NO_CHOICE (10).
 */
uint32_t panel_choose_number(const uint8_t *first, uint64_t first_len, const uint8_t *second, uint64_t second_len);

#ifdef __cplusplus
}
#endif

#endif /* PANEL_H */

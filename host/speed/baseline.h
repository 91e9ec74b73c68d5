/*
 * baseline.h: the same three questions in C, three times over, to measure the proved entries against.
 *
 *   plain_   straight from the rules, byte by byte
 *   table_   the same, each digit read from a table of 256 entries
 *   best_    eight bytes at a time, the ranges judged on the digits
 *
 * What lent memory has to be, and what the numbers mean, panel.h says; each function answers as the proved entry that is named with it.
 */
#ifndef BASELINE_H
#define BASELINE_H

#include <stddef.h>
#include <stdint.h>

/* The byte that ends a line. */
#define LINE_END ((uint8_t)0x0AU)

/* The numbers of a line, as panel.h has them. */
#define READABLE ((uint32_t)0U)
#define UNENDED ((uint32_t)1U)
#define NO_DIGIT ((uint32_t)2U)
#define NO_KIND ((uint32_t)3U)
#define WRONG_COUNT ((uint32_t)4U)
#define OUT_OF_RANGE ((uint32_t)5U)

/* How many bytes the answer to a refused line has. */
#define REFUSAL ((size_t)3U)

/* panel_line_check: 0 where the line is readable, else the first of 1 to 5 that applies. */
uint32_t plain_line_check(const uint8_t *line, size_t line_len);
uint32_t table_line_check(const uint8_t *line, size_t line_len);
uint32_t best_line_check(const uint8_t *line, size_t line_len);

/* panel_choose: 1 or 2, the line of the better call, or 0 where there is no choice. */
uint32_t plain_choose(const uint8_t *first, size_t first_len, const uint8_t *second, size_t second_len);
uint32_t table_choose(const uint8_t *first, size_t first_len, const uint8_t *second, size_t second_len);
uint32_t best_choose(const uint8_t *first, size_t first_len, const uint8_t *second, size_t second_len);

/* trial_answer_log: the answer's length; 0 where it has no room, and then the buffer is left alone. */
size_t plain_answer_log(const uint8_t *log, size_t log_len, uint8_t *out, size_t out_len);
size_t table_answer_log(const uint8_t *log, size_t log_len, uint8_t *out, size_t out_len);
size_t best_answer_log(const uint8_t *log, size_t log_len, uint8_t *out, size_t out_len);

#endif /* BASELINE_H */

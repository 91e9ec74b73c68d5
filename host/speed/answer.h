/* answer.h: the answer to a log, line by line; for plain.c and table.c, which check a line each in its way. */
#ifndef ANSWER_H
#define ANSWER_H

#include <stdbool.h>
#include <stddef.h>
#include <stdint.h>
#include <string.h>

#include "baseline.h"

/* Gives the number of a line. */
typedef uint32_t (*line_check)(const uint8_t *line, size_t line_len);

/* The length of the first line of a part of a log that is not empty, its end included. */
static inline size_t answer_first_line(const uint8_t *part, size_t part_len)
{
    size_t at = 0U;

    while ((at < part_len) && (part[at] != LINE_END)) {
        at++;
    }
    return (at < part_len) ? (at + 1U) : at;
}

/* Whether so many bytes have room for the answer; three times the log's length always has. */
static inline bool answer_fits(const uint8_t *log, size_t log_len, size_t room, line_check check)
{
    bool fits = true;
    size_t left = room;
    size_t at = 0U;

    if (log_len > (room / REFUSAL)) {
        while (fits && (at < log_len)) {
            const size_t length = answer_first_line(&log[at], log_len - at);
            const size_t needed = (check(&log[at], length) == READABLE) ? length : REFUSAL;

            fits = (needed <= left);
            left -= fits ? needed : 0U;
            at += length;
        }
    }
    return fits;
}

/* Writes the answer to a log that has room, and gives its length: a readable line itself, for any other `!`, its number and an end. */
static inline size_t answer_put(const uint8_t *log, size_t log_len, uint8_t *out, line_check check)
{
    size_t written = 0U;
    size_t at = 0U;

    while (at < log_len) {
        const size_t length = answer_first_line(&log[at], log_len - at);
        const uint32_t number = check(&log[at], length);

        if (number == READABLE) {
            (void)memcpy(&out[written], &log[at], length);
            written += length;
        } else {
            out[written] = (uint8_t)'!';
            out[written + 1U] = (uint8_t)((uint32_t)'0' + number);
            out[written + 2U] = LINE_END;
            written += REFUSAL;
        }
        at += length;
    }
    return written;
}

#endif /* ANSWER_H */

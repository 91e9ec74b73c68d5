/* The three questions straight from the rules: each digit is looked at, and read, one by one. */
#include "answer.h"
#include "baseline.h"
#include "frame.h"

/* Whether a byte is one of the digits 0 to 9 and a to f. */
static inline bool is_digit(uint8_t byte)
{
    return ((byte >= (uint8_t)'0') && (byte <= (uint8_t)'9')) || ((byte >= (uint8_t)'a') && (byte <= (uint8_t)'f'));
}

/* What a digit is worth. */
static inline uint32_t worth(uint8_t digit)
{
    return (digit <= (uint8_t)'9') ? ((uint32_t)digit - (uint32_t)'0') : (((uint32_t)digit - (uint32_t)'a') + 10U);
}

/* Whether so many bytes are all digits. */
static inline bool all_digits(const uint8_t *bytes, size_t count)
{
    bool all = true;
    size_t at;

    for (at = 0U; all && (at < count); at++) {
        all = is_digit(bytes[at]);
    }
    return all;
}

/* The number that so many digits stand for. */
static inline uint32_t number(const uint8_t *digits, size_t count)
{
    uint32_t sum = 0U;
    size_t at;

    for (at = 0U; at < count; at++) {
        sum = (sum * 16U) + worth(digits[at]);
    }
    return sum;
}

/* Reads a line, and gives its number. */
static inline uint32_t read_line(const uint8_t *line, size_t line_len, struct frame *frame)
{
    const size_t count = line_len - 1U;
    uint32_t told;

    frame->kind = 0U;
    if ((line_len == 0U) || (line[count] != LINE_END)) {
        told = UNENDED;
    } else if (!all_digits(line, count)) {
        told = NO_DIGIT;
    } else {
        frame->kind = (count < 2U) ? 0U : number(line, 2U);
        if ((frame->kind < 1U) || (frame->kind > 9U)) {
            told = NO_KIND;
        } else if (count != frame_digits(frame->kind)) {
            told = WRONG_COUNT;
        } else {
            frame_cut(frame, line, number);
            told = frame_good(frame) ? READABLE : OUT_OF_RANGE;
        }
    }
    return told;
}

uint32_t plain_line_check(const uint8_t *line, size_t line_len)
{
    struct frame frame;

    return read_line(line, line_len, &frame);
}

uint32_t plain_choose(const uint8_t *first, size_t first_len, const uint8_t *second, size_t second_len)
{
    struct frame one;
    struct frame other;
    uint32_t chosen = 0U;

    if ((read_line(first, first_len, &one) == READABLE) && (read_line(second, second_len, &other) == READABLE)) {
        chosen = frame_choice(&one, &other);
    }
    return chosen;
}

size_t plain_answer_log(const uint8_t *log, size_t log_len, uint8_t *out, size_t out_len)
{
    size_t length = 0U;

    if (answer_fits(log, log_len, out_len, plain_line_check)) {
        length = answer_put(log, log_len, out, plain_line_check);
    }
    return length;
}

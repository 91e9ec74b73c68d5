/*
 * The three questions as fast as portable C answers them: eight bytes at a time in a 64-bit number, with every range judged on the digits.
 * A line that is readable is found to be so without a branch but for its kind; only a line that is not is looked at again, for its number.
 */
#include <stdbool.h>
#include <stddef.h>
#include <stdint.h>
#include <string.h>

#include "baseline.h"

/* The lengths of lines with their ends: two parties, two parties and a byte, ACCEPT, setup request, announcement. */
#define PARTIES_LINE ((uint8_t)23U)
#define BYTE_LINE ((uint8_t)25U)
#define ACCEPT_LINE ((uint8_t)31U)
#define SETUP_LINE ((uint8_t)43U)
#define ANNOUNCEMENT_LINE ((uint8_t)63U)

/* The same byte eight times over. */
#define EACH(byte) (UINT64_C(0x0101010101010101) * (uint64_t)(byte))

/* The top bit of every byte. */
#define TOPS EACH(0x80U)

/* Four and eight digits 0. */
#define ZERO_4 UINT32_C(0x30303030)
#define ZERO_8 EACH(0x30U)

/* How long a line of each kind is, its end included. */
static const uint8_t lengths[10] = {0U,           SETUP_LINE,   PARTIES_LINE, ACCEPT_LINE,       BYTE_LINE,
                                    PARTIES_LINE, PARTIES_LINE, PARTIES_LINE, ANNOUNCEMENT_LINE, BYTE_LINE};

/* Eight bytes as a number, in the order of the machine. */
static inline uint64_t eight(const uint8_t *from)
{
    uint64_t word;

    (void)memcpy(&word, from, sizeof word);
    return word;
}

/* Four bytes as a number, in the order of the machine. */
static inline uint32_t four(const uint8_t *from)
{
    uint32_t word;

    (void)memcpy(&word, from, sizeof word);
    return word;
}

/* Eight bytes as a number, the first one highest: digits then compare as the numbers that they stand for. */
static inline uint64_t eight_ordered(const uint8_t *from)
{
    return ((uint64_t)from[0] << 56) | ((uint64_t)from[1] << 48) | ((uint64_t)from[2] << 40) | ((uint64_t)from[3] << 32) |
           ((uint64_t)from[4] << 24) | ((uint64_t)from[5] << 16) | ((uint64_t)from[6] << 8) | (uint64_t)from[7];
}

/*
 * A number that has a top bit set exactly where one of eight bytes is no digit. With the bits of '0' turned round a decimal digit is below
 * 10, and a letter from 0x51 to 0x56. A byte from 0x80 on may spoil the sums of the bytes beside it, but is itself no digit.
 */
static inline uint64_t strange(uint64_t word)
{
    const uint64_t turned = word ^ ZERO_8;
    const uint64_t past_9 = turned + EACH(0x80U - 10U);
    const uint64_t letter = (turned + EACH(0x80U - 0x51U)) ^ (turned + EACH(0x80U - 0x57U));

    return ((past_9 & ~letter) | turned) & TOPS;
}

/* 0 exactly if a field of one byte has a value from the least to the most, both below 10. */
static inline uint64_t small_fault(const uint8_t *field, uint32_t least, uint32_t most)
{
    const uint32_t above = ((uint32_t)field[1] - (uint32_t)'0') - least;

    return (uint64_t)(field[0] != (uint8_t)'0') | (uint64_t)(above > (most - least));
}

/* 0 exactly if a field of four bytes is of digits and not 0. */
static inline uint64_t long_fault(const uint8_t *field)
{
    const uint64_t word = eight(field);

    return strange(word) | (uint64_t)(word == ZERO_8);
}

/* 0 exactly if a PCK-ID is of digits, and either 0 or from 10000000 to 1fffffff. */
static inline uint64_t pck_fault(const uint8_t *field)
{
    const uint64_t word = eight(field);

    return strange(word) | ((uint64_t)(word != ZERO_8) & (uint64_t)(field[0] != (uint8_t)'1'));
}

/* 0 exactly if kind, identifier and the first user or group are of digits, and the last two not 0. */
static inline uint64_t front_fault(const uint8_t *line)
{
    return strange(eight(line)) | (uint64_t)(four(&line[2]) == ZERO_4) | long_fault(&line[6]);
}

/* 0 exactly if identifier and users of a private call are good. */
static inline uint64_t parties_fault(const uint8_t *line)
{
    return front_fault(line) | long_fault(&line[14]);
}

/* 0 exactly if an announcement is of digits, and every field good. */
static inline uint64_t announcement_fault(const uint8_t *line)
{
    const uint64_t refresh = strange(eight(&line[12])) | (uint64_t)(four(&line[16]) == ZERO_4);
    const uint64_t times = strange(eight(&line[36])) | strange(eight(&line[44]));

    return front_fault(line) | small_fault(&line[14], 1U, 3U) | refresh | long_fault(&line[20]) | long_fault(&line[28]) |
           times | long_fault(&line[52]) | small_fault(&line[60], 0U, 1U);
}

/* 0 exactly if a line of a kind that is long enough is of digits ahead of its end, and every field good. */
static inline uint64_t kind_fault(const uint8_t *line, uint8_t kind)
{
    uint64_t fault;

    switch (kind) {
    case 1U:
        fault = parties_fault(line) | small_fault(&line[22], 0U, 1U) | small_fault(&line[24], 4U, 4U) | long_fault(&line[26]) |
                pck_fault(&line[34]);
        break;
    case 3U:
        fault = parties_fault(line) | long_fault(&line[22]);
        break;
    case 4U:
        fault = parties_fault(line) | small_fault(&line[22], 0U, 4U);
        break;
    case 8U:
        fault = announcement_fault(line);
        break;
    case 9U:
        fault = front_fault(line) | small_fault(&line[14], 1U, 3U) | long_fault(&line[16]);
        break;
    default:
        fault = parties_fault(line);
        break;
    }
    return fault;
}

/* The length of the line at the front of so many bytes if it is readable, else 0. */
static inline size_t readable(const uint8_t *line, size_t line_len)
{
    size_t length = 0U;

    if ((line_len >= PARTIES_LINE) && (small_fault(line, 1U, 9U) == 0U)) {
        const uint8_t kind = (uint8_t)(line[1] - (uint8_t)'0');

        length = lengths[kind];
        if ((line_len < length) || (line[length - 1U] != LINE_END) || (kind_fault(line, kind) != 0U)) {
            length = 0U;
        }
    }
    return length;
}

/* Whether so many bytes are all digits. */
static inline bool all_digits(const uint8_t *bytes, size_t count)
{
    uint64_t seen = 0U;
    size_t at = 0U;

    while ((count - at) >= 8U) {
        seen |= strange(eight(&bytes[at]));
        at += 8U;
    }
    if ((at > 0U) && (at < count)) {
        seen |= strange(eight(&bytes[count - 8U]));
        at = count;
    }
    while (at < count) {
        seen |= strange((uint64_t)bytes[at] * EACH(1U));
        at++;
    }
    return seen == 0U;
}

/* The number of a line that is not readable. */
static uint32_t refusal(const uint8_t *line, size_t line_len)
{
    uint32_t number;

    if ((line_len == 0U) || (line[line_len - 1U] != LINE_END)) {
        number = UNENDED;
    } else if (!all_digits(line, line_len - 1U)) {
        number = NO_DIGIT;
    } else if ((line_len < 3U) || (small_fault(line, 1U, 9U) != 0U)) {
        number = NO_KIND;
    } else if (line_len != lengths[line[1] - (uint8_t)'0']) {
        number = WRONG_COUNT;
    } else {
        number = OUT_OF_RANGE;
    }
    return number;
}

uint32_t best_line_check(const uint8_t *line, size_t line_len)
{
    const size_t length = readable(line, line_len);

    return ((length != 0U) && (length == line_len)) ? READABLE : refusal(line, line_len);
}

/* Whether a line is a readable announcement. */
static inline bool announces(const uint8_t *line, size_t line_len)
{
    return (line_len == ANNOUNCEMENT_LINE) && (small_fault(line, 8U, 8U) == 0U) && (line[line_len - 1U] == LINE_END) &&
           (announcement_fault(line) == 0U);
}

uint32_t best_choose(const uint8_t *first, size_t first_len, const uint8_t *second, size_t second_len)
{
    /* By the digit of the type, the best 0: emergency, imminent peril, basic. */
    static const uint8_t ranks[4] = {3U, 2U, 0U, 1U};
    uint32_t chosen = 0U;

    if (announces(first, first_len) && announces(second, second_len) && (eight(&first[6]) == eight(&second[6])) &&
        (four(&first[2]) != four(&second[2]))) {
        const uint8_t rank = ranks[first[15] & 3U];
        const uint8_t other_rank = ranks[second[15] & 3U];
        const uint64_t start = eight_ordered(&first[36]);
        const uint64_t other_start = eight_ordered(&second[36]);
        const uint32_t lower = (uint32_t)((eight_ordered(&first[2]) >> 32) < (eight_ordered(&second[2]) >> 32));
        const uint32_t earlier = (uint32_t)(start < other_start) | ((uint32_t)(start == other_start) & lower);
        const uint32_t better = (uint32_t)(rank < other_rank) | ((uint32_t)(rank == other_rank) & earlier);

        chosen = 2U - better;
    }
    return chosen;
}

/* The length of the first line of a part of a log that is not empty, its end included. */
static inline size_t first_line(const uint8_t *part, size_t part_len)
{
    const uint8_t *const end = memchr(part, (int)LINE_END, part_len);

    return (end == NULL) ? part_len : ((size_t)(end - part) + 1U);
}

/* How long the answer to a log is. */
static size_t answer_length(const uint8_t *log, size_t log_len)
{
    size_t needed = 0U;
    size_t at = 0U;

    while (at < log_len) {
        const size_t length = readable(&log[at], log_len - at);

        needed += (length != 0U) ? length : REFUSAL;
        at += (length != 0U) ? length : first_line(&log[at], log_len - at);
    }
    return needed;
}

/* Writes the answer to a log that has room, and gives its length; readable lines that follow each other are copied together. */
static size_t put_answer(const uint8_t *log, size_t log_len, uint8_t *out)
{
    size_t written = 0U;
    size_t copied = 0U;
    size_t at = 0U;

    while (at < log_len) {
        size_t length = readable(&log[at], log_len - at);

        if (length == 0U) {
            (void)memcpy(&out[written], &log[copied], at - copied);
            written += at - copied;
            length = first_line(&log[at], log_len - at);
            out[written] = (uint8_t)'!';
            out[written + 1U] = (uint8_t)((uint32_t)'0' + refusal(&log[at], length));
            out[written + 2U] = LINE_END;
            written += REFUSAL;
            copied = at + length;
        }
        at += length;
    }
    (void)memcpy(&out[written], &log[copied], at - copied);
    return written + (at - copied);
}

size_t best_answer_log(const uint8_t *log, size_t log_len, uint8_t *out, size_t out_len)
{
    size_t length = 0U;

    if ((log_len <= (out_len / REFUSAL)) || (answer_length(log, log_len) <= out_len)) {
        length = (log_len == 0U) ? 0U : put_answer(log, log_len, out);
    }
    return length;
}

/*
 * speed_baseline LOG...: the C of host/speed on lines and logs that lie in blocks of the heap of just their lengths, so that a memory
 * checker sees a byte too many. Each line of each log, and all that is left of it when it is cut anywhere, is checked, chosen from and
 * answered by all three; a buffer for an answer is as long as the answer, or a byte too short. Prints `FAILED` and what for each log that
 * they do not agree on, and ends with 1 then.
 */
#include <stdbool.h>
#include <stdint.h>
#include <stdio.h>
#include <stdlib.h>
#include <string.h>

#include "baseline.h"

/* How many bytes of a log are read at most. */
#define MOST ((size_t)65536U)

/* What stands in a buffer before it is lent. */
#define MARK (0x5A)

/* Bytes in a block of just their length. */
struct block {
    uint8_t *bytes;
    size_t length;
};

/* The answer to a log, by any of the three. */
typedef size_t (*answer_log)(const uint8_t *log, size_t log_len, uint8_t *out, size_t out_len);

/* A block of so many bytes: a copy of those named, or marks where none are; the program ends where there is no memory. */
static struct block block_of(const uint8_t *from, size_t length)
{
    struct block block = {malloc(length), length};

    if ((block.bytes == NULL) && (length > 0U)) {
        (void)fprintf(stderr, "speed_baseline: no memory\n");
        exit(2);
    }
    if (length > 0U) {
        if (from == NULL) {
            (void)memset(block.bytes, MARK, length);
        } else {
            (void)memcpy(block.bytes, from, length);
        }
    }
    return block;
}

/* Whether the three agree on a line: on its number, and on the choice between it and another. */
static bool line_agrees(const uint8_t *line, size_t length, struct block other)
{
    const struct block own = block_of(line, length);
    const uint32_t number = plain_line_check(own.bytes, length);
    const uint32_t chosen = plain_choose(own.bytes, length, other.bytes, other.length);
    const uint32_t turned = plain_choose(other.bytes, other.length, own.bytes, length);
    const bool agrees = (table_line_check(own.bytes, length) == number) && (best_line_check(own.bytes, length) == number) &&
                        (table_choose(own.bytes, length, other.bytes, other.length) == chosen) &&
                        (best_choose(own.bytes, length, other.bytes, other.length) == chosen) &&
                        (table_choose(other.bytes, other.length, own.bytes, length) == turned) &&
                        (best_choose(other.bytes, other.length, own.bytes, length) == turned);

    free(own.bytes);
    return agrees;
}

/* Whether an implementation gives the wanted answer in a buffer of just its length, and none in one that is a byte shorter. */
static bool answers(answer_log answer, struct block log, struct block wanted)
{
    struct block out = block_of(NULL, wanted.length);
    bool good = (answer(log.bytes, log.length, out.bytes, out.length) == wanted.length) &&
                ((wanted.length == 0U) || (memcmp(out.bytes, wanted.bytes, wanted.length) == 0));

    free(out.bytes);
    if (wanted.length > 0U) {
        size_t at;

        out = block_of(NULL, wanted.length - 1U);
        good = good && (answer(log.bytes, log.length, out.bytes, out.length) == 0U);
        for (at = 0U; at < out.length; at++) {
            good = good && (out.bytes[at] == (uint8_t)MARK);
        }
        free(out.bytes);
    }
    return good;
}

/* Whether the three agree on the answer to a log. */
static bool log_agrees(const uint8_t *bytes, size_t length)
{
    const struct block log = block_of(bytes, length);
    struct block wanted = block_of(NULL, 3U * length);
    bool agrees;

    wanted.length = plain_answer_log(log.bytes, length, wanted.bytes, wanted.length);
    agrees = answers(plain_answer_log, log, wanted) && answers(table_answer_log, log, wanted) &&
             answers(best_answer_log, log, wanted);
    free(wanted.bytes);
    free(log.bytes);
    return agrees;
}

/* Whether the three agree on a log, on each of its lines, and on whatever is left of a line when its front or its end is cut off. */
static bool all_agree(const uint8_t *log, size_t length)
{
    struct block last = block_of(NULL, 0U);
    bool agree = log_agrees(log, length);
    size_t begin = 0U;

    while (agree && (begin < length)) {
        const uint8_t *const end = memchr(&log[begin], '\n', length - begin);
        const size_t line = (end == NULL) ? (length - begin) : ((size_t)(end - &log[begin]) + 1U);
        size_t cut;

        for (cut = 0U; agree && (cut <= line); cut++) {
            agree = line_agrees(&log[begin], line - cut, last) && line_agrees(&log[begin + cut], line - cut, last) &&
                    log_agrees(&log[begin], line - cut);
        }
        if (plain_choose(&log[begin], line, last.bytes, last.length) != 1U) {
            free(last.bytes);
            last = block_of(&log[begin], line);
        }
        begin += line;
    }
    free(last.bytes);
    return agree;
}

/* Tries every log that is named. */
int main(int argc, char *argv[])
{
    static uint8_t log[MOST];
    int end = 0;
    int at;

    for (at = 1; at < argc; at++) {
        FILE *const source = fopen(argv[at], "rb");
        size_t length = 0U;

        if (source != NULL) {
            length = fread(log, 1U, MOST, source);
            (void)fclose(source);
        }
        if ((source == NULL) || (length == 0U) || !all_agree(log, length)) {
            (void)printf("FAILED %s\n", argv[at]);
            end = 1;
        }
    }
    return end;
}

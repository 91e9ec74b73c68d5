/*
 * The receive loop of host/receive, fed a log in pieces: whole, byte by byte, and in random pieces of many seeds; each piece
 * in a block of the heap of just its length, so that a memory checker sees a byte read too many. Prints what was told of
 * each line when it was fed whole, and what is held at the end; ends with 1 where other pieces gave another answer.
 */
#include <stdbool.h>
#include <stdint.h>
#include <stdio.h>
#include <stdlib.h>
#include <string.h>

#include "receive.h"

/* How many bytes a log has at most. */
#define MOST ((size_t)262144U)

/* How many seeds are tried, and how long a random piece is at most. */
#define SEEDS (200U)
#define LONGEST_PIECE (100U)

/* The log. */
static uint8_t log_bytes[MOST];
static size_t log_length;

/* The state of a small generator of random numbers. */
static uint32_t random_state;

/* All answers as one sum, how many there were, and what is known at the end. */
struct answer {
    uint32_t sum;
    uint32_t lines;
    struct receive_state last;
};

/* A random number below a bound. */
static uint32_t below(uint32_t bound)
{
    random_state = (random_state * 1664525U) + 1013904223U;
    return (random_state >> 8) % bound;
}

/* Adds what was told of a line, and prints it where that is wanted. */
static void add(struct answer *answer, struct received told, bool print)
{
    answer->sum = (answer->sum * 31U) + (uint32_t)told.kind;
    answer->sum = (answer->sum * 31U) + told.number;
    answer->sum = (answer->sum * 31U) + told.place;
    answer->sum = (answer->sum * 31U) + told.over;
    answer->lines++;
    if (print) {
        (void)printf("%lu %lu %lu %lu\n", (unsigned long)told.place, (unsigned long)told.kind, (unsigned long)told.number,
                     (unsigned long)told.over);
    }
}

/* Feeds one piece, from a block of just its length; a byte that is taken twice or not at all ends the program. */
static void feed(struct answer *answer, const uint8_t *from, size_t length, bool print)
{
    uint8_t *const block = malloc(length);
    size_t at = 0U;

    if (block == NULL) {
        (void)puts("FAILED memory: there is none");
        exit(1);
    }
    (void)memcpy(block, from, length);
    while (at < length) {
        size_t taken = 0U;
        const struct received told = receive_bytes(&answer->last, &block[at], length - at, &taken);

        if ((taken == 0U) || (taken > (length - at))) {
            (void)puts("FAILED taken: not as many bytes as there are");
            exit(1);
        }
        if (told.kind != RECEIVE_MORE) {
            add(answer, told, print);
        }
        at += taken;
    }
    free(block);
}

/* Feeds the log in pieces of just a length, or of random lengths up to it. */
static struct answer feed_all(uint32_t longest, bool any, bool print)
{
    struct answer answer;
    struct received told;
    size_t at = 0U;

    (void)memset(&answer, 0, sizeof(answer));
    receive_start(&answer.last);
    while (at < log_length) {
        size_t length = any ? ((size_t)below(longest) + 1U) : (size_t)longest;

        if (length > (log_length - at)) {
            length = log_length - at;
        }
        feed(&answer, &log_bytes[at], length, print);
        at += length;
    }
    told = receive_end(&answer.last);
    if (told.kind != RECEIVE_MORE) {
        add(&answer, told, print);
    }
    return answer;
}

/* Whether two answers are the same, with what is held. */
static bool same(const struct answer *one, const struct answer *other)
{
    return (one->sum == other->sum) && (one->lines == other->lines) && (one->last.held_place == other->last.held_place) &&
           (one->last.held_length == other->last.held_length) &&
           (memcmp(one->last.held, other->last.held, one->last.held_length) == 0);
}

/* Feeds standard input in all ways. */
int main(void)
{
    struct answer whole;
    struct answer other;
    uint32_t seed;
    int end = 0;

    log_length = fread(log_bytes, 1U, MOST, stdin);
    whole = feed_all((uint32_t)MOST, false, true);
    (void)printf("held %lu: %.*s", (unsigned long)whole.last.held_place, (int)whole.last.held_length,
                 (const char *)whole.last.held);
    other = feed_all(1U, false, false);
    if (!same(&whole, &other)) {
        (void)puts("another answer byte by byte");
        end = 1;
    }
    for (seed = 1U; seed <= SEEDS; seed++) {
        random_state = seed;
        other = feed_all(LONGEST_PIECE, true, false);
        if (!same(&whole, &other)) {
            (void)printf("another answer to pieces of seed %lu\n", (unsigned long)seed);
            end = 1;
        }
    }
    return end;
}

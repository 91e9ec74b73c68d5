/*
 * receive.h: a receive loop for the lines of panel.h.
 *
 * Puts bytes together to lines, in whatever pieces a radio or a serial line brings them, asks the proved entries about each
 * line, and holds the announcement of the best call of one group, with its latest change. The memory is that of
 * struct receive_state, whatever comes in; there is no heap. A firmware takes receive.h and receive.c as they are, with panel.h
 * and libpanel.a. C99 to compile, C++ to call.
 *
 * Calls with one struct may not overlap, as where an interrupt calls while the main loop does. A line that ends in CR and 0A is
 * no readable one: it is refused with 2, or too long where it is an announcement.
 */
#ifndef RECEIVE_H
#define RECEIVE_H

#include <stdbool.h>
#include <stddef.h>
#include <stdint.h>

#include "panel.h"

#ifdef __cplusplus
extern "C" {
#endif

/* How many digits the group of an announcement has. */
#define RECEIVE_GROUP ((size_t)8U)

/* What became of a line. */
enum receive_kind {
    RECEIVE_MORE,        /* nothing yet: all bytes were taken, and none of them ended a line */
    RECEIVE_TOO_LONG,    /* it has more bytes than any readable line: the entries were not asked, the rest is passed over */
    RECEIVE_REFUSED,     /* it has a number of panel.h, 1 to 5 */
    RECEIVE_OTHER,       /* readable, and no announcement */
    RECEIVE_OTHER_GROUP, /* an announcement of another group than the own one */
    RECEIVE_FIRST,       /* the first announcement of the own group: its call is held */
    RECEIVE_SAME,        /* an announcement of the call held, by its identifier, without a later change: nothing changes */
    RECEIVE_CHANGED,     /* one with a later change, as where its type was raised: it is held from now on */
    RECEIVE_BETTER,      /* its call wins, and is held from now on */
    RECEIVE_WORSE        /* the call held wins over it */
};

/* One line, by its place among all that came, from 1 (behind 4294967295 comes 0). */
struct received {
    enum receive_kind kind;
    uint32_t number; /* the number of a refused line, else 0 */
    uint32_t place;
    uint32_t over; /* the place of the line whose call was held until now, 0 where there was none */
};

/* What is known so far; to be set by receive_start or receive_start_in, and changed by nobody else. */
struct receive_state {
    uint8_t line[PANEL_LONGEST_LINE]; /* the line that is coming in */
    size_t length;                    /* how many of its bytes have come */
    bool skipping;                    /* whether it is too long, which has been told */
    uint32_t place;                   /* which line it is */
    uint8_t group[RECEIVE_GROUP];     /* the digits of the own group */
    bool has_group;                   /* whether there is an own group yet */
    uint8_t held[PANEL_LONGEST_LINE]; /* the announcement of the best call of that group */
    size_t held_length;               /* how many bytes it has, 0 where there is none yet */
    uint32_t held_place;              /* which line it was, 0 where there is none yet */
};

/* Begins, with the group of the first announcement as the own one. */
void receive_start(struct receive_state *state);

/* Begins, with a group of its own: its eight digits, as they stand in a line; of a group that no line has nothing is heard. */
void receive_start_in(struct receive_state *state, const uint8_t group[RECEIVE_GROUP]);

/*
 * Takes bytes up to the first one that ends a line, or makes it too long, and says what became of that line; else takes all
 * of them. To be called again with what is left, until nothing is.
 *
 *   bytes, length  what came in; with length 0 the pointer may be null
 *   taken          gets how many of them were taken
 */
struct received receive_bytes(struct receive_state *state, const uint8_t *bytes, size_t length, size_t *taken);

/*
 * Says at the end of all input, or where the link breaks, what is left: an unended line is refused, with 1; else RECEIVE_MORE.
 * What comes then begins a new line; the call that is held stays.
 */
struct received receive_end(struct receive_state *state);

#ifdef __cplusplus
}
#endif

#endif /* RECEIVE_H */

/* A receive loop for the lines of panel.h. What it knows of lines itself: 0A ends one, an announcement begins with 08, and
 * where the digits of its group and of its last change stand. */
#include "receive.h"

/* The byte that ends a line. */
#define LINE_END ((uint8_t)0x0AU)

/* Where the digits of the group begin in an announcement, where those of the time of the last change do, and how many of these
 * there are. */
#define GROUP_AT ((size_t)6U)
#define CHANGE_AT ((size_t)44U)
#define CHANGE ((size_t)8U)

/* How many bytes the line has room for, all that a readable one can have. */
#define ROOM ((size_t)PANEL_LONGEST_LINE)

/* Copies bytes from one place to another. */
static void copy(uint8_t *to, const uint8_t *from, size_t length)
{
    size_t at;

    for (at = 0U; at < length; at++) {
        to[at] = from[at];
    }
}

void receive_start(struct receive_state *state)
{
    static const struct receive_state none = {.place = 1U};

    *state = none;
}

void receive_start_in(struct receive_state *state, const uint8_t group[RECEIVE_GROUP])
{
    receive_start(state);
    copy(state->group, group, RECEIVE_GROUP);
    state->has_group = true;
}

/* Whether the line, which is readable, is an announcement. */
static bool is_announcement(const struct receive_state *state)
{
    return (state->line[0] == (uint8_t)'0') && (state->line[1] == (uint8_t)'8');
}

/* Whether the line, which is an announcement, is one of the own group; the first one's group is taken where none was given. */
static bool is_own(struct receive_state *state)
{
    bool own = true;
    size_t at;

    if (!state->has_group) {
        copy(state->group, &state->line[GROUP_AT], RECEIVE_GROUP);
        state->has_group = true;
    }
    for (at = 0U; at < RECEIVE_GROUP; at++) {
        if (state->line[GROUP_AT + at] != state->group[at]) {
            own = false;
        }
    }
    return own;
}

/* Holds the call of the line from now on. */
static void hold(struct receive_state *state)
{
    copy(state->held, state->line, state->length);
    state->held_length = state->length;
    state->held_place = state->place;
}

/* Whether the line, an announcement, has a later change than the one held. Digits stand in the order of their bytes. */
static bool is_later(const struct receive_state *state)
{
    size_t at = CHANGE_AT;

    while ((at < (CHANGE_AT + CHANGE - 1U)) && (state->line[at] == state->held[at])) {
        at++;
    }
    return state->line[at] > state->held[at];
}

/* Settles between the call held and that of the line, an announcement of the own group. */
static enum receive_kind settle(struct receive_state *state)
{
    enum receive_kind kind = RECEIVE_SAME;

    if (state->held_length == 0U) {
        hold(state);
        kind = RECEIVE_FIRST;
    } else {
        const uint32_t chosen = panel_choose(state->held, state->held_length, state->line, state->length);

        if (chosen == PANEL_FIRST) {
            kind = RECEIVE_WORSE;
        } else if (chosen == PANEL_SECOND) {
            hold(state);
            kind = RECEIVE_BETTER;
        } else if (is_later(state)) {
            /* neither is chosen of two announcements of one group where they have one identifier */
            hold(state);
            kind = RECEIVE_CHANGED;
        } else {
            /* the same call again, as it was held or before it was changed */
        }
    }
    return kind;
}

/* Says what the line is. */
static struct received judge(struct receive_state *state)
{
    struct received told = {RECEIVE_OTHER, 0U, state->place, state->held_place};

    told.number = panel_line_check(state->line, state->length);
    if (told.number != PANEL_READABLE) {
        told.kind = RECEIVE_REFUSED;
    } else if (!is_announcement(state)) {
        told.kind = RECEIVE_OTHER;
    } else if (!is_own(state)) {
        told.kind = RECEIVE_OTHER_GROUP;
    } else {
        told.kind = settle(state);
    }
    return told;
}

/* Goes on to the next line. */
static void next_line(struct receive_state *state)
{
    state->length = 0U;
    state->skipping = false;
    state->place++;
}

/* Takes one byte. */
static struct received take_byte(struct receive_state *state, uint8_t byte)
{
    struct received told = {RECEIVE_MORE, 0U, state->place, state->held_place};
    const bool ends = (byte == LINE_END);

    if (state->skipping) {
        /* it was told that this line is too long */
    } else if (state->length == ROOM) {
        told.kind = RECEIVE_TOO_LONG;
        state->skipping = true;
    } else {
        state->line[state->length] = byte;
        state->length++;
        if (ends) {
            told = judge(state);
        }
    }
    if (ends) {
        next_line(state);
    }
    return told;
}

struct received receive_bytes(struct receive_state *state, const uint8_t *bytes, size_t length, size_t *taken)
{
    struct received told = {RECEIVE_MORE, 0U, state->place, state->held_place};
    size_t at = 0U;

    while ((at < length) && (told.kind == RECEIVE_MORE)) {
        told = take_byte(state, bytes[at]);
        at++;
    }
    *taken = at;
    return told;
}

struct received receive_end(struct receive_state *state)
{
    struct received told = {RECEIVE_MORE, 0U, state->place, state->held_place};

    if ((state->length != 0U) && !state->skipping) {
        told = judge(state);
    }
    if (state->length != 0U) {
        next_line(state);
    }
    return told;
}

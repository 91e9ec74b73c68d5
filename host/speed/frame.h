/* frame.h: the fields of a line as numbers, and what the rules say of them; for plain.c and table.c, which read digits each in its way. */
#ifndef FRAME_H
#define FRAME_H

#include <stdbool.h>
#include <stddef.h>
#include <stdint.h>

/* The kinds that have more fields than a caller and a callee. */
#define SETUP_REQUEST ((uint32_t)1U)
#define ACCEPT ((uint32_t)3U)
#define REJECT ((uint32_t)4U)
#define ANNOUNCEMENT ((uint32_t)8U)
#define GROUP_ACCEPT ((uint32_t)9U)

/* The fields of all kinds; only those of its kind are set. */
struct frame {
    uint32_t kind;
    uint32_t identifier;
    uint32_t caller;
    uint32_t callee;
    uint32_t commencement;
    uint32_t type;
    uint32_t media;
    uint32_t pck_id;
    uint32_t reason;
    uint32_t group;
    uint32_t refresh;
    uint32_t originator;
    uint32_t start;
    uint32_t last_change;
    uint32_t last_changer;
    uint32_t confirm;
    uint32_t sender;
};

/* Gives the number that so many digits stand for. */
typedef uint32_t (*number_of)(const uint8_t *digits, size_t count);

/* How many digits a line of a kind has. */
static inline size_t frame_digits(uint32_t kind)
{
    size_t digits;

    switch (kind) {
    case SETUP_REQUEST:
        digits = 42U;
        break;
    case ACCEPT:
        digits = 30U;
        break;
    case REJECT:
    case GROUP_ACCEPT:
        digits = 24U;
        break;
    case ANNOUNCEMENT:
        digits = 62U;
        break;
    default:
        digits = 22U;
        break;
    }
    return digits;
}

/* Reads the fields of a group call. */
static inline void frame_cut_group(struct frame *frame, const uint8_t *line, number_of number)
{
    frame->group = number(&line[6], 8U);
    frame->type = number(&line[14], 2U);
    frame->refresh = number(&line[16], 4U);
    frame->media = number(&line[20], 8U);
    frame->originator = number(&line[28], 8U);
    frame->start = number(&line[36], 8U);
    frame->last_change = number(&line[44], 8U);
    frame->last_changer = number(&line[52], 8U);
    frame->confirm = number(&line[60], 2U);
}

/* Reads the fields of a private call. */
static inline void frame_cut_private(struct frame *frame, const uint8_t *line, number_of number)
{
    frame->caller = number(&line[6], 8U);
    frame->callee = number(&line[14], 8U);
    if (frame->kind == SETUP_REQUEST) {
        frame->commencement = number(&line[22], 2U);
        frame->type = number(&line[24], 2U);
        frame->media = number(&line[26], 8U);
        frame->pck_id = number(&line[34], 8U);
    } else if (frame->kind == ACCEPT) {
        frame->media = number(&line[22], 8U);
    } else if (frame->kind == REJECT) {
        frame->reason = number(&line[22], 2U);
    } else {
        /* there is nothing else in it */
    }
}

/* Reads all fields of a kind from as many digits as it has. */
static inline void frame_cut(struct frame *frame, const uint8_t *line, number_of number)
{
    frame->identifier = number(&line[2], 4U);
    if (frame->kind == ANNOUNCEMENT) {
        frame_cut_group(frame, line, number);
    } else if (frame->kind == GROUP_ACCEPT) {
        frame->sender = number(&line[6], 8U);
        frame->type = number(&line[14], 2U);
        frame->group = number(&line[16], 8U);
    } else {
        frame_cut_private(frame, line, number);
    }
}

/* Whether a type is one of a group call: basic, emergency or imminent peril. */
static inline bool frame_group_type(uint32_t type)
{
    return (type >= 1U) && (type <= 3U);
}

/* Whether a PCK-ID says that there is no security, or has 0001 in its top four bits. */
static inline bool frame_pck_id(uint32_t pck_id)
{
    return (pck_id == 0U) || ((pck_id >> 28) == 1U);
}

/* Whether the fields of a private call are in range. */
static inline bool frame_good_private(const struct frame *frame)
{
    bool good = (frame->caller != 0U) && (frame->callee != 0U);

    if (frame->kind == SETUP_REQUEST) {
        good = good && (frame->commencement <= 1U) && (frame->type == 4U) && (frame->media != 0U) &&
               frame_pck_id(frame->pck_id);
    } else if (frame->kind == ACCEPT) {
        good = good && (frame->media != 0U);
    } else if (frame->kind == REJECT) {
        good = good && (frame->reason <= 4U);
    } else {
        /* there is nothing else in it */
    }
    return good;
}

/* Whether every field is in range. */
static inline bool frame_good(const struct frame *frame)
{
    bool good = (frame->identifier != 0U);

    if (frame->kind == ANNOUNCEMENT) {
        good = good && (frame->group != 0U) && frame_group_type(frame->type) && (frame->refresh != 0U) &&
               (frame->media != 0U) && (frame->originator != 0U) && (frame->last_changer != 0U) && (frame->confirm <= 1U);
    } else if (frame->kind == GROUP_ACCEPT) {
        good = good && (frame->sender != 0U) && frame_group_type(frame->type) && (frame->group != 0U);
    } else {
        good = good && frame_good_private(frame);
    }
    return good;
}

/* The place of a group type among the three, 0 the best: emergency, imminent peril, basic. */
static inline uint32_t frame_rank(uint32_t type)
{
    return (type == 1U) ? 2U : (type - 2U);
}

/* Which of two readable frames is the better call: 1, 2, or 0 where they are not two calls of one group. */
static inline uint32_t frame_choice(const struct frame *first, const struct frame *second)
{
    uint32_t chosen = 0U;
    bool better;

    if ((first->kind == ANNOUNCEMENT) && (second->kind == ANNOUNCEMENT) && (first->group == second->group) &&
        (first->identifier != second->identifier)) {
        if (frame_rank(first->type) != frame_rank(second->type)) {
            better = (frame_rank(first->type) < frame_rank(second->type));
        } else if (first->start != second->start) {
            better = (first->start < second->start);
        } else {
            better = (first->identifier < second->identifier);
        }
        chosen = better ? 1U : 2U;
    }
    return chosen;
}

#endif /* FRAME_H */

/* lent.h: the memory that the panel shell lends to the entries, between two guards that tell a write ahead of it or behind. */
#ifndef LENT_H
#define LENT_H

#include <stdbool.h>
#include <stddef.h>
#include <stdint.h>

/* How many bytes are read at most. */
#define LENT_MOST ((size_t)65536U)

/* How many bytes a guard has. */
#define LENT_GUARD ((size_t)64U)

/* What every byte of a guard holds. */
#define LENT_MARK ((uint8_t)0xA5U)

/* The lent bytes, with a guard ahead and one behind. */
struct lent {
    uint8_t ahead[LENT_GUARD];
    uint8_t bytes[LENT_MOST];
    uint8_t behind[LENT_GUARD];
    size_t length;
};

/* Sets both guards, with no bytes between them yet. */
void lent_prepare(struct lent *lent);

/* Whether both guards are as they were set. */
bool lent_intact(const struct lent *lent);

#endif /* LENT_H */

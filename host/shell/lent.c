/* The memory that the panel shell lends, and its guards. */
#include "lent.h"

void lent_prepare(struct lent *lent)
{
    size_t at;

    for (at = 0U; at < LENT_GUARD; at++) {
        lent->ahead[at] = LENT_MARK;
        lent->behind[at] = LENT_MARK;
    }
    lent->length = 0U;
}

bool lent_intact(const struct lent *lent)
{
    bool intact = true;
    size_t at;

    for (at = 0U; at < LENT_GUARD; at++) {
        if ((lent->ahead[at] != LENT_MARK) || (lent->behind[at] != LENT_MARK)) {
            intact = false;
        }
    }
    return intact;
}

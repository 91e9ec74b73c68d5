/*
 * The entries of panel.h, called from C on lines that are known: the answers, and that nothing beside a lent line is
 * touched. Each line is lent twice: between two guards, and in a block of the heap of just its length, so that a memory
 * checker sees a byte read too many. Prints `ok NAME` or `FAILED NAME: what is wrong` for each case.
 */
#include <stdbool.h>
#include <stdint.h>
#include <stdio.h>
#include <stdlib.h>
#include <string.h>

#include "panel.h"

/* How many bytes a guard has, and what each of them holds. */
#define GUARD ((size_t)32U)
#define MARK (0x5A)

/* A line as a case writes it: text with its length, since a line may hold any byte. */
#define LINE(text) {(text), sizeof(text) - 1U}

/* An announcement of group 3 from its identifier, type and start, in digits; refresh, media and users are always the same. */
#define ANNOUNCED(identifier, type, start) \
    LINE("08" identifier "00000003" type "001e0000000500000007" start start "0000000700\n")

/* The bytes of a line. */
struct line {
    const char *text;
    size_t length;
};

/* One case: two lines, and what the three entries must answer; the line check is asked about the first line. */
struct one_case {
    const char *name;
    struct line first;
    struct line second;
    uint32_t number;
    uint32_t chosen;
    uint32_t choose_number;
};

/* What the three entries answered. */
struct answers {
    uint32_t number;
    uint32_t chosen;
    uint32_t choose_number;
};

/* The cases. */
static const struct one_case cases[] = {
    {"a ringing line is readable, and no announcement", LINE("0212340000000700000009\n"),
     ANNOUNCED("0010", "02", "000003e8"), PANEL_READABLE, PANEL_NEITHER, PANEL_NO_CHOICE},
    {"a capital digit is 2", LINE("021234000000070000000A\n"),
     ANNOUNCED("0010", "02", "000003e8"), PANEL_NO_DIGIT, PANEL_NEITHER, PANEL_NO_DIGIT},
    {"a line end alone is 3", LINE("\n"),
     ANNOUNCED("0010", "02", "000003e8"), PANEL_NO_KIND, PANEL_NEITHER, PANEL_NO_KIND},
    {"one digit is 3", LINE("0\n"),
     ANNOUNCED("0010", "02", "000003e8"), PANEL_NO_KIND, PANEL_NEITHER, PANEL_NO_KIND},
    {"kind 0a is 3", LINE("0a12340000000700000009\n"),
     ANNOUNCED("0010", "02", "000003e8"), PANEL_NO_KIND, PANEL_NEITHER, PANEL_NO_KIND},
    {"a line of no bytes is 1", LINE(""),
     ANNOUNCED("0010", "02", "000003e8"), PANEL_UNENDED, PANEL_NEITHER, PANEL_UNENDED},
    {"a line without its end is 1", LINE("0212340000000700000009"),
     ANNOUNCED("0010", "02", "000003e8"), PANEL_UNENDED, PANEL_NEITHER, PANEL_UNENDED},
    {"a line with its terminating zero is 1", LINE("0212340000000700000009\n\0"),
     ANNOUNCED("0010", "02", "000003e8"), PANEL_UNENDED, PANEL_NEITHER, PANEL_UNENDED},
    {"a zero byte ahead of the line end is 2", LINE("021234000000070000000\0\n"),
     ANNOUNCED("0010", "02", "000003e8"), PANEL_NO_DIGIT, PANEL_NEITHER, PANEL_NO_DIGIT},
    {"a CR ahead of the line end is 2", LINE("0212340000000700000009\r\n"),
     ANNOUNCED("0010", "02", "000003e8"), PANEL_NO_DIGIT, PANEL_NEITHER, PANEL_NO_DIGIT},
    {"two lines in one are 2", LINE("0212340000000700000009\n0212340000000700000009\n"),
     ANNOUNCED("0010", "02", "000003e8"), PANEL_NO_DIGIT, PANEL_NEITHER, PANEL_NO_DIGIT},
    {"a digit too many is 4", LINE("02123400000007000000090\n"),
     ANNOUNCED("0010", "02", "000003e8"), PANEL_WRONG_COUNT, PANEL_NEITHER, PANEL_WRONG_COUNT},
    {"a digit too few is 4", LINE("021234000000070000000\n"),
     ANNOUNCED("0010", "02", "000003e8"), PANEL_WRONG_COUNT, PANEL_NEITHER, PANEL_WRONG_COUNT},
    {"an identifier 0 is 5", LINE("0200000000000700000009\n"),
     ANNOUNCED("0010", "02", "000003e8"), PANEL_OUT_OF_RANGE, PANEL_NEITHER, PANEL_OUT_OF_RANGE},
    {"a PCK-ID of 10000000 passes", LINE("011234000000070000000900040000000510000000\n"),
     ANNOUNCED("0010", "02", "000003e8"), PANEL_READABLE, PANEL_NEITHER, PANEL_NO_CHOICE},
    {"a PCK-ID of 1fffffff passes", LINE("01123400000007000000090004000000051fffffff\n"),
     ANNOUNCED("0010", "02", "000003e8"), PANEL_READABLE, PANEL_NEITHER, PANEL_NO_CHOICE},
    {"a PCK-ID of 0fffffff is 5", LINE("01123400000007000000090004000000050fffffff\n"),
     ANNOUNCED("0010", "02", "000003e8"), PANEL_OUT_OF_RANGE, PANEL_NEITHER, PANEL_OUT_OF_RANGE},
    {"a PCK-ID of 20000000 is 5", LINE("011234000000070000000900040000000520000000\n"),
     ANNOUNCED("0010", "02", "000003e8"), PANEL_OUT_OF_RANGE, PANEL_NEITHER, PANEL_OUT_OF_RANGE},
    {"a PCK-ID of 30000000 is 5", LINE("011234000000070000000900040000000530000000\n"),
     ANNOUNCED("0010", "02", "000003e8"), PANEL_OUT_OF_RANGE, PANEL_NEITHER, PANEL_OUT_OF_RANGE},
    {"of two refused lines the first tells its number", LINE("0a\n"),
     LINE("zz\n"), PANEL_NO_KIND, PANEL_NEITHER, PANEL_NO_KIND},
    {"a second line without its end is 1, ahead of 10", LINE("0212340000000700000009\n"),
     LINE("08"), PANEL_READABLE, PANEL_NEITHER, PANEL_UNENDED},
    {"a second line that is no digits is 2, ahead of 10", LINE("0212340000000700000009\n"),
     LINE("zz\n"), PANEL_READABLE, PANEL_NEITHER, PANEL_NO_DIGIT},
    {"a second line of no kind is 3, ahead of 10", LINE("0212340000000700000009\n"),
     LINE("00\n"), PANEL_READABLE, PANEL_NEITHER, PANEL_NO_KIND},
    {"a second line too short is 4, ahead of 10", LINE("0212340000000700000009\n"),
     LINE("08\n"), PANEL_READABLE, PANEL_NEITHER, PANEL_WRONG_COUNT},
    {"a second line out of range is 5, ahead of 10", LINE("0212340000000700000009\n"),
     ANNOUNCED("0010", "04", "000003e8"), PANEL_READABLE, PANEL_NEITHER, PANEL_OUT_OF_RANGE},
    {"at equal rank and start identifier 16 wins over 17, named first", ANNOUNCED("0010", "01", "000003e8"),
     ANNOUNCED("0011", "01", "000003e8"), PANEL_READABLE, PANEL_FIRST, PANEL_CHOSEN},
    {"at equal rank and start identifier 16 wins over 17, named second", ANNOUNCED("0011", "01", "000003e8"),
     ANNOUNCED("0010", "01", "000003e8"), PANEL_READABLE, PANEL_SECOND, PANEL_CHOSEN},
    {"emergency, 2, wins over imminent peril, 3", ANNOUNCED("0011", "03", "000003e8"),
     ANNOUNCED("0012", "02", "000003e8"), PANEL_READABLE, PANEL_SECOND, PANEL_CHOSEN},
    {"imminent peril, 3, wins over basic, 1", ANNOUNCED("0012", "03", "000003e9"),
     ANNOUNCED("0011", "01", "000003e8"), PANEL_READABLE, PANEL_FIRST, PANEL_CHOSEN},
    {"an emergency that started later wins over a basic call", ANNOUNCED("0010", "01", "000003e8"),
     ANNOUNCED("0011", "02", "ffffffff"), PANEL_READABLE, PANEL_SECOND, PANEL_CHOSEN},
    {"at equal rank the earlier start wins, and starts do not wrap", ANNOUNCED("0010", "02", "80000000"),
     ANNOUNCED("0011", "02", "7fffffff"), PANEL_READABLE, PANEL_SECOND, PANEL_CHOSEN},
    {"the same identifier is 10", ANNOUNCED("0010", "01", "000003e8"),
     ANNOUNCED("0010", "02", "000003e8"), PANEL_READABLE, PANEL_NEITHER, PANEL_NO_CHOICE},
    {"another group is 10", ANNOUNCED("0010", "01", "000003e8"),
     LINE("0800110000000402001e0000000500000007000003e8000003e80000000700\n"), PANEL_READABLE, PANEL_NEITHER, PANEL_NO_CHOICE},
};

/* Asks the three entries about two lines. */
static struct answers ask(const uint8_t *first, size_t first_len, const uint8_t *second, size_t second_len)
{
    struct answers answers;

    answers.number = panel_line_check(first, first_len);
    answers.chosen = panel_choose(first, first_len, second, second_len);
    answers.choose_number = panel_choose_number(first, first_len, second, second_len);
    return answers;
}

/* Takes so many bytes of the heap, or ends the program. */
static uint8_t *taken(size_t length)
{
    uint8_t *const block = malloc(length);

    if ((block == NULL) && (length != 0U)) {
        (void)printf("FAILED memory: there is none\n");
        exit(1);
    }
    return block;
}

/* A copy of a line with a guard ahead and one behind. */
static uint8_t *guarded(struct line line)
{
    uint8_t *const block = taken(line.length + (2U * GUARD));

    (void)memset(block, MARK, line.length + (2U * GUARD));
    (void)memcpy(&block[GUARD], line.text, line.length);
    return block;
}

/* Whether a guarded copy is as it was made, its guards too. */
static bool as_made(const uint8_t *block, struct line line)
{
    uint8_t *const fresh = guarded(line);
    const bool same = (memcmp(block, fresh, line.length + (2U * GUARD)) == 0);

    free(fresh);
    return same;
}

/* The answers about two lines between guards; what is beside them must stay, which the last word tells. */
static struct answers ask_guarded(struct line first, struct line second, bool *kept)
{
    uint8_t *const one = guarded(first);
    uint8_t *const other = guarded(second);
    const struct answers answers = ask(&one[GUARD], first.length, &other[GUARD], second.length);

    *kept = as_made(one, first) && as_made(other, second);
    free(one);
    free(other);
    return answers;
}

/* The answers about two lines in blocks of just their length. */
static struct answers ask_exact(struct line first, struct line second)
{
    uint8_t *const one = taken(first.length);
    uint8_t *const other = taken(second.length);
    struct answers answers;

    if (first.length != 0U) {
        (void)memcpy(one, first.text, first.length);
    }
    if (second.length != 0U) {
        (void)memcpy(other, second.text, second.length);
    }
    answers = ask(one, first.length, other, second.length);
    free(one);
    free(other);
    return answers;
}

/* Tells of one question whether its answers are the wanted ones. */
static bool tell(const char *name, const char *where, const struct one_case *wanted, struct answers got)
{
    const bool good =
        (got.number == wanted->number) && (got.chosen == wanted->chosen) && (got.choose_number == wanted->choose_number);

    if (!good) {
        (void)printf("FAILED %s: %s the answers were %lu %lu %lu\n", name, where, (unsigned long)got.number,
                     (unsigned long)got.chosen, (unsigned long)got.choose_number);
    }
    return good;
}

/* Tries one case, and gives 0 where it passes. */
static int try_case(const struct one_case *one)
{
    bool kept = false;
    const bool between = tell(one->name, "between guards", one, ask_guarded(one->first, one->second, &kept));
    const bool exact = tell(one->name, "in blocks of the heap", one, ask_exact(one->first, one->second));

    if (!kept) {
        (void)printf("FAILED %s: what was lent, or what is beside it, was changed\n", one->name);
    }
    if (between && exact && kept) {
        (void)printf("ok %s\n", one->name);
        return 0;
    }
    return 1;
}

/* Tells of one question about given pointers whether its answers are the wanted ones; gives 0 where they are. */
static int try_pointers(const struct one_case *wanted, struct answers got)
{
    const bool good = tell(wanted->name, "of these pointers", wanted, got);

    if (good) {
        (void)printf("ok %s\n", wanted->name);
    }
    return good ? 0 : 1;
}

/* Pointers that no copy of a line has: null with length 0, and two lines in the same bytes. */
static int try_odd_pointers(void)
{
    static const struct line given = ANNOUNCED("0010", "01", "000003e8");
    static const struct one_case both_null = {"two null pointers with length 0 are two empty lines", LINE(""), LINE(""),
                                              PANEL_UNENDED, PANEL_NEITHER, PANEL_UNENDED};
    static const struct one_case first_null = {"a null pointer with length 0 is an empty first line", LINE(""), LINE(""),
                                               PANEL_UNENDED, PANEL_NEITHER, PANEL_UNENDED};
    static const struct one_case second_null = {"a null pointer with length 0 is an empty second line", LINE(""), LINE(""),
                                                PANEL_READABLE, PANEL_NEITHER, PANEL_UNENDED};
    static const struct one_case same = {"a line and itself have the same identifier", LINE(""), LINE(""),
                                         PANEL_READABLE, PANEL_NEITHER, PANEL_NO_CHOICE};
    static const struct one_case overlapping = {"two lines may overlap", LINE(""), LINE(""), PANEL_READABLE, PANEL_NEITHER,
                                                PANEL_NO_KIND};
    uint8_t *const bytes = guarded(given);
    const uint8_t *const line = &bytes[GUARD];
    int failed = 0;

    failed += try_pointers(&both_null, ask(NULL, 0U, NULL, 0U));
    failed += try_pointers(&first_null, ask(NULL, 0U, line, given.length));
    failed += try_pointers(&second_null, ask(line, given.length, NULL, 0U));
    failed += try_pointers(&same, ask(line, given.length, line, given.length));
    failed += try_pointers(&overlapping, ask(line, given.length, &line[1], given.length - 1U));
    free(bytes);
    return failed;
}

/* The constants of panel.h have the values that its text and the table of numbers give them. */
static int try_constants(void)
{
    const bool good = (PANEL_READABLE == 0U) && (PANEL_UNENDED == 1U) && (PANEL_NO_DIGIT == 2U) &&
                      (PANEL_NO_KIND == 3U) && (PANEL_WRONG_COUNT == 4U) && (PANEL_OUT_OF_RANGE == 5U) &&
                      (PANEL_CHOSEN == 0U) && (PANEL_NO_CHOICE == 10U) && (PANEL_NEITHER == 0U) && (PANEL_FIRST == 1U) &&
                      (PANEL_SECOND == 2U);

    (void)printf("%s\n", good ? "ok the constants of panel.h have their values"
                              : "FAILED the constants of panel.h have their values: one has another");
    return good ? 0 : 1;
}

/* The longest line of panel.h is as long as an announcement, and that one is readable. */
static int try_longest(void)
{
    static const struct one_case longest = {"the longest line is as long as panel.h says, and readable",
                                            ANNOUNCED("0010", "01", "000003e8"), ANNOUNCED("0010", "01", "000003e8"),
                                            PANEL_READABLE, PANEL_NEITHER, PANEL_NO_CHOICE};

    if (longest.first.length != PANEL_LONGEST_LINE) {
        (void)printf("FAILED %s: it has %lu bytes\n", longest.name, (unsigned long)longest.first.length);
        return 1;
    }
    return try_case(&longest);
}

/* Tries everything. */
int main(void)
{
    int failed = try_constants() + try_odd_pointers() + try_longest();
    size_t at;

    for (at = 0U; at < (sizeof(cases) / sizeof(cases[0])); at++) {
        failed += try_case(&cases[at]);
    }
    return (failed == 0) ? 0 : 1;
}

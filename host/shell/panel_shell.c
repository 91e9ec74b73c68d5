/*
 * panel-shell [LOG]: what a cab's panel shows of the lines that it hears.
 *
 * Reads the file LOG, or standard input where none is named or LOG is `-`: at most its first 65,536 bytes. Says of each
 * line in words what it is, holds on to the best announcement of the first group that it hears, and says which of two
 * calls wins. What it knows of lines and calls it asks the proved entries; of itself it knows only that 0A ends a line,
 * and that an announcement begins with the digits 08.
 *
 * Ends with 0; with 1 where its answer could not be written, 2 for bad usage or a log that cannot be read, 3 where memory
 * beside the buffer was changed.
 */
#include <stdbool.h>
#include <stddef.h>
#include <stdint.h>
#include <stdio.h>
#include <string.h>

#include "lent.h"
#include "panel.h"

/* The byte that ends a line. */
#define LINE_END ((uint8_t)0x0AU)

/* The ends of the program: done, something written could not be, bad usage or input, memory overrun. */
#define DONE (0)
#define UNWRITTEN (1)
#define UNUSABLE (2)
#define OVERRUN (3)

/* One line: its bytes, how many, and which line of the log it is, from 1. */
struct line {
    const uint8_t *bytes;
    size_t length;
    unsigned long place;
};

/* The log, as it was read. */
static struct lent heard;

/* A number in words. */
static const char *in_words(uint32_t number)
{
    const char *words;

    switch (number) {
    case PANEL_UNENDED:
        words = "it does not end in a line end";
        break;
    case PANEL_NO_DIGIT:
        words = "something other than the digits 0-9 and a-f stands in it";
        break;
    case PANEL_NO_KIND:
        words = "it names none of the kinds 01 to 09";
        break;
    case PANEL_WRONG_COUNT:
        words = "it is too short or too long for its kind";
        break;
    case PANEL_OUT_OF_RANGE:
        words = "a field has a value that it may not have";
        break;
    case PANEL_NO_CHOICE:
        words = "another group, or the same identifier";
        break;
    default:
        words = "a number that no table has";
        break;
    }
    return words;
}

/* Whether a readable line is an announcement. */
static bool is_announcement(const struct line *line)
{
    return (line->length > 1U) && (line->bytes[0] == (uint8_t)'0') && (line->bytes[1] == (uint8_t)'8');
}

/* Says which of the call held and the call of a new announcement wins, and gives the winner. */
static struct line settle(struct line held, struct line heard_now)
{
    const uint32_t chosen = panel_choose(held.bytes, held.length, heard_now.bytes, heard_now.length);
    struct line winner = held;

    if (chosen == PANEL_FIRST) {
        (void)printf("announcement: the call of line %lu wins over it\n", held.place);
    } else if (chosen == PANEL_SECOND) {
        winner = heard_now;
        (void)printf("announcement: its call wins over that of line %lu\n", held.place);
    } else {
        const uint32_t number = panel_choose_number(held.bytes, held.length, heard_now.bytes, heard_now.length);

        (void)printf("announcement: no choice with line %lu (%lu): %s\n", held.place, (unsigned long)number,
                     in_words(number));
    }
    return winner;
}

/* Says what a line is, and gives the announcement to hold from now on; a length of 0 is none yet. */
static struct line hear(struct line held, struct line heard_now)
{
    const uint32_t number = panel_line_check(heard_now.bytes, heard_now.length);
    struct line holds = held;

    (void)printf("%lu: ", heard_now.place);
    if (number != PANEL_READABLE) {
        (void)printf("refused (%lu): %s\n", (unsigned long)number, in_words(number));
    } else if (!is_announcement(&heard_now)) {
        (void)printf("readable, and no announcement\n");
    } else if (held.length == 0U) {
        (void)printf("announcement: the first, its call is held\n");
        holds = heard_now;
    } else {
        holds = settle(held, heard_now);
    }
    return holds;
}

/* The line that begins at a place of the log: up to its line end, or to the end of the log. */
static struct line line_at(size_t at, unsigned long place)
{
    struct line line = {&heard.bytes[at], 0U, place};
    bool ended = false;

    while (!ended && ((at + line.length) < heard.length)) {
        ended = (heard.bytes[at + line.length] == LINE_END);
        line.length++;
    }
    return line;
}

/* Says at the end which call the panel is left with. */
static void tell_held(struct line held)
{
    if (held.length == 0U) {
        (void)printf("no call\n");
    } else {
        (void)printf("the call of line %lu: ", held.place);
        (void)fwrite(held.bytes, 1U, held.length, stdout);
    }
}

/* Takes the log line by line. */
static int play(void)
{
    struct line held = {NULL, 0U, 0UL};
    size_t at = 0U;
    unsigned long place = 1UL;
    int end = DONE;

    while ((at < heard.length) && (end == DONE)) {
        const struct line next = line_at(at, place);

        held = hear(held, next);
        if (!lent_intact(&heard)) {
            (void)fprintf(stderr, "panel-shell: memory beside the buffer was changed at line %lu\n", place);
            end = OVERRUN;
        }
        at += next.length;
        place++;
    }
    if (end == DONE) {
        tell_held(held);
    }
    return end;
}

/* Reads the log into the lent bytes, and says so where there is more of it or it cannot be read. */
static int take_in(FILE *source, const char *name)
{
    int end = DONE;
    bool more;

    lent_prepare(&heard);
    heard.length = fread(heard.bytes, 1U, LENT_MOST, source);
    more = (heard.length == LENT_MOST) && (fgetc(source) != EOF);
    if (ferror(source) != 0) {
        (void)fprintf(stderr, "panel-shell: %s: cannot be read\n", name);
        end = UNUSABLE;
    } else if (more) {
        (void)fprintf(stderr, "panel-shell: %s: only its first %lu bytes are heard\n", name, (unsigned long)LENT_MOST);
    } else {
        /* all of it was read */
    }
    return end;
}

/* Reads the log that is named, and plays it. */
static int play_named(const char *name)
{
    const bool standard = (strcmp(name, "-") == 0);
    FILE *const source = standard ? stdin : fopen(name, "rb");
    int end = UNUSABLE;

    if (source == NULL) {
        (void)fprintf(stderr, "panel-shell: %s: cannot be opened\n", name);
    } else {
        end = take_in(source, standard ? "standard input" : name);
        if (!standard) {
            (void)fclose(source);
        }
        if (end == DONE) {
            end = play();
        }
    }
    return end;
}

/* Where all went well so far, says whether what was printed has also been written. */
static int written(int end)
{
    int now = end;

    if ((end == DONE) && ((fflush(stdout) != 0) || (ferror(stdout) != 0))) {
        (void)fprintf(stderr, "panel-shell: the answer could not be written\n");
        now = UNWRITTEN;
    }
    return now;
}

/* Says how to call the program or its version, plays the log that is named, or refuses. */
int main(int argc, char *argv[])
{
    int end = DONE;

    if (argc > 2) {
        (void)fprintf(stderr, "panel-shell: usage: panel-shell [LOG]\n");
        end = UNUSABLE;
    } else if ((argc == 2) && ((strcmp(argv[1], "--help") == 0) || (strcmp(argv[1], "-h") == 0))) {
        (void)printf("panel-shell [LOG]: says what each line of a log is, and which announced call wins.\n"
                     "Reads the file LOG, or standard input where none is named or LOG is -: at most 65,536 bytes.\n"
                     "Ends with 0; 1: not written, 2: bad usage or input, 3: memory beside its buffer was changed.\n");
    } else if ((argc == 2) && (strcmp(argv[1], "--version") == 0)) {
        (void)printf("panel-shell %lu.%lu.%lu\n", (unsigned long)PANEL_VERSION_MAJOR, (unsigned long)PANEL_VERSION_MINOR,
                     (unsigned long)PANEL_VERSION_PATCH);
    } else {
        end = play_named((argc == 2) ? argv[1] : "-");
    }
    return written(end);
}

/*
 * panel-receive [GROUP]: says of each line that comes in on standard input what it is, as soon as it ends, and which call a
 * panel of the group GROUP holds, or of the first group that it hears; shows receive.h at work.
 *
 * Ends with 0 at the end of input; with 1 where its answer could not be written, 2 for bad usage or input that cannot be
 * read: then nothing is said of what came of a line until there, since more of it may have been sent.
 */
#include <stdbool.h>
#include <stddef.h>
#include <stdint.h>
#include <stdio.h>
#include <string.h>
#include <unistd.h>

#include "receive.h"

/* How many bytes are read at a time, at most. */
#ifndef PIECE
#define PIECE (256)
#endif

/* The ends of the program: done, something written could not be, bad usage or input. */
#define DONE (0)
#define UNWRITTEN (1)
#define UNUSABLE (2)

/* What is known so far, and the bytes read last. */
static struct receive_state state;
static uint8_t piece[PIECE];

/* Says what became of a line. */
static void tell(struct received told)
{
    (void)printf("%lu: ", (unsigned long)told.place);
    switch (told.kind) {
    case RECEIVE_TOO_LONG:
        (void)printf("too long for a line\n");
        break;
    case RECEIVE_REFUSED:
        (void)printf("refused (%lu)\n", (unsigned long)told.number);
        break;
    case RECEIVE_OTHER_GROUP:
        (void)printf("announcement: of another group\n");
        break;
    case RECEIVE_FIRST:
        (void)printf("announcement: the first, its call is held\n");
        break;
    case RECEIVE_SAME:
        (void)printf("announcement: the call of line %lu again\n", (unsigned long)told.over);
        break;
    case RECEIVE_CHANGED:
        (void)printf("announcement: the call of line %lu with a later change\n", (unsigned long)told.over);
        break;
    case RECEIVE_BETTER:
        (void)printf("announcement: its call wins over that of line %lu\n", (unsigned long)told.over);
        break;
    case RECEIVE_WORSE:
        (void)printf("announcement: the call of line %lu wins over it\n", (unsigned long)told.over);
        break;
    case RECEIVE_OTHER:
    case RECEIVE_MORE:
    default:
        (void)printf("readable, and no announcement\n");
        break;
    }
    (void)fflush(stdout);
}

/* Takes a piece of the input, and tells of the lines that end in it. */
static void take_piece(size_t length)
{
    size_t at = 0U;

    while (at < length) {
        size_t taken = 0U;
        const struct received told = receive_bytes(&state, &piece[at], length - at, &taken);

        if (told.kind != RECEIVE_MORE) {
            tell(told);
        }
        at += taken;
    }
}

/* Says at the end of input what is left of a line, and which call the panel is left with. */
static void tell_end(void)
{
    const struct received told = receive_end(&state);

    if (told.kind != RECEIVE_MORE) {
        tell(told);
    }
    if (state.held_length == 0U) {
        (void)printf("no call\n");
    } else {
        (void)printf("the call of line %lu: ", (unsigned long)state.held_place);
        (void)fwrite(state.held, 1U, state.held_length, stdout);
    }
}

/* Takes standard input to its end, piece by piece, as it comes, or until nothing can be written any more. No signal is handled
 * here, so none cuts a read short. */
static int take_all(void)
{
    ssize_t got = 1;
    int end = DONE;

    while ((got != 0) && (ferror(stdout) == 0)) {
        got = read(STDIN_FILENO, piece, sizeof(piece));
        if (got > 0) {
            take_piece((size_t)got);
        } else if (got < 0) {
            (void)fprintf(stderr, "panel-receive: standard input: cannot be read\n");
            end = UNUSABLE;
            got = 0;
        } else {
            /* the end of input */
        }
    }
    if (end == DONE) {
        tell_end();
    }
    return end;
}

/* Where all went well so far, says whether what was printed has also been written. */
static int written(int end)
{
    int now = end;

    if ((end == DONE) && ((fflush(stdout) != 0) || (ferror(stdout) != 0))) {
        (void)fprintf(stderr, "panel-receive: the answer could not be written\n");
        now = UNWRITTEN;
    }
    return now;
}

/* Whether a word is a group: eight digits, not all of them 0. */
static bool is_group(const char *word)
{
    return (strlen(word) == RECEIVE_GROUP) && (strspn(word, "0123456789abcdef") == RECEIVE_GROUP) &&
           (strspn(word, "0") != RECEIVE_GROUP);
}

/* Says how to call the program or its version, takes the input, or refuses. */
int main(int argc, char *argv[])
{
    int end = DONE;

    receive_start(&state);
    if ((argc == 2) && ((strcmp(argv[1], "--help") == 0) || (strcmp(argv[1], "-h") == 0))) {
        (void)printf("panel-receive [GROUP]: says of each line of standard input what it is, and which call is held.\n"
                     "GROUP is the own group, in eight digits 0-9 and a-f, not 0; else it is that of the first announcement.\n"
                     "Ends with 0 at the end of input; 1: not written, 2: bad usage or input.\n");
    } else if ((argc == 2) && (strcmp(argv[1], "--version") == 0)) {
        (void)printf("panel-receive %lu.%lu.%lu\n", (unsigned long)PANEL_VERSION_MAJOR,
                     (unsigned long)PANEL_VERSION_MINOR, (unsigned long)PANEL_VERSION_PATCH);
    } else if ((argc > 2) || ((argc == 2) && !is_group(argv[1]))) {
        (void)fprintf(stderr, "panel-receive: usage: panel-receive [GROUP], a group of eight digits 0-9 and a-f, not 0\n");
        end = UNUSABLE;
    } else {
        if (argc == 2) {
            receive_start_in(&state, (const uint8_t *)argv[1]);
        }
        end = take_all();
    }
    return written(end);
}

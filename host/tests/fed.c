/*
 * fed HOW COMMAND [WORDS...]: runs a command on a standard input that a shell cannot make, with what comes in on its own: HOW is `pipe`, a pipe
 * that does not wait for more and stays open, or `terminal`, at which those bytes are typed, and then the end of the input once. Ends as the
 * command does, or with 125 where it cannot be run, or has not ended after ten seconds.
 */
#define _XOPEN_SOURCE 600
#include <fcntl.h>
#include <signal.h>
#include <stdbool.h>
#include <stdlib.h>
#include <string.h>
#include <sys/wait.h>
#include <unistd.h>

/* How many bytes are handed on at most, and what it ends with where it fails itself. */
#define MOST ((size_t)4000U)
#define UNABLE (125)

/* What a terminal takes for the end of its input, at the start of a line. */
#define END_TYPED "\004"

/* Both ends of what the command reads. */
struct ends {
    int read_from;
    int write_to;
};

/* A pipe that does not wait, or a terminal; ends the program where there is none. */
static struct ends made(bool terminal)
{
    struct ends ends = {-1, -1};
    int both[2] = {-1, -1};

    if (terminal) {
        ends.write_to = posix_openpt(O_RDWR | O_NOCTTY);
        if ((ends.write_to >= 0) && (grantpt(ends.write_to) == 0) && (unlockpt(ends.write_to) == 0)) {
            ends.read_from = open(ptsname(ends.write_to), O_RDWR | O_NOCTTY);
        }
    } else if ((pipe(both) == 0) && (fcntl(both[0], F_SETFL, O_NONBLOCK) == 0)) {
        ends.read_from = both[0];
        ends.write_to = both[1];
    } else {
        /* there is no pipe */
    }
    if (ends.read_from < 0) {
        _exit(UNABLE);
    }
    return ends;
}

/* Hands on what comes in, and types the end behind it at a terminal; whether that went well. */
static bool hand_on(int write_to, bool terminal)
{
    static char bytes[MOST];
    size_t length = 0U;
    ssize_t got = 1;

    while ((got > 0) && (length < MOST)) {
        got = read(STDIN_FILENO, &bytes[length], MOST - length);
        length += (got > 0) ? (size_t)got : 0U;
    }
    return (got == 0) && (write(write_to, bytes, length) == (ssize_t)length) &&
           (!terminal || (write(write_to, END_TYPED, strlen(END_TYPED)) == (ssize_t)strlen(END_TYPED)));
}

/* Runs the command, and ends as it does. */
int main(int argc, char *argv[])
{
    const bool terminal = (argc > 2) && (strcmp(argv[1], "terminal") == 0);
    struct ends ends;
    int ended = 0;
    pid_t child;

    if (argc < 3) {
        return UNABLE;
    }
    ends = made(terminal);
    if (!hand_on(ends.write_to, terminal)) {
        return UNABLE;
    }
    child = fork();
    if (child == 0) {
        (void)alarm(10U);
        (void)dup2(ends.read_from, STDIN_FILENO);
        (void)close(ends.write_to);
        (void)execvp(argv[2], &argv[2]);
        _exit(UNABLE);
    }
    return ((child > 0) && (waitpid(child, &ended, 0) == child) && WIFEXITED(ended)) ? WEXITSTATUS(ended) : UNABLE;
}

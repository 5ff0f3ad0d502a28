/* Times frames for bench/arrays/run: frames PROGRAM HEADER COUNT ROUNDS. It keeps one PROGRAM, which
   answers frames, and asks it ROUNDS times, once before that: a round is from the first byte that is
   written to the last that is read. COUNT is how many values the tensors have together. */

#include <signal.h>
#include <string.h>
#include <sys/wait.h>
#include <unistd.h>

#include "rounds.h"

enum { MOST_VALUES = 1048576, HEADER_ROOM = 256 };

static void stop(const char *why)
{
    perror(why);
    exit(2);
}

static void write_all(int file, const void *bytes, size_t count)
{
    for (const char *at = bytes; count;) {
        ssize_t some = write(file, at, count);
        if (some <= 0)
            stop("frames: write");
        at += some, count -= (size_t)some;
    }
}

static void read_all(int file, void *bytes, size_t count)
{
    for (char *at = bytes; count;) {
        ssize_t some = read(file, at, count);
        if (some <= 0)
            stop("frames: read");
        at += some, count -= (size_t)some;
    }
}

/* Starts the program, and gives the ends of its input and its output. */
static pid_t start(char *program, int *to, int *from)
{
    int in[2], out[2];
    if (pipe(in) || pipe(out))
        stop("frames: pipe");
    pid_t pid = fork();
    if (pid < 0)
        stop("frames: fork");
    if (!pid) {
        if (dup2(in[0], 0) < 0 || dup2(out[1], 1) < 0)
            _exit(2);
        close(in[0]), close(in[1]), close(out[0]), close(out[1]);
        execl(program, program, (char *)NULL);
        _exit(2);
    }
    close(in[0]), close(out[1]);
    *to = in[1], *from = out[0];
    return pid;
}

/* Asks once, and gives how many values the answer has. */
static uint64_t ask(int to, int from, const char *header, const int64_t *values, size_t count,
                    int64_t *out)
{
    char answer[HEADER_ROOM];
    uint64_t sizes[2] = {strlen(header), count};
    write_all(to, sizes, sizeof sizes);
    write_all(to, header, sizes[0]);
    write_all(to, values, 8 * count);
    read_all(from, sizes, sizeof sizes);
    if (sizes[0] > HEADER_ROOM || sizes[1] > MOST_VALUES)
        stop("frames: a longer answer than there may be");
    read_all(from, answer, sizes[0]);
    read_all(from, out, 8 * sizes[1]);
    return sizes[1];
}

int main(int count, char **words)
{
    if (count != 5)
        return 2;
    size_t places = strtoull(words[3], NULL, 10);
    int rounds = atoi(words[4]), to, from, status;
    int64_t *values = malloc(8 * places + 8), *out = malloc(8 * MOST_VALUES);
    double *times = malloc((size_t)rounds * sizeof *times);
    if (!values || !out || !times)
        return 2;
    fill(values, places);
    signal(SIGPIPE, SIG_IGN);
    pid_t pid = start(words[1], &to, &from);
    uint64_t result = 0;
    for (int round = -1; round < rounds; round++) {
        int64_t began = now();
        result = ask(to, from, words[2], values, places, out);
        if (round >= 0)
            times[round] = (double)(now() - began);
    }
    close(to);
    if (waitpid(pid, &status, 0) != pid || status)
        stop("frames: the program");
    report(times, rounds, out, (int64_t)result);
    return 0;
}

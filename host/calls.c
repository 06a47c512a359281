/* Lines to the program that holds the session, and the answers to them. */
#define _POSIX_C_SOURCE 200809L
#include "calls.h"

#include <inttypes.h>
#include <signal.h>
#include <stdio.h>
#include <stdlib.h>
#include <string.h>
#include <sys/stat.h>
#include <unistd.h>

#define WAIT_MOST 30 /* seconds */

static FILE *to, *from, *kept;

void fail(int status, const char *what, const char *more)
{
    fprintf(stderr, "two_body: %s%s\n", what, more);
    exit(status);
}

static void waited(int signal)
{
    (void)signal;
    static const char line[] = "two_body: the program gives no answer\n";
    _exit(write(STDERR_FILENO, line, sizeof line - 1) > 0 ? 1 : 3);
}

static void become(const char *path, int in[2], int out[2])
{
    dup2(in[0], STDIN_FILENO);
    dup2(out[1], STDOUT_FILENO);
    close(in[0]), close(in[1]), close(out[0]), close(out[1]);
    execl(path, path, (char *)NULL);
    _exit(127);
}

void start_program(const char *path)
{
    int in[2], out[2];
    struct stat found;
    if (stat(path, &found) != 0 || !S_ISREG(found.st_mode) || access(path, X_OK) != 0)
        fail(2, "no program at ", path);
    signal(SIGPIPE, SIG_IGN);
    signal(SIGALRM, waited);
    if (pipe(in) != 0 || pipe(out) != 0)
        fail(1, "no pipe to ", path);
    pid_t child = fork();
    if (child < 0)
        fail(1, "no process for ", path);
    if (child == 0)
        become(path, in, out);
    close(in[0]), close(out[1]);
    to = fdopen(in[1], "w");
    from = fdopen(out[0], "r");
}

void keep_answers(const char *path)
{
    kept = fopen(path, "w");
    if (kept == NULL)
        fail(2, "cannot write ", path);
}

/* Sends a line; what is answered goes to the place given, and with the record after it to the file
 * where answers are kept. */
static void exchange(const char *line, char answer[LINE_MOST])
{
    char record[LINE_MOST];
    alarm(WAIT_MOST);
    fprintf(to, "%s\n", line);
    fflush(to);
    if (fgets(answer, LINE_MOST, from) == NULL || fgets(record, sizeof record, from) == NULL)
        fail(1, "the program gives no answer", "");
    if (kept != NULL && (fputs(answer, kept) < 0 || fputs(record, kept) < 0))
        fail(1, "cannot keep an answer", "");
}

struct answer call(const char *line)
{
    char answer[LINE_MOST];
    struct answer a;
    uint64_t bits[3];
    int kind;
    exchange(line, answer);
    /* Number, kind, and of each value the report, the third of its three words. */
    if (sscanf(answer, "%*s %d %d %*s %*s %" SCNx64 " %*s %*s %*s %*s %*s %" SCNx64
               " %*s %*s %*s %*s %*s %" SCNx64, &a.number, &kind,
               &bits[0], &bits[1], &bits[2]) != 5)
        fail(1, "no sense in the answer ", answer);
    a.kind = (enum kind)kind;
    memcpy(a.position, bits, sizeof a.position);
    return a;
}

/* Words: the name, number and kind, six of the changes, then of each point 18, three for a value. */
struct round call_round(const char *line)
{
    char answer[LINE_MOST];
    struct round r = {0};
    int at = 0;
    exchange(line, answer);
    for (char *word = strtok(answer, " \n"); word != NULL; word = strtok(NULL, " \n"), at++) {
        int point = (at - 9) / 18, place = (at - 9) % 18;
        if (at == 1)
            r.number = atoi(word);
        if (at == 2)
            r.kind = (enum kind)atoi(word);
        /* The report of a position: the third word of every other value. */
        if (at >= 9 && point < POINTS_MOST && place % 6 == 2) {
            uint64_t bits = strtoull(word, NULL, 16);
            memcpy(&r.position[point][place / 6], &bits, sizeof bits);
        }
    }
    if (at != 9 + 18 * POINTS_MOST)
        fail(1, "no sense in the answer to ", line);
    return r;
}

void add_float(char *line, double value)
{
    uint64_t bits;
    memcpy(&bits, &value, sizeof bits);
    sprintf(line + strlen(line), " %016" PRIx64, bits);
}

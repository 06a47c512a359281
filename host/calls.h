/* The calls of a session that another program holds, as lines through a pipe. */
#ifndef CALLS_H
#define CALLS_H

#define LINE_MOST 4096
#define POINTS_MOST 9

enum kind { NONE, ACCEPTED, AGAIN, OPENED };

/* What a host reads of an answer: the positions are reports, in ticks. */
struct answer {
    int number;
    enum kind kind;
    double position[3];
};

/* The same of a round of a start: its points, the oldest first. */
struct round {
    int number;
    enum kind kind;
    double position[POINTS_MOST][3];
};

/* Starts the program at the path. */
void start_program(const char *path);

/* Keeps every answer, and the record after it, in the file at the path. */
void keep_answers(const char *path);

/* Makes the call that the line asks for. */
struct answer call(const char *line);
struct round call_round(const char *line);

/* Adds a float to a line, as the digits of its bits. */
void add_float(char *line, double value);

/* Ends with one line on what is wrong; 2 where the arguments are. */
void fail(int status, const char *what, const char *more);

#endif

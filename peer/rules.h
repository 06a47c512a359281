/* The session of the paper and its calls in plain C, to compare the library with. */
#ifndef RULES_H
#define RULES_H

#include <stdbool.h>
#include <stddef.h>
#include <stdint.h>

/* D, the number of parts in a tick. */
#define PARTS 159667200
#define PLACES 9
#define AXES 3

enum state { CLOSED, SETTLED, AWAITING, STARTING };
enum kind { NONE, ACCEPTED, AGAIN, OPENED };

/* A number of parts, of any size that can arise. */
typedef __int128 wide;

/* An exact value as a host can write it: whole ticks and parts. */
struct exact {
    int64_t whole;
    uint32_t part;
};

struct axis {
    struct exact first_sum, second_sum;
    struct exact held_position, held_velocity; /* what the older samples give to the next correction */
    int64_t samples[PLACES]; /* newest first */
    struct exact position, velocity; /* the estimate; while starting the epoch */
};

/* In ticks and in ticks per step: how far a point may move and still agree. */
struct tolerances {
    uint64_t position, velocity;
};

struct record {
    uint64_t state, points;
    struct tolerances tolerances;
    uint64_t limit, accepted;
    uint64_t corrections; /* while starting the later rounds */
    struct axis axes[AXES];
};

/* A position with its velocity, in parts. */
struct motion {
    wide position, velocity;
};

struct answer {
    int number;
    enum kind kind;
    struct motion point[AXES];
    struct motion change; /* the largest of each kind, as sizes */
};

/* What a round answers; points oldest first, unused places zero. */
struct round_answer {
    int number;
    enum kind kind;
    struct motion change;
    struct motion points[PLACES][AXES];
};

/* Why a correction would be answered as it would be; what it does not name is zero. */
struct reason {
    int number;
    enum kind kind;
    int value; /* 1 to 6: position x, y, z, velocity x, y, z; or of the sample 1 to 3: x, y, z */
    wide change; /* of the value named, from the last estimate, with its sign */
    uint64_t tolerance;
    bool given; /* whether the differences are: those of order p at the sample */
    int64_t differences[AXES];
};

/* What a run answers: the number of the call that ended it, the points settled, the samples used. */
struct run_answer {
    int number;
    uint64_t points, used;
};

/* What open and a first round are given; samples oldest point first. */
struct opening {
    uint64_t points;
    struct tolerances tolerances;
    uint64_t limit;
    int64_t position[AXES], velocity[AXES];
    const double *samples;
    size_t length;
};

/* Works out the coefficients from their rules; to be called once, before any other. */
void prepare(void);

struct answer open_session(struct record *r, const struct opening *given);
struct answer predict(struct record *r);
struct answer correct(struct record *r, const double sample[AXES]);
struct answer withdraw(struct record *r);

/* The reason of what correct would answer. */
struct reason why(const struct record *r, const double sample[AXES]);

/* The rounds of a start: the given point is the centre one, later samples come as in the first. */
struct round_answer first_round(struct record *r, const struct opening *given);
struct round_answer later_round(struct record *r, const double *samples, size_t length);

/* Predicts and corrects by the samples, until the points are settled, a call is refused or no sample is left. */
struct run_answer run_session(struct record *r, uint64_t wanted, const double *samples, size_t length);

/* The exact value of a number of parts, and its report. */
struct exact split(wide number);
double report(struct exact value);

#endif

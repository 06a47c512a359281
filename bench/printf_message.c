/* A message as a C program would print it: the request of scripts/README.md read from standard
 * input, each number taken as a double and printed by printf, with no checks. */
#define _DEFAULT_SOURCE
#include <stdio.h>
#include <stdlib.h>
#include <string.h>
#include <time.h>

#define PARTS 159667200.0
#define NUMBERS 12
#define LINE_MOST 4096

/* The lines before the points, in their order. */
enum { CREATED, ORIGINATOR, OBJECT, ID, CENTER, FRAME, START, TICK, STEP, HEAD };
static char head[HEAD][LINE_MOST];

struct point {
    double values[NUMBERS / 2];
};

static char *after_word(char *line)
{
    char *rest = strchr(line, ' ');
    line[strcspn(line, "\n")] = 0;
    return rest == NULL ? line : rest + 1;
}

static struct tm time_of(const char *text)
{
    struct tm t = {0};
    sscanf(text, "%d-%d-%dT%d:%d:%d", &t.tm_year, &t.tm_mon, &t.tm_mday, &t.tm_hour, &t.tm_min,
           &t.tm_sec);
    t.tm_year -= 1900, t.tm_mon -= 1;
    return t;
}

static void print_time(time_t seconds)
{
    struct tm t;
    gmtime_r(&seconds, &t);
    printf("%04d-%02d-%02dT%02d:%02d:%02d", t.tm_year + 1900, t.tm_mon + 1, t.tm_mday, t.tm_hour,
           t.tm_min, t.tm_sec);
}

static void print_head(time_t start, time_t stop)
{
    printf("CCSDS_OEM_VERS = 2.0\nCREATION_DATE = %s\nORIGINATOR = %s\nMETA_START\n", head[CREATED],
           head[ORIGINATOR]);
    printf("OBJECT_NAME = %s\nOBJECT_ID = %s\nCENTER_NAME = %s\nREF_FRAME = %s\n", head[OBJECT],
           head[ID], head[CENTER], head[FRAME]);
    printf("TIME_SYSTEM = TAI\nSTART_TIME = "), print_time(start);
    printf("\nSTOP_TIME = "), print_time(stop);
    printf("\nMETA_STOP\n");
}

/* The numbers of a point line; 0 where it is none. */
static int read_point(const char *line, struct point *p)
{
    if (strncmp(line, "point ", 6) != 0)
        return 0;
    char *at = (char *)line + 6;
    for (int i = 0; i < NUMBERS / 2; i++) {
        long long whole = strtoll(at, &at, 10), part = strtoll(at, &at, 10);
        p->values[i] = (double)whole + (double)part / PARTS;
    }
    return 1;
}

int main(void)
{
    char line[LINE_MOST];
    struct point *points = NULL;
    size_t count = 0, space = 0;
    for (int i = 0; i < HEAD && fgets(line, sizeof line, stdin) != NULL; i++)
        strcpy(head[i], after_word(line));
    while (fgets(line, sizeof line, stdin) != NULL) {
        if (count == space)
            points = realloc(points, (space = 2 * space + 64) * sizeof *points);
        if (points == NULL || !read_point(line, &points[count++])) {
            printf("line %zu: not a request\n", count + HEAD);
            return 0;
        }
    }
    struct tm begin = time_of(head[START]);
    int step = atoi(head[STEP]);
    time_t start = timegm(&begin);
    double kilometre = 1000.0 * (double)(1 << atoi(head[TICK])), velocity = kilometre * step;
    print_head(start, start + (time_t)(count - 1) * step);
    for (size_t i = 0; i < count; i++) {
        const double *v = points[i].values;
        print_time(start + (time_t)i * step);
        printf(" %.6f %.6f %.6f %.9f %.9f %.9f\n", v[0] / kilometre, v[1] / kilometre,
               v[2] / kilometre, v[3] / velocity, v[4] / velocity, v[5] / velocity);
    }
    free(points);
    return 0;
}

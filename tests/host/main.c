/* Makes calls on the library and on the peer in one process, and holds the results together.
 *   compare calls N SEED     drawn calls
 *   compare images N SEED    damaged images
 *   compare lengths SEED     every length of every slice, and the offsets of the header
 *   compare script           the calls of a script on standard input
 * With `exact` as a last word slices are blocks of their own length, for valgrind. */
#include "both.h"

#include "draw.h"
#include "runs.h"

#include <inttypes.h>
#include <stdio.h>
#include <stdlib.h>

static uint64_t number(const char *text)
{
    char *end;
    uint64_t value = strtoull(text, &end, 10);
    if (*text < '0' || *text > '9' || *end != 0) {
        fprintf(stderr, "compare: %s is no number\n", text);
        exit(2);
    }
    return value;
}

/* The numbers that follow the name of each run. */
static const struct run {
    const char *name;
    int numbers;
} runs[] = {{"calls", 2}, {"images", 2}, {"lengths", 1}, {"script", 0}};

static bool do_run(const char *name, uint64_t count)
{
    switch (name[0]) {
    case 'c':
        return run_calls(count);
    case 'i':
        return run_images(count);
    case 'l':
        return run_lengths() && run_fields();
    default:
        return run_script();
    }
}

int main(int count, char **words)
{
    char said[100];
    bool exact = count > 2 && strcmp(words[count - 1], "exact") == 0;
    count -= exact;
    for (size_t i = 0; count > 1 && i < sizeof runs / sizeof *runs; i++) {
        if (strcmp(words[1], runs[i].name) != 0 || count != 2 + runs[i].numbers)
            continue;
        uint64_t seed = runs[i].numbers > 0 ? number(words[count - 1]) : 0;
        uint64_t wanted = runs[i].numbers > 1 ? number(words[2]) : 0;
        snprintf(said, sizeof said, "%s with seed %" PRIu64, runs[i].name, seed);
        set_seed(seed);
        prepare();
        prepare_both(exact, said);
        bool good = do_run(runs[i].name, wanted);
        printf("%s: %" PRIu64 " calls, no difference\n", said, calls_made());
        return good ? 0 : 1;
    }
    fprintf(stderr, "compare: give calls N SEED, images N SEED, lengths SEED or script\n");
    return 2;
}

/* How long pieces of work take, side by side. See README.md. */
#ifndef MEASURE_H
#define MEASURE_H

#include <stddef.h>
#include <stdint.h>
#include <stdio.h>
#include <stdlib.h>
#include <time.h>

#ifndef ROUNDS
#define ROUNDS 15
#endif

struct work {
    uint64_t (*run)(const void *on, uint32_t turns);
    const void *on;
    uint32_t turns;
    double made, once, twice;
    double nanoseconds; /* a turn */
};

static void fail(const char *what) {
    fprintf(stderr, "%s\n", what);
    exit(1);
}

/* of this process alone, so that other work on the machine counts less */
static double seconds(void) {
    struct timespec now;
    clock_gettime(CLOCK_PROCESS_CPUTIME_ID, &now);
    return (double)now.tv_sec + (double)now.tv_nsec / 1e9;
}

static double time_of(const struct work *work, uint32_t turns) {
    double start = seconds();
    work->run(work->on, turns);
    return seconds() - start;
}

static double lesser(double a, double b) {
    return a < b ? a : b;
}

/* The turns of each are doubled until they take a fiftieth of a second. Then all of them work in rounds, one after the
   other, and the shortest time counts. What a call makes before its turns isn't counted: the time of a call without turns.
   Twice as many turns have to take about twice the time, since a compiler might have taken the work out of the loop. */
static void measure(struct work *works, size_t count) {
    for (size_t i = 0; i < count; i++) {
        works[i].made = lesser(time_of(&works[i], 0), time_of(&works[i], 0));
        works[i].turns = 1;
        while (time_of(&works[i], works[i].turns) - works[i].made < 0.02 && works[i].turns < 1u << 30)
            works[i].turns *= 2;
        works[i].once = works[i].twice = 1e9;
    }
    for (int round = 0; round < ROUNDS; round++) {
        for (size_t i = 0; i < count; i++) {
            works[i].made = lesser(works[i].made, time_of(&works[i], 0));
            works[i].once = lesser(works[i].once, time_of(&works[i], works[i].turns));
            works[i].twice = lesser(works[i].twice, time_of(&works[i], 2 * works[i].turns));
        }
    }
    for (size_t i = 0; i < count; i++) {
        double once = works[i].once - works[i].made, twice = works[i].twice - works[i].made;
        if (twice < 1.25 * once || twice > 4 * once)
            fail("the time doesn't grow with the count");
        works[i].nanoseconds = twice / (2.0 * works[i].turns) * 1e9;
    }
}

#endif

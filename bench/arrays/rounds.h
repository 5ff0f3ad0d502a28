/* What the programs of bench/arrays share: the numbers that they work on, and the times of rounds. */

#include <inttypes.h>
#include <stdint.h>
#include <stdio.h>
#include <stdlib.h>
#include <time.h>

static inline int64_t now(void)
{
    struct timespec time;
    clock_gettime(CLOCK_MONOTONIC, &time);
    return 1000000000 * (int64_t)time.tv_sec + time.tv_nsec;
}

/* Numbers of the whole range: a linear congruential generator's. */
static inline void fill(int64_t *values, size_t count)
{
    uint64_t seed = 1;
    for (size_t place = 0; place < count; place++)
        values[place] = (int64_t)(seed = seed * 6364136223846793005u + 1442695040888963407u);
}

static inline int by_size(const void *a, const void *b)
{
    double x = *(const double *)a, y = *(const double *)b;
    return (x > y) - (x < y);
}

/* Prints the shortest and the middle time of the rounds, in nanoseconds, and the sum of the answer's
   values, wrapped. */
static inline void report(double *times, int rounds, const int64_t *answer, int64_t count)
{
    uint64_t sum = 0;
    for (int64_t place = 0; place < count; place++)
        sum += (uint64_t)answer[place];
    qsort(times, (size_t)rounds, sizeof *times, by_size);
    printf("%.0f %.0f %" PRIu64 "\n", times[0], times[rounds / 2], sum);
}

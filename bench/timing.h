/* The clock, and what is told of many rounds. */
#include <stdlib.h>
#include <time.h>

static double now(void)
{
    struct timespec t;
    clock_gettime(CLOCK_MONOTONIC, &t);
    return (double)t.tv_sec * 1e9 + (double)t.tv_nsec;
}

static int ascending(const void *a, const void *b)
{
    double x = *(const double *)a, y = *(const double *)b;
    return (x > y) - (x < y);
}

/* The best and the median of so many rounds, which are put in order. */
static void settle(double *took, size_t rounds, double *best, double *median)
{
    qsort(took, rounds, sizeof *took, ascending);
    *best = took[0];
    *median = took[rounds / 2];
}

/* Runs the same schedules through the proved lock and through the plain port, compares every answer, and tells the
   time of both. A schedule is made beforehand, so that nothing but the two runs is timed. */
#include "exchange.h"
#include "port.h"

#include <stdio.h>
#include <stdlib.h>
#include <string.h>
#include <time.h>

#define CALLS 1000000
#define ROUNDS 15

struct setting {
    uint32_t ranks, levels;
    uint32_t writers; /* how many asks of a hundred are to write */
};

typedef uint8_t run(const uint8_t *, size_t, struct exchange *, size_t);

static uint64_t seed;

/* a number below n, by a linear congruence: the same on every machine */
static uint32_t below(uint32_t n)
{
    seed = seed * 6364136223846793005u + 1442695040888963407u;
    return (uint32_t)((seed >> 33) * n >> 31);
}

static uint8_t *put(uint8_t *at, uint32_t bytes, uint64_t number)
{
    while (bytes-- > 0)
        *at++ = (uint8_t)(number >> 8 * bytes);
    return at;
}

/* A plan in which each element above the lowest level has four parts, as far as there are ranks; eight counters. */
static size_t make_plan(uint8_t *plan, struct setting s)
{
    uint32_t first[6] = {0, 1, 2}, elements = 1, width = 1;
    for (uint32_t i = 2; i <= s.levels; i++) {
        first[i] = elements + 1;
        width = width * 4 < s.ranks ? width * 4 : s.ranks;
        elements += width;
    }
    uint8_t *at = plan;
    *at++ = 'H';
    at = put(at, 2, s.ranks);
    at = put(at, 2, elements);
    at = put(at, 1, s.levels);
    at = put(at, 2, s.ranks < 8 ? 1 : s.ranks / 8);
    at = put(at, 4, 100); /* reader threshold */
    at = put(at, 2, 10);  /* writer threshold */
    for (uint32_t i = 2; i <= 4; i++)
        at = put(at, 2, i <= s.levels ? 5 : 0);
    for (uint32_t k = 2, i = 2; k <= elements; k++) {
        while (i < s.levels && k >= first[i + 1])
            i++;
        uint32_t parents = first[i] - first[i - 1], parts = (i == s.levels ? elements + 1 : first[i + 1]) - first[i];
        *at++ = 'E';
        at = put(at, 2, first[i - 1] + (k - first[i]) * parents / parts);
    }
    uint32_t lowest = first[s.levels], leaves = elements + 1 - lowest;
    for (uint32_t p = 0; p < s.ranks; p++) {
        *at++ = 'K';
        at = put(at, 2, lowest + p * leaves / s.ranks);
    }
    *at++ = 'G';
    return (size_t)(at - plan);
}

/* Any rank at a time: an idle one asks, one that is in leaves, any other makes a step. Answers how many steps. */
static size_t make_schedule(struct exchange *table, const uint8_t *plan, struct setting s)
{
    static struct lock lock;
    size_t steps = 0;
    port_layout(&lock, plan);
    for (size_t j = 0; j < CALLS; j++) {
        uint32_t rank = 1 + below(s.ranks);
        uint8_t place = lock.records[rank].place, letter = 'S';
        if (place == IDLE)
            letter = below(100) < s.writers ? 'W' : 'R';
        else if (place == WRITER || place == READER)
            letter = 'L';
        else
            steps++;
        table[j] = (struct exchange){letter, 0, (uint16_t)rank};
        port_call(&lock, letter, rank);
    }
    return steps;
}

static double seconds(void)
{
    struct timespec t;
    clock_gettime(CLOCK_MONOTONIC, &t);
    return t.tv_sec + t.tv_nsec * 1e-9;
}

static double timed(run *f, const uint8_t *plan, size_t length, struct exchange *table)
{
    double start = seconds();
    uint8_t told = f(plan, length, table, CALLS);
    double took = seconds() - start;
    if (told != 0) {
        fprintf(stderr, "refused: %d\n", told);
        exit(1);
    }
    return took;
}

static int less(const void *a, const void *b)
{
    double x = *(const double *)a, y = *(const double *)b;
    return (x > y) - (x < y);
}

static double median(double *times)
{
    qsort(times, ROUNDS, sizeof *times, less);
    return times[ROUNDS / 2];
}

/* The two take turns, so that both meet the same machine. */
static void measure(struct setting s)
{
    static uint8_t plan[8192];
    static struct exchange asked[CALLS], proved[CALLS], ported[CALLS];
    double proved_times[ROUNDS], ported_times[ROUNDS];
    seed = s.ranks * 1000 + s.levels * 100 + s.writers;
    size_t length = make_plan(plan, s), steps = make_schedule(asked, plan, s);
    for (int i = 0; i < ROUNDS; i++) {
        memcpy(proved, asked, sizeof asked);
        memcpy(ported, asked, sizeof asked);
        proved_times[i] = timed(treelock_run, plan, length, proved);
        ported_times[i] = timed(port_run, plan, length, ported);
        if (memcmp(proved, ported, sizeof asked) != 0) {
            fprintf(stderr, "the answers differ: %u ranks, %u levels\n", s.ranks, s.levels);
            exit(1);
        }
    }
    double a = median(proved_times), b = median(ported_times), share = (double)steps / CALLS;
    printf("| %u | %u | %u | %.0f | %.1f | %.1f | %.2f |\n", s.ranks, s.levels, s.writers, share * 100,
           CALLS * share / a / 1e6, CALLS * share / b / 1e6, a / b);
    fflush(stdout);
}

int main(void)
{
    static const uint32_t ranks[] = {2, 8, 64, 256, 1024};
    static const uint32_t writers[] = {0, 50, 100};
    printf("| Ranks | Levels | Writers %% | Steps %% | proved, M steps/s | C, M steps/s | time, proved to C |\n");
    printf("|---|---|---|---|---|---|---|\n");
    for (uint32_t levels = 1; levels <= 4; levels++)
        for (size_t j = 0; j < sizeof ranks / sizeof *ranks; j++)
            measure((struct setting){ranks[j], levels, 10});
    for (size_t j = 0; j < sizeof writers / sizeof *writers; j++)
        measure((struct setting){64, 2, writers[j]});
    return 0;
}

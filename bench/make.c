/* Making a record through the library, by its own table of the pressure and by a table that is lent, in turn: nanoseconds for 3, 17 and 65 points in
 * the list's 50 rows, the centre passing them. Then loading the text of that table, which has the entries of the library's own: so the last record has
 * to come out the same. The least of TURNS. */
#include <inttypes.h>
#include <stdio.h>
#include <stdlib.h>
#include <string.h>
#include <time.h>
#include "../include/surge.h"

enum { RECORDS = 4000, LOADS = 1000, MOST = FENNHOP_MOST_POINTS, ROWS = FENNHOP_MOST_WINDS };

static int64_t winds[ROWS][FENNHOP_WINDS_STRIDE], sites[MOST][FENNHOP_SITES_STRIDE], factors[FENNHOP_FACTORS];
static int64_t by_own[MOST][FENNHOP_STORM_STRIDE], by_lent[MOST][FENNHOP_STORM_STRIDE];
static char text[16 * FENNHOP_FACTORS];

static double seconds_now(void)
{
    struct timespec t;
    clock_gettime(CLOCK_MONOTONIC, &t);
    return (double)t.tv_sec + 1e-9 * (double)t.tv_nsec;
}

/* Winds that fall outward, and points along an axis. */
static void prepare(int n)
{
    for (int i = 0; i < ROWS; i++) {
        winds[i][0] = 300 + 60 * i;
        winds[i][1] = 1000 - 19 * i;
    }
    for (int i = 0; i < n; i++) {
        sites[i][0] = -4000 * (n - 1 - i) / (n - 1);
        sites[i][1] = 0;
        sites[i][2] = 900;
    }
}

/* 10,000 e^(-m/100), to the nearest: none is so near to the middle between two whole numbers that a double could not tell. */
static size_t write_table(void)
{
    int length = sprintf(text, "factor\n");
    double value = 10000;
    for (int m = 0; m < FENNHOP_FACTORS; m++, value *= 0.99004983374916805)
        length += sprintf(text + length, "%d\n", (int)(value + 0.5));
    return (size_t)length;
}

static void accepted(uint64_t number, const int64_t *answer)
{
    if (number) {
        fprintf(stderr, "refused: %" PRIu64 " %" PRId64 "\n", number, answer[0]);
        exit(1);
    }
}

static double made(int n)
{
    int64_t answer[FENNHOP_ANSWER];
    double began = seconds_now();
    for (int k = 0; k < RECORDS; k++)
        accepted(fennhop_make_record(2757, 2992, 403, 2 * k - 4000, 403, k ? 600 : 0, 0, winds[0], FENNHOP_WINDS_STRIDE * ROWS, sites[0],
                                     FENNHOP_SITES_STRIDE * (size_t)n, by_own[0], FENNHOP_STORM_STRIDE * (size_t)n, answer, FENNHOP_ANSWER),
                 answer);
    return seconds_now() - began;
}

static double made_with(int n)
{
    int64_t answer[FENNHOP_ANSWER];
    double began = seconds_now();
    for (int k = 0; k < RECORDS; k++)
        accepted(fennhop_make_record_with(factors, FENNHOP_FACTORS, 2757, 2992, 403, 2 * k - 4000, 403, k ? 600 : 0, 0, winds[0],
                                          FENNHOP_WINDS_STRIDE * ROWS, sites[0], FENNHOP_SITES_STRIDE * (size_t)n, by_lent[0],
                                          FENNHOP_STORM_STRIDE * (size_t)n, answer, FENNHOP_ANSWER),
                 answer);
    return seconds_now() - began;
}

static double loaded(size_t length)
{
    int64_t answer[FENNHOP_ANSWER];
    double began = seconds_now();
    for (int k = 0; k < LOADS; k++)
        accepted(fennhop_load_profile((const uint8_t *)text, length, factors, FENNHOP_FACTORS, answer, FENNHOP_ANSWER), answer);
    return seconds_now() - began;
}

static double lesser(double a, double b)
{
    return a < b ? a : b;
}

int main(int count, char **words)
{
    int turns = count > 1 ? atoi(words[1]) : 15;
    static const int points[] = {3, 17, 65};
    size_t length = write_table();
    double load = 1e9;
    for (int turn = 0; turn < turns; turn++)
        load = lesser(load, loaded(length));
    for (int i = 0; i < 3; i++) {
        double own = 1e9, lent = 1e9;
        prepare(points[i]);
        for (int turn = 0; turn < turns; turn++) {
            own = lesser(own, made(points[i]));
            lent = lesser(lent, made_with(points[i]));
        }
        if (memcmp(by_own, by_lent, sizeof by_own)) {
            fputs("the two records differ\n", stderr);
            return 1;
        }
        printf("  %2d points: %.0f ns a record, %.0f ns by a table that is lent, ratio %.2f\n", points[i], 1e9 * own / RECORDS,
               1e9 * lent / RECORDS, lent / own);
    }
    printf("  loading a table of %zu bytes: %.1f us, %.0f MB/s\n", length, 1e6 * load / LOADS, 1e-6 * (double)length * LOADS / load);
    return 0;
}

/* Reading the texts of a traverse and a storm through the library: the numbers of document 01's listing, refusals 1 to 5 with their
 * places and in their order, arrays of another length, any cursor. Every array lies before guard numbers and is compared with a copy.
 * It is given the folder of the listing, examples/listing by default. */
#include <inttypes.h>
#include <stdio.h>
#include <string.h>
#include "../include/surge.h"
#include "expect.h"

enum { ROOM = 256, BYTES = 4096, MOST = FENNHOP_MOST_POINTS };
static const int64_t GUARD = INT64_C(0x5bd1e995a5a5a5a5);

static int64_t head[ROOM], points[ROOM], cursor[ROOM], values[ROOM], storm[ROOM], answer[ROOM];
static int64_t was[6][ROOM];
static int64_t *const lent[6] = {head, points, cursor, values, storm, answer};
enum { HEAD, POINTS, CURSOR, VALUES, STORM, ANSWER };

static uint8_t traverse_text[BYTES], storm_text[BYTES];
static size_t traverse_count, storm_count;

#define TRAVERSE "latitude friction initial\n300 25 0\ndistance depth\n"
#define STORM_NAMES "seconds tide wind angle deficit\n"

static void keep(void)
{
    for (int a = 0; a < 6; a++)
        memcpy(was[a], lent[a], sizeof was[a]);
}

static void prepare(int64_t bytes, int64_t lines)
{
    for (int a = 0; a < 6; a++)
        for (int i = 0; i < ROOM; i++)
            lent[a][i] = GUARD;
    cursor[0] = bytes;
    cursor[1] = lines;
    keep();
}

static int same(int a, int from)
{
    return !memcmp(lent[a] + from, was[a] + from, (ROOM - from) * sizeof(int64_t));
}

/* Nothing changed but the answer, and of that only its numbers from `from` on are as they were. */
static int left(int from)
{
    return same(HEAD, 0) && same(POINTS, 0) && same(CURSOR, 0) && same(VALUES, 0) && same(STORM, 0) && same(ANSWER, from);
}

static int told(int64_t place, int64_t count)
{
    return answer[0] == place && answer[1] == count && answer[2] == 0;
}

static void refused(const char *what, uint64_t got, uint64_t number, int64_t place)
{
    expect(what, got == number && told(place, 0));
    expect(what, left(FENNHOP_ANSWER));
}

static int zeros(const int64_t *numbers, int from, int to)
{
    for (int i = from; i < to; i++)
        if (numbers[i] != 0)
            return 0;
    return 1;
}

static uint64_t read_traverse(const void *text, size_t count)
{
    prepare(0, 0);
    return fennhop_read_traverse(text, count, head, FENNHOP_HEAD, points, FENNHOP_READ_POINTS, answer, FENNHOP_ANSWER);
}

static uint64_t read_record(const void *text, size_t count, size_t n)
{
    keep();
    return fennhop_read_record(text, count, n, cursor, FENNHOP_CURSOR, values, FENNHOP_VALUES, storm, FENNHOP_READ_STORM, answer,
                               FENNHOP_ANSWER);
}

static uint64_t first_record(const char *text, size_t n)
{
    prepare(0, 0);
    return read_record(text, strlen(text), n);
}

static size_t load(const char *folder, const char *name, uint8_t *text)
{
    char path[512];
    snprintf(path, sizeof path, "%s/%s", folder, name);
    FILE *f = fopen(path, "rb");
    if (!f)
        return 0;
    size_t n = fread(text, 1, BYTES, f);
    fclose(f);
    return n;
}

static void listing_traverse(void)
{
    expect("the traverse", read_traverse(traverse_text, traverse_count) == 0 && told(0, 2));
    expect("its values", head[0] == 300 && head[1] == 25 && head[2] == 0);
    expect("its points", points[0] == 10 && points[1] == 500 && points[2] == 0 && points[3] == 500);
    expect("the other points", zeros(points, 4, FENNHOP_READ_POINTS));
    expect("what lies beside", same(HEAD, FENNHOP_HEAD) && same(POINTS, FENNHOP_READ_POINTS) && same(ANSWER, FENNHOP_ANSWER));
    expect("what was not lent", same(CURSOR, 0) && same(VALUES, 0) && same(STORM, 0));
}

/* The listing's two records, each marched, and the end of the text. */
static void listing_storm(void)
{
    static const int64_t seconds[] = {0, 1600}, tide[] = {0, 50}, bytes[] = {58, 92}, lines[] = {3, 5}, low[] = {2325, 7302};
    int64_t state[2], told_by_march[3];
    fennhop_row row = {0, 0, 0};
    read_traverse(traverse_text, traverse_count);
    uint64_t n = fennhop_open_traverse(head[0], head[1], head[2], points, 2 * answer[1], state, 2, told_by_march, 3);
    expect("the traverse opened", n == 0);
    cursor[0] = cursor[1] = 0;
    for (int i = 0; i < 2; i++) {
        expect("a record", read_record(storm_text, storm_count, 2) == 0 && told(0, 1));
        expect("its cursor", cursor[0] == bytes[i] && cursor[1] == lines[i]);
        expect("its values", values[0] == seconds[i] && values[1] == tide[i]);
        expect("its points", storm[0] == 1000 && storm[3] == 1000 && zeros(storm, 1, 3) && zeros(storm, 4, FENNHOP_READ_STORM));
        expect("what lies beside", same(CURSOR, 2) && same(VALUES, 2) && same(STORM, FENNHOP_READ_STORM) && same(ANSWER, 3));
        n = fennhop_take_record(head[0], head[1], head[2], points, 4, values[0], values[1], storm, 6, state, 2, &row, 1, NULL, 0,
                                told_by_march, 3);
        expect("its height", n == 0 && told_by_march[1] == low[i] && told_by_march[2] == low[i] + 1);
    }
    expect("the end", read_record(storm_text, storm_count, 2) == 0 && told(0, 0));
    expect("the end leaves all", left(FENNHOP_ANSWER));
}

/* Every value in its own place. */
static void places(void)
{
    static const char text[] = STORM_NAMES "0 -7 1 2 3\n0 -7 4 5 6\n";
    expect("a record of six values", first_record(text, 2) == 0 && told(0, 1) && values[0] == 0 && values[1] == -7);
    for (int i = 0; i < 6; i++)
        expect("a value", storm[i] == i + 1);
}

static void traverse_refused(const char *text, uint64_t number, int64_t place)
{
    refused(text, read_traverse(text, strlen(text)), number, place);
}

static void refusals(void)
{
    refused("no text", read_traverse(NULL, 0), 1, 1);
    traverse_refused("latitude friction initia\n", 1, 1);
    traverse_refused("latitude friction initial\n300 25 0\ndistance  depth\n", 1, 3);
    traverse_refused("latitude friction initial\n300 25\n", 2, 2);
    traverse_refused(TRAVERSE "10 500\n0 -0\n", 2, 5);
    traverse_refused(TRAVERSE "10 500\n0 500", 2, 5);
    traverse_refused("latitude friction initial\n", 3, 1);
    traverse_refused(TRAVERSE, 3, 3);
    traverse_refused(TRAVERSE "10 500\n", 5, 1);
    prepare(0, 0);
    refused("no storm", read_record(NULL, 0, 2), 1, 1);
    refused("names", first_record("seconds tide wind angle\n", 2), 1, 1);
    refused("malformed", first_record(STORM_NAMES "0 0 1 2 3\n0 0 1 2\n", 2), 2, 3);
    refused("no record", first_record(STORM_NAMES, 2), 3, 1);
    refused("half a record", first_record(STORM_NAMES "0 0 1 2 3\n", 2), 3, 2);
    refused("other seconds", first_record(STORM_NAMES "0 0 1 2 3\n1 0 1 2 3\n", 2), 4, 3);
    refused("other tide", first_record(STORM_NAMES "0 0 1 2 3\n0 1 1 2 3\n", 2), 4, 3);
    refused("one point", first_record(STORM_NAMES "0 0 1 2 3\n", 1), 5, 1);
    refused("66 points", first_record(STORM_NAMES "0 0 1 2 3\n", 66), 5, 66);
    refused("the most points", first_record(STORM_NAMES "0 0 1 2 3\n", SIZE_MAX), 5, INT64_MAX);
}

/* Which of two faults is told. */
static void orders(void)
{
    refused("names before points", first_record("seconds tide wind angle\n", 66), 1, 1);
    refused("points before lines", first_record(STORM_NAMES "0 0 1 2\n", 66), 5, 66);
    refused("points before the end", first_record(STORM_NAMES, 1), 5, 1);
    prepare(92, 5);
    refused("points at the end", read_record(storm_text, storm_count, 0), 5, 0);
    refused("malformed before differing", first_record(STORM_NAMES "0 0 1 2 3\n1 0 1 2\n", 2), 2, 3);
    refused("the earlier line", first_record(STORM_NAMES "0 0 1 2 3\n1 0 1 2 3\n0 0 1 2\n", 3), 4, 3);
    refused("a faulty line before the end", first_record(STORM_NAMES "0 0 1 2 3\n0 1 1 2 3\n", 3), 4, 3);
    refused("no last line feed", first_record(STORM_NAMES "0 0 1 2 3\n0 0 1 2 3", 2), 2, 3);
    traverse_refused(TRAVERSE "10 500 1\ndistance depth\n", 2, 4);
    traverse_refused("latitude friction initial\n300 25\ndistance\n", 2, 2);
}

/* A fault in the last line of the most points leaves everything as it was. */
static void late_faults(void)
{
    static const char *const last[] = {"", "0 0 1 2\n", "0 0 1 2 3", "0 1 1 2 3\n", "0 0 1 2 3 4\n", "0 0 1 2 x\n"};
    static const int number[] = {3, 2, 2, 4, 2, 2};
    static char text[BYTES];
    for (int i = 0; i < 6; i++) {
        int used = sprintf(text, STORM_NAMES);
        for (int k = 1; k < MOST; k++)
            used += sprintf(text + used, "0 0 %d 2 3\n", k);
        strcpy(text + used, last[i]);
        refused("a fault in the last of 65 lines", first_record(text, MOST), number[i], i ? 1 + MOST : MOST);
    }
    int used = sprintf(text, TRAVERSE);
    for (int k = 0; k < 70; k++)
        used += sprintf(text + used, "%d 500\n", k);
    strcpy(text + used, "1 -\n");
    traverse_refused(text, 2, 74);
}

/* 65 points have a place, 66 are refused. */
static void many(void)
{
    static char text[BYTES];
    for (int n = 64; n < 68; n++) {
        int used = sprintf(text, TRAVERSE);
        for (int i = 0; i < n; i++)
            used += sprintf(text + used, "%d %d\n", n - 1 - i, 500 + i);
        uint64_t got = read_traverse(text, used);
        if (n > 65) {
            refused("too many points", got, 5, n);
            continue;
        }
        expect("many points", got == 0 && told(0, n));
        expect("the last", points[2 * n - 2] == 0 && points[2 * n - 1] == 499 + n && zeros(points, 2 * n, FENNHOP_READ_POINTS));
    }
}

static void lengths(void)
{
    for (size_t n = 0; n < ROOM; n++) {
        for (int i = 0; i < 3; i++) {
            size_t at[3] = {FENNHOP_HEAD, FENNHOP_READ_POINTS, FENNHOP_ANSWER};
            if (at[i] == n)
                continue;
            at[i] = n;
            prepare(0, 0);
            expect("another length", fennhop_read_traverse(traverse_text, traverse_count, head, at[0], points, at[1], answer, at[2]) ==
                                         FENNHOP_WRONG_BUFFER && left(0));
        }
        for (int i = 0; i < 4; i++) {
            size_t at[4] = {FENNHOP_CURSOR, FENNHOP_VALUES, FENNHOP_READ_STORM, FENNHOP_ANSWER};
            if (at[i] == n)
                continue;
            at[i] = n;
            prepare(0, 0);
            expect("another length, record", fennhop_read_record(storm_text, storm_count, 2, cursor, at[0], values, at[1], storm, at[2],
                                                                 answer, at[3]) == FENNHOP_WRONG_BUFFER && left(0));
        }
    }
}

/* Past the text, the ends of int64_t, and negative numbers for 0. */
static void cursors(void)
{
    static const int64_t past[] = {92, 93, INT64_MAX};
    for (int i = 0; i < 3; i++) {
        prepare(past[i], 5);
        expect("past the text", read_record(storm_text, storm_count, 2) == 0 && told(0, 0) && left(FENNHOP_ANSWER));
        prepare(past[i], 1);
        refused("past the text, no record", read_record(storm_text, storm_count, 2), 3, 1);
    }
    static const int64_t below[] = {-1, INT64_MIN};
    for (int i = 0; i < 2; i++) {
        prepare(below[i], below[i]);
        expect("negative", read_record(storm_text, storm_count, 2) == 0 && told(0, 1) && cursor[0] == 58 && cursor[1] == 3);
    }
    prepare(32, INT64_MAX);
    expect("the most lines", read_record(storm_text, storm_count, 2) == 0 && told(0, 1) && cursor[0] == 58 && cursor[1] == INT64_MAX);
    prepare(33, 1);
    refused("inside a line", read_record(storm_text, storm_count, 2), 2, 2);
}

int main(int n, char **args)
{
    const char *folder = n > 1 ? args[1] : "examples/listing";
    traverse_count = load(folder, "traverse.txt", traverse_text);
    storm_count = load(folder, "storm.txt", storm_text);
    listing_traverse();
    listing_storm();
    places();
    refusals();
    orders();
    late_faults();
    many();
    lengths();
    cursors();
    return summary();
}

/* Calls of the library that only a program in another language can make: counts that are no multiple of a point, any count of rows, a
 * `state` or `answer` of another length, no numbers at all, the ends of int64_t, arrays and texts at the end of what can be read. The
 * march's two calls and the harbour panel's go through the same tests. Every array lies between guard numbers, a text between guard
 * bytes, and is compared with a copy. */
#include <inttypes.h>
#include <stddef.h>
#include <stdio.h>
#include <string.h>
#include <sys/mman.h>
#include "../include/surge.h"
#include "expect.h"

enum { ROOM = 512, STATE = 0, SETUP, ANSWER, STORM, NUMBERS, LONG = FENNHOP_MOST_POINTS + 5 };
static const int64_t GUARD = INT64_C(0x5bd1e995a5a5a5a5);
enum { GUARD_BYTE = 0xa5 };

/* document 01's listing storm, two points */
static const int64_t points[] = {10, 500, 0, 500, 0, 0, 0, 0};
static const int64_t first[] = {1000, 0, 0, 1000, 0, 0, 0, 0, 0};
/* a hurricane's list of winds and points to make a record of: two are at its centre and at 401 */
static const int64_t winds[] = {400, 1000, 701, 700, 900, 500, 901, 0, 950};
static const int64_t sites[] = {0, 0, 900, 401, 0, 1800, 0, -401, 3599};
/* what is made of them with R 401 and a drop of 300: wind, angle, deficit */
static const int64_t record_made[] = {1000, 900, 300, 999, 1800, 189, 999, 3599, 189};
/* a deck of that storm's traverse, three cards, and the text that is written of it */
static const char deck[] = "DIST 1 1 .0\nDEPTH 01 50.\nDEPTH 2 00050.00\n";
static const char deck_text[] = "latitude friction initial\n300 25 0\ndistance depth\n10 500\n0 500\n";
enum { DECK = sizeof deck - 1, DECK_TEXT = sizeof deck_text - 1 };
/* a profile that falls by 9 an entry, more than the 1,001 entries; its text; and what is made with it */
enum { FACTORS = FENNHOP_FACTORS, TABLE = FACTORS + 9, LINE = 6 };
static int64_t table[TABLE];
static char table_text[sizeof "factor\n" + LINE * TABLE];
static size_t line_end[TABLE + 1]; /* where the line of each entry ends, that of the names line first */
static const int64_t record_made_with[] = {1000, 900, 270, 999, 1800, 27, 999, 3599, 27};
/* a traverse and a record of more points than any; so many at their end are those of fewer */
static int64_t long_points[2 * LONG], long_first[3 * LONG];

/* A pair of calls that march a storm, and the most segments of a traverse: our own program's and the panel's. */
struct pair {
    __typeof__(fennhop_open_traverse) *open;
    __typeof__(fennhop_take_record) *take;
    size_t segments;
};
static const struct pair pairs[] = {{fennhop_open_traverse, fennhop_take_record, FENNHOP_MOST_SEGMENTS},
                                    {fennhop_panel_open_traverse, fennhop_panel_take_record, FENNHOP_PANEL_MOST_SEGMENTS}};

/* What is lent, each with a guard before it and guards behind. */
static int64_t space[NUMBERS][ROOM], was[NUMBERS][ROOM];
static int64_t *const state = space[STATE] + 1, *const setup = space[SETUP] + 1, *const answer = space[ANSWER] + 1;
static int64_t *const storm = space[STORM] + 1;
static fennhop_row row_space[ROOM], rows_were[ROOM];
static fennhop_row *const rows = row_space + 1;
static uint8_t byte_space[ROOM], bytes_were[ROOM];
static uint8_t *const text = byte_space + 1;
static int64_t factor_space[TABLE + 2], factors_were[TABLE + 2];
static int64_t *const factors = factor_space + 1;

/* Takes a copy of all that is lent. */
static void keep(void)
{
    memcpy(was, space, sizeof was);
    memcpy(rows_were, row_space, sizeof rows_were);
    memcpy(bytes_were, byte_space, sizeof bytes_were);
    memcpy(factors_were, factor_space, sizeof factors_were);
}

/* A fresh state, so many fresh rows, and guards in all other places. */
static void prepare(size_t fresh)
{
    for (int i = 0; i < ROOM; i++) {
        for (int a = 0; a < NUMBERS; a++)
            space[a][i] = GUARD;
        row_space[i] = (fennhop_row){GUARD, GUARD, GUARD};
        byte_space[i] = GUARD_BYTE;
    }
    for (int i = 0; i < TABLE + 2; i++)
        factor_space[i] = GUARD;
    state[0] = state[1] = 0;
    for (size_t i = 0; i < fresh; i++)
        rows[i] = (fennhop_row){0, 0, 0};
    keep();
}

/* All but the first `count` numbers of an array are as they were. */
static int same(int a, int count)
{
    return space[a][0] == was[a][0] && !memcmp(space[a] + 1 + count, was[a] + 1 + count, (ROOM - 1 - count) * sizeof(int64_t));
}

static int is_row(const fennhop_row *row, int64_t low, int64_t high, int64_t cross)
{
    return row->low == low && row->high == high && row->cross == cross;
}

/* All but the first `count` rows are as they were. */
static int same_rows(int count)
{
    for (int i = 0; i < ROOM; i++) {
        const fennhop_row *r = &rows_were[i];
        if ((i == 0 || i > count) && !is_row(&row_space[i], r->low, r->high, r->cross))
            return 0;
    }
    return 1;
}

/* All but the first `count` bytes of the text are as they were. */
static int same_text(size_t count)
{
    return byte_space[0] == bytes_were[0] && !memcmp(byte_space + 1 + count, bytes_were + 1 + count, ROOM - 1 - count);
}

/* All but the first `count` factors are as they were. */
static int same_factors(size_t count)
{
    return factor_space[0] == factors_were[0] &&
           !memcmp(factor_space + 1 + count, factors_were + 1 + count, (TABLE + 1 - count) * sizeof(int64_t));
}

/* Nothing that is lent was changed, the answer set aside. */
static int all_same(void)
{
    return same(STATE, 0) && same_rows(0) && same(SETUP, 0) && same(STORM, 0) && same_text(0) && same_factors(0);
}

/* A refusal: number and place, and nothing changed but the answer's three numbers. */
static void refused(const char *what, uint64_t got, uint64_t number, int64_t place)
{
    expect(what, got == number && answer[0] == place && answer[1] == 0 && answer[2] == 0);
    expect(what, all_same() && same(ANSWER, FENNHOP_ANSWER));
}

static void untouched(const char *what, uint64_t got)
{
    expect(what, got == FENNHOP_WRONG_BUFFER);
    expect(what, all_same() && same(ANSWER, 0));
}

static uint64_t take(const struct pair *by, size_t points_count, size_t storm_count, size_t state_count, size_t rows_count,
                     size_t setup_count, size_t answer_count)
{
    prepare(1);
    return by->take(300, 25, 0, points_count ? points : NULL, points_count, 0, 0, storm_count ? first : NULL, storm_count,
                    state_count ? state : NULL, state_count, rows_count ? rows : NULL, rows_count, setup_count ? setup : NULL,
                    setup_count, answer_count ? answer : NULL, answer_count);
}

/* A record of the most points, on the rows as they are. */
static uint64_t take_long(const struct pair *by, fennhop_row *lent, size_t rows_count, size_t setup_count)
{
    const size_t count = by->segments + 1, left_out = LONG - count;
    return by->take(300, 25, 0, long_points + 2 * left_out, 2 * count, 0, 0, long_first + 3 * left_out, 3 * count, state, FENNHOP_STATE,
                    lent, rows_count, setup_count ? setup : NULL, setup_count, answer, FENNHOP_ANSWER);
}

static uint64_t open(const struct pair *by, size_t points_count, size_t state_count, size_t answer_count)
{
    prepare(1);
    return by->open(300, 25, 0, points_count ? points : NULL, points_count, state_count ? state : NULL, state_count,
                    answer_count ? answer : NULL, answer_count);
}

static uint64_t make(size_t winds_count, size_t sites_count, size_t storm_count, size_t answer_count)
{
    prepare(0);
    return fennhop_make_record(2800, 3100, 401, 0, 0, 1800, -35, winds_count ? winds : NULL, winds_count, sites_count ? sites : NULL,
                               sites_count, storm_count ? storm : NULL, storm_count, answer_count ? answer : NULL, answer_count);
}

static uint64_t make_with(const int64_t *lent, size_t lent_count, size_t winds_count, size_t sites_count, size_t storm_count,
                          size_t answer_count)
{
    prepare(0);
    return fennhop_make_record_with(lent_count ? lent : NULL, lent_count, 2800, 3100, 401, 0, 0, 1800, -35, winds_count ? winds : NULL,
                                    winds_count, sites_count ? sites : NULL, sites_count, storm_count ? storm : NULL, storm_count,
                                    answer_count ? answer : NULL, answer_count);
}

static uint64_t load(const void *bytes, size_t bytes_count, size_t room, size_t answer_count)
{
    prepare(0);
    return fennhop_load_profile(bytes_count ? bytes : NULL, bytes_count, room ? factors : NULL, room, answer_count ? answer : NULL,
                                answer_count);
}

static uint64_t read_deck(size_t deck_count, size_t text_count, size_t answer_count)
{
    prepare(0);
    return fennhop_read_deck(300, 25, 0, deck_count ? (const uint8_t *)deck : NULL, deck_count, text_count ? text : NULL, text_count,
                             answer_count ? answer : NULL, answer_count);
}

/* What the header says of itself and of a row. */
static void header(void)
{
    char version[32];
    snprintf(version, sizeof version, "%d.%d.%d", FENNHOP_VERSION_NUMBER / 10000, FENNHOP_VERSION_NUMBER / 100 % 100,
             FENNHOP_VERSION_NUMBER % 100);
    expect("both versions", !strcmp(version, FENNHOP_VERSION));
    expect("a row is three numbers", sizeof(fennhop_row) == 3 * sizeof(int64_t));
    expect("low, high, cross", offsetof(fennhop_row, low) == 0 && offsetof(fennhop_row, high) == sizeof(int64_t) &&
                                   offsetof(fennhop_row, cross) == 2 * sizeof(int64_t));
    expect("the strides and limits of making a record", FENNHOP_WINDS_STRIDE == 2 && FENNHOP_SITES_STRIDE == 3 &&
                                                            FENNHOP_STORM_STRIDE == 3 && FENNHOP_MOST_WINDS == 50);
    expect("the refusals of making a record", FENNHOP_REFUSED_STORM_VALUE == 13 && FENNHOP_REFUSED_WIND_RADII == 14);
    expect("the refusals of reading a deck", FENNHOP_REFUSED_CARD_ORDER == 15 && FENNHOP_REFUSED_CARD_UNIT == 16 &&
                                                 FENNHOP_REFUSED_CARD_COUNTS == 17);
    expect("the refusal of a profile, and its entries", FENNHOP_REFUSED_PROFILE_ENTRY == 20 && FENNHOP_FACTORS == 1001);
    expect("the refusal of a calm", FENNHOP_REFUSED_CALM_ANGLE == 18);
    expect("the panel's refusal and limits", FENNHOP_REFUSED_PANEL_POINTS == 19 && FENNHOP_PANEL_MOST_POINTS == 17 &&
                                                 FENNHOP_PANEL_MOST_SEGMENTS == 16);
    expect("the lengths for the most points", FENNHOP_READ_POINTS == FENNHOP_POINTS_STRIDE * FENNHOP_MOST_POINTS &&
                                                  FENNHOP_READ_STORM == FENNHOP_STORM_STRIDE * FENNHOP_MOST_POINTS);
}

static void counts(const struct pair *by)
{
    for (size_t n = 0; n < 9; n++) {
        int64_t whole = n % 2 ? 0 : (int64_t)n / 2;
        if (whole < 2) {
            refused("points of a traverse that is opened", open(by, n, 2, 3), FENNHOP_REFUSED_POINTS, whole);
            refused("points of a traverse", take(by, n, 6, 2, 1, 0, 3), FENNHOP_REFUSED_POINTS, whole);
        }
        if (n != 6)
            refused("points of a record", take(by, 4, n, 2, 1, 0, 3), FENNHOP_REFUSED_LENT, 0);
        if (n != 1)
            refused("rows", take(by, 4, 6, 2, n, 0, 3), FENNHOP_REFUSED_LENT, 0);
        if (n != 0 && n != 2)
            refused("setup places", take(by, 4, 6, 2, 1, n, 3), FENNHOP_REFUSED_LENT, 0);
        if (n != 2) {
            untouched("a state of another length", take(by, 4, 6, n, 1, 0, 3));
            untouched("a state of another length, opening", open(by, 4, n, 3));
        }
        if (n != 3) {
            untouched("an answer of another length", take(by, 4, 6, 2, 1, 0, n));
            untouched("an answer of another length, opening", open(by, 4, 2, n));
        }
    }
    untouched("nothing at all", take(by, 0, 0, 0, 0, 0, 0));
    untouched("nothing at all, opening", open(by, 0, 0, 0));
}

/* Any count of rows but the one that fits, for one segment and for the most. What lies behind the last that fits is not looked at. */
static void rows_lent(const struct pair *by)
{
    static const size_t wrong[] = {0, 15, 16, 17, 63, 64, 65, 200, ROOM - 2};
    const size_t most = by->segments;
    for (int i = 0; i < 9; i++) {
        refused("many rows, one segment", take(by, 4, 6, 2, wrong[i], 0, 3), FENNHOP_REFUSED_LENT, 0);
        if (wrong[i] == most)
            continue;
        prepare(ROOM - 2);
        refused("rows that do not fit the most segments", take_long(by, wrong[i] ? rows : NULL, wrong[i], 0), FENNHOP_REFUSED_LENT, 0);
    }
    prepare(most);
    expect("the most rows", take_long(by, rows, most, 2 * most) == 0 && state[0] == 0 && state[1] == 1);
    expect("what lies beside", same(STATE, 2) && same_rows(most) && same(SETUP, 2 * most) && same(ANSWER, 3));
    for (size_t i = 0; i < most; i++)
        expect("a row of a first record", is_row(&rows[i], 0, 0, INT64_C(57280000) * 10000));
}

/* So many bytes, all 0, that cannot be written. */
static void *blank_bytes(size_t count)
{
    void *pages = mmap(NULL, count, PROT_READ, MAP_PRIVATE | MAP_ANONYMOUS | MAP_NORESERVE, -1, 0);
    if (pages != MAP_FAILED)
        return pages;
    expect("blank pages", 0);
    return NULL;
}

/* Very many rows, all fresh, in memory that cannot be written: a refused call writes none, however many there are. */
static void very_many_rows(const struct pair *by)
{
    const size_t most = by->segments, bytes = (((size_t)1 << 32) + most) * sizeof(fennhop_row);
    const size_t past[] = {most + 1, 1000, (size_t)1 << 31, (size_t)1 << 32, ((size_t)1 << 32) + most};
    fennhop_row *blank = blank_bytes(bytes);
    if (!blank)
        return;
    for (int i = 0; i < 5; i++) {
        prepare(0);
        refused("very many rows", take_long(by, blank, past[i], 0), FENNHOP_REFUSED_LENT, 0);
    }
    prepare(0);
    refused("the most rows, which cannot be written", take_long(by, blank, most, 1), FENNHOP_REFUSED_LENT, 0);
    munmap(blank, bytes);
}

static void accepted(const struct pair *by)
{
    for (size_t places = 0; places < 4; places += 2) {
        expect("the first record", take(by, 4, 6, 2, 1, places, 3) == 0);
        expect("its state", state[0] == 0 && state[1] == 1);
        expect("its row", is_row(rows, 0, 0, 0));
        expect("its height", answer[0] == 0 && answer[1] == 2325 && answer[2] == 2326);
        expect("its setup places", places == 0 ? same(SETUP, 0) : setup[0] == 2325 && setup[1] == 2326);
        expect("what lies beside", same(STATE, 2) && same_rows(1) && same(SETUP, 2) && same(ANSWER, 3));
    }
    expect("opening", open(by, 4, 2, 3) == 0 && state[0] == 0 && state[1] == 0 && same(STATE, 2) && same_rows(0) && same(ANSWER, 3));
    expect("its answer", answer[0] == 0 && answer[1] == 0 && answer[2] == 0);
}

/* Rows of fluxes at their limits in each of the most segments, in water of 50 ft, with no turn of the earth. The strongest winds across have
 * the limiting speed 16,634, which holds each flux at 83,170; with a sum of 0, of faint winds along the axis or of the strongest from both
 * sides in turn, each flux is 0 at once. In a first record it is 0 whatever the row is. */
static void held(const struct pair *by)
{
    const int64_t sum = INT64_C(2572800000000);
    const fennhop_row lent[] = {{-1000000, 1000000, 0}, {1000000, 1000000, sum}, {-1000000, -1000000, -sum}, {-1000000, 0, 1}};
    /* of the last row's high end, nought, the force is left: 13.8, rounded outward */
    static const int64_t low[] = {-83170, 83170, -83170, -83170}, high[] = {83170, 83170, -83170, 14};
    const size_t most = by->segments, points_count = 2 * (most + 1), left_out = LONG - (most + 1);
    for (int kind = 0; kind < 3; kind++)
        for (int later = 0; later < 2; later++)
            for (size_t e = 0; e < 4; e++) {
                int64_t field[3 * LONG];
                for (size_t i = 0; i <= most; i++) {
                    field[3 * i] = kind == 1 ? 1 : 2000;
                    field[3 * i + 1] = kind == 1 ? 0 : kind == 2 && i % 2 ? 2700 : 900;
                    field[3 * i + 2] = 0;
                }
                prepare(most);
                for (size_t i = 0; i < most; i++)
                    rows[i] = lent[(i + e) % 4];
                state[1] = later;
                keep();
                uint64_t n = by->take(0, 10, 0, long_points + 2 * left_out, points_count, later, 0, field, 3 * (most + 1), state, 2, rows,
                                      most, setup, 2 * most, answer, 3);
                expect("a record on fluxes at their limits", n == 0 && state[0] == later && state[1] == 1);
                expect("its height", answer[1] == 0 && answer[2] == (kind == 1 ? (int64_t)most : 0));
                for (size_t i = 0; i < most; i++) {
                    const size_t k = (i + e) % 4;
                    if (kind == 0 && later)
                        expect("a flux that is held", is_row(&rows[i], low[k], high[k], sum));
                    else
                        expect("a flux of 0", is_row(&rows[i], 0, 0, kind == 0 ? sum : 0));
                }
                expect("what lies beside", same(STATE, 2) && same_rows(most) && same(SETUP, 2 * most) && same(ANSWER, 3));
            }
}

/* Any number but 0 says that a first record was accepted, and a refused call leaves it as it is. */
static void started(const struct pair *by)
{
    static const int64_t yes[] = {1, -1, 7, INT64_MAX, INT64_MIN};
    for (int i = 0; i < 5; i++) {
        prepare(1);
        state[1] = yes[i];
        keep();
        uint64_t n = by->take(300, 25, 0, points, 4, 0, 0, first, 6, state, 2, rows, 1, NULL, 0, answer, 3);
        refused("seconds 0 in a later record", n, FENNHOP_REFUSED_RECORD_VALUE, 0);
        n = by->take(300, 25, 0, points, 4, 1600, 50, first, 6, state, 2, rows, 1, NULL, 0, answer, 3);
        expect("a later record", n == 0 && state[0] == 1600 && state[1] == 1);
        expect("its height", answer[1] == 7302 && answer[2] == 7303);
    }
}

static const int64_t end[] = {INT64_MAX, INT64_MIN};

/* The ends of int64_t in every number. */
static void ends(const struct pair *by)
{
    for (int e = 0; e < 2; e++)
        for (int i = 0; i < 19; i++) {
            int64_t head[3] = {300, 25, 0}, line[4], times[2] = {0, 0}, field[6];
            memcpy(line, points, sizeof line);
            memcpy(field, first, sizeof field);
            prepare(1);
            int64_t *places[] = {head, head + 1, head + 2, line, line + 1, line + 2, line + 3, &rows->low, &rows->high, &rows->cross,
                                 times, times + 1, state, field, field + 1, field + 2, field + 3, field + 4, field + 5};
            static const int number[] = {6, 6, 6, 6, 6, 6, 6, 8, 8, 8, 9, 9, 9, 9, 9, 9, 9, 9, 9};
            static const int place[] = {0, 0, 0, 1, 1, 2, 2, 1, 1, 1, 0, 0, 0, 1, 1, 1, 2, 2, 2};
            *places[i] = end[e];
            keep();
            uint64_t n = by->take(head[0], head[1], head[2], line, 4, times[0], times[1], field, 6, state, 2, rows, 1, setup, 2, answer, 3);
            refused("an end of int64_t", n, number[i], place[i]);
            if (number[i] == 6)
                refused("an end of int64_t, opening", by->open(head[0], head[1], head[2], line, 4, state, 2, answer, 3), 6, place[i]);
        }
}

/* A copy of so many bytes, behind which nothing can be read, and which cannot be written but where `rights` say so. */
static void *fenced_bytes(const void *bytes, size_t count, int rights)
{
    const size_t page = 1 << 16;
    char *pages = mmap(NULL, 2 * page, PROT_READ | PROT_WRITE, MAP_PRIVATE | MAP_ANONYMOUS, -1, 0);
    if (pages == MAP_FAILED) {
        expect("fenced pages", 0);
        return NULL;
    }
    char *first_byte = pages + page - count;
    memcpy(first_byte, bytes, count);
    mprotect(pages, page, rights);
    mprotect(pages + page, page, PROT_NONE);
    return first_byte;
}

/* `count` numbers of an array behind which nothing can be read, and which cannot be written. */
static int64_t *fenced(const int64_t *numbers, size_t count)
{
    return fenced_bytes(numbers, count * sizeof(int64_t), PROT_READ);
}

/* A calm of every angle at each point, in a first record on made-up rows and in a later one, in arrays behind which nothing can be read. */
static void calms(const struct pair *by)
{
    static const int64_t angle[] = {0, 1, 3599, -1, 3600, INT64_MAX, INT64_MIN};
    static const int number[] = {0, 18, 18, 9, 9, 9, 9};
    for (int later = 0; later < 2; later++)
        for (int i = 0; i < 14; i++) {
            int64_t field[6];
            memcpy(field, first, sizeof field);
            field[3 * (i / 7)] = 0;
            field[3 * (i / 7) + 1] = angle[i % 7];
            const int64_t *lent = fenced(field, 6);
            prepare(0);
            rows[0] = (fennhop_row){-5, 5, 7};
            state[1] = later;
            keep();
            uint64_t n = by->take(300, 25, 0, points, 4, later, 0, lent, 6, state, 2, rows, 1, setup, 2, answer, 3);
            if (number[i % 7])
                refused("a calm that has a direction", n, number[i % 7], i / 7 + 1);
            else
                expect("a calm", n == 0 && state[0] == later && state[1] == 1);
        }
}

/* The last of the most points calm with a direction, and then with none. */
static void late_calm(const struct pair *by)
{
    const size_t most = by->segments;
    int64_t *last = long_first + 3 * (LONG - 1), was_there = last[0];
    prepare(most);
    last[0] = 0;
    refused("a calm at the last point", take_long(by, rows, most, 2 * most), FENNHOP_REFUSED_CALM_ANGLE, most + 1);
    last[1] = 0;
    expect("a calm without a direction", take_long(by, rows, most, 2 * most) == 0 && state[1] == 1);
    expect("its row, and one before it", is_row(&rows[most - 1], 0, 0, INT64_C(28640000) * 10000) &&
                                             is_row(&rows[most - 2], 0, 0, INT64_C(57280000) * 10000));
    last[0] = was_there;
    last[1] = 900;
}

/* The ends of int64_t in each of the most rows; the first bad row is told, whatever stands in the later ones. */
static void row_ends(const struct pair *by)
{
    const size_t most = by->segments;
    for (size_t k = 0; k < most; k++)
        for (int e = 0; e < 8; e++) {
            prepare(most);
            rows[k] = (fennhop_row){e & 1 ? end[0] : end[1], e & 2 ? end[0] : end[1], e & 4 ? end[0] : end[1]};
            rows[most - 1].cross = end[e & 1];
            keep();
            refused("a row of the ends of int64_t", take_long(by, rows, most, 2 * most), FENNHOP_REFUSED_LENT, k + 1);
        }
}

/* The refusal of so many points; 0 where they may be so many. */
static uint64_t wrong_points(const struct pair *by, size_t count)
{
    if (count < 2 || count > FENNHOP_MOST_POINTS)
        return FENNHOP_REFUSED_POINTS;
    return count > by->segments + 1 ? FENNHOP_REFUSED_PANEL_POINTS : 0;
}

/* What a call answers to so many points, all else being right: the refusal of them, or that it is accepted. */
static void points_told(const char *what, const struct pair *by, uint64_t got, size_t count)
{
    const uint64_t number = wrong_points(by, count);
    if (number)
        refused(what, got, number, count);
    else
        expect(what, got == 0 && answer[0] == 0 && state[0] == 0 && same(STATE, 2) && same(ANSWER, FENNHOP_ANSWER));
}

/* Every count of the numbers of points, behind which nothing can be read. Rows and setup can be written only where the record is taken. */
static void point_counts(const struct pair *by)
{
    static const fennhop_row fresh[LONG];
    for (size_t n = 0; n <= 2 * LONG; n++) {
        const size_t count = n % 2 ? 0 : n / 2, segments = count ? count - 1 : 0;
        const int rights = wrong_points(by, count) ? PROT_READ : PROT_READ | PROT_WRITE;
        const int64_t *line = fenced(long_points + 2 * LONG - n, n), *field = fenced(long_first + 3 * (LONG - count), 3 * count);
        fennhop_row *lent = fenced_bytes(fresh, segments * sizeof(fennhop_row), rights);
        int64_t *places = fenced_bytes(long_points, 2 * segments * sizeof(int64_t), rights);
        if (!line || !field || !lent || !places)
            return;
        prepare(0);
        points_told("points, opening", by, by->open(300, 25, 0, line, n, state, 2, answer, 3), count);
        prepare(0);
        points_told("points", by,
                    by->take(300, 25, 0, line, n, 0, 0, field, 3 * count, state, 2, lent, segments, places, 2 * segments, answer, 3),
                    count);
        expect("a first record that was accepted", state[1] == (wrong_points(by, count) == 0));
    }
}

/* Very many points, and counts that 32 bits would take for few. */
static void very_many_points(const struct pair *by)
{
    const size_t wide = (size_t)1 << 32, past[] = {66, 1000, wide / 2, wide / 2 + 17, wide, wide + 17, wide + 65};
    const size_t bytes = 2 * (wide + 66) * sizeof(int64_t);
    int64_t *blank = blank_bytes(bytes);
    if (!blank)
        return;
    for (int i = 0; i < 7; i++)
        for (size_t odd = 0; odd < 2; odd++) {
            const size_t n = 2 * past[i] + odd, count = odd ? 0 : past[i];
            prepare(1);
            points_told("very many points, opening", by, by->open(300, 25, 0, blank, n, state, 2, answer, 3), count);
            points_told("very many points", by,
                        by->take(300, 25, 0, blank, n, 0, 0, first, 6, state, 2, rows, 1, setup, 2, answer, 3), count);
        }
    munmap(blank, bytes);
}

/* So many points, too many for a panel, with nothing else right: every number an end of int64_t, nothing lent as many as it has to be. Only
 * a state or an answer of another length comes before 19 and before 5. */
static void too_long(const struct pair *by, size_t count, int64_t bad)
{
    int64_t line[2 * LONG];
    for (int i = 0; i < 2 * LONG; i++)
        line[i] = bad;
    const uint64_t number = wrong_points(by, count);
    const size_t n = 2 * count;
    prepare(0);
    state[0] = state[1] = bad;
    keep();
    refused("too long, opening", by->open(bad, bad, bad, line, n, state, 2, answer, 3), number, count);
    refused("too long", by->take(bad, bad, bad, line, n, bad, bad, line, 7, state, 2, rows, 200, setup, 3, answer, 3), number, count);
    keep();
    untouched("too long, opening, no state", by->open(bad, bad, bad, line, n, NULL, 0, answer, 3));
    untouched("too long, opening, short answer", by->open(bad, bad, bad, line, n, state, 2, answer, 2));
    untouched("too long, long state", by->take(bad, bad, bad, line, n, bad, bad, line, 7, state, 3, rows, 200, setup, 3, answer, 3));
    untouched("too long, short answer", by->take(bad, bad, bad, line, n, bad, bad, line, 7, state, 2, rows, 200, setup, 3, answer, 2));
}

/* A record that was made of the first `count` points, as these numbers. */
static void is_record(const char *what, uint64_t got, const int64_t *numbers_made, size_t count, int64_t seconds, int64_t tide)
{
    size_t numbers = FENNHOP_STORM_STRIDE * count;
    expect(what, got == 0 && answer[0] == 0 && answer[1] == seconds && answer[2] == tide);
    expect(what, !memcmp(storm, numbers_made, numbers * sizeof(int64_t)));
    expect(what, same(STATE, 0) && same_rows(0) && same(SETUP, 0) && same(STORM, numbers) && same(ANSWER, FENNHOP_ANSWER));
}

static void is_made(const char *what, uint64_t got, size_t count, int64_t seconds, int64_t tide)
{
    is_record(what, got, record_made, count, seconds, tide);
}

/* Counts of all that is lent to make a record, and none of it. */
static void make_counts(void)
{
    for (size_t n = 0; n < 10; n++) {
        if (n % FENNHOP_WINDS_STRIDE || n == 0)
            refused("rows of a wind list", make(n, 6, 6, 3), FENNHOP_REFUSED_STORM_VALUE, 0);
        if (n != 6 && n != 9)
            refused("points to make a record of", make(4, n, 9, 3), FENNHOP_REFUSED_STORM_VALUE, 0);
        if (n < 6)
            refused("room for two points", make(4, 6, n, 3), FENNHOP_REFUSED_LENT, 0);
        else
            is_made("two points", make(4, 6, n, 3), 2, 1800, -35);
        if (n < 9)
            refused("room for three points", make(4, 9, n, 3), FENNHOP_REFUSED_LENT, 0);
        if (n != 3)
            untouched("an answer of another length, making", make(4, 6, 6, n));
    }
    is_made("three points", make(8, 9, 9, 3), 3, 1800, -35);
    is_made("room to spare", make(8, 9, ROOM - 2, 3), 3, 1800, -35);
    untouched("nothing at all, making", make(0, 0, 0, 0));
    refused("an answer alone", make(0, 0, 0, 3), FENNHOP_REFUSED_STORM_VALUE, 0);
}

/* The ends of int64_t in every number that a record is made of; seconds and tide are passed on as they are. */
static void make_ends(void)
{
    for (int e = 0; e < 2; e++)
        for (int i = 0; i < 15; i++) {
            int64_t head[5] = {2800, 3100, 401, 0, 0}, list[4], place[6];
            memcpy(list, winds, sizeof list);
            memcpy(place, sites, sizeof place);
            *(i < 5 ? head + i : i < 9 ? list + i - 5 : place + i - 9) = end[e];
            int64_t told = i < 5 ? 0 : i < 9 ? (i - 5) / 2 + 1 : (i - 9) / 3 + 1;
            prepare(0);
            uint64_t n = fennhop_make_record(head[0], head[1], head[2], head[3], head[4], 0, 0, list, 4, place, 6, storm, 6, answer, 3);
            refused("an end of int64_t, making", n, FENNHOP_REFUSED_STORM_VALUE, told);
        }
    for (int e = 0; e < 4; e++) {
        prepare(0);
        uint64_t n = fennhop_make_record(2800, 3100, 401, 0, 0, end[e & 1], end[e >> 1], winds, 4, sites, 6, storm, 6, answer, 3);
        is_made("seconds and tide at the ends of int64_t", n, 2, end[e & 1], end[e >> 1]);
    }
}

/* Nothing is read behind an array, and a refused call writes no room: memory that cannot be written will do. */
static void make_fenced(void)
{
    static const int64_t level[] = {400, 1000, 400, 700};
    const int64_t *list = fenced(winds, 4), *equal = fenced(level, 4), *place = fenced(sites, 6);
    int64_t *shut = fenced(record_made, 6);
    if (!list || !equal || !place || !shut)
        return;
    prepare(0);
    is_made("fenced arrays", fennhop_make_record(2800, 3100, 401, 0, 0, 7, 8, list, 4, place, 6, storm, 6, answer, 3), 2, 7, 8);
    prepare(0);
    uint64_t n = fennhop_make_record(2800, 3100, 0, 0, 0, 7, 8, list, 4, place, 6, shut, 6, answer, 3);
    refused("a room that cannot be written, no radius", n, FENNHOP_REFUSED_STORM_VALUE, 0);
    n = fennhop_make_record(2800, 3100, 401, 0, 0, 7, 8, equal, 4, place, 6, shut, 6, answer, 3);
    refused("a room that cannot be written, equal radii", n, FENNHOP_REFUSED_WIND_RADII, 2);
    n = fennhop_make_record(2800, 3100, 401, 0, 0, 7, 8, list, 4, place, 6, shut + 1, 5, answer, 3);
    refused("a short room that cannot be written", n, FENNHOP_REFUSED_LENT, 0);
    prepare(0);
    untouched("an answer too short, fenced", fennhop_make_record(2800, 3100, 401, 0, 0, 7, 8, list, 4, place, 6, shut, 6, answer, 2));
}

/* Calms that are made, at the centre and at 401: from a row of the list, inside its first radius, beyond its last, and from a wind between
 * two rows that is rounded down. They get angle 0, and the march takes what was made. The angle that is given is judged. */
static void made_calms(void)
{
    static const int64_t list[][4] = {{401, 0, 701, 0}, {400, 0, 401, 9}, {0, 9, 400, 0},
                                      {400, 1, 402, 0}, {0, 1, 30000, 0}, {0, 0, 802, 2}};
    static const int64_t wind[][2] = {{0, 0}, {0, 9}, {9, 0}, {1, 0}, {1, 0}, {0, 1}};
    for (int i = 0; i < 6; i++) {
        int64_t made[6] = {wind[i][0], wind[i][0] ? 900 : 0, 300, wind[i][1], wind[i][1] ? 1800 : 0, 189};
        prepare(1);
        uint64_t n = fennhop_make_record(2800, 3100, 401, 0, 0, 0, 0, list[i], 4, sites, 6, storm, 6, answer, 3);
        expect("calms that are made", n == 0 && !memcmp(storm, made, sizeof made) && same(STORM, 6));
        n = fennhop_take_record(300, 25, 0, points, 4, answer[1], answer[2], storm, 6, state, 2, rows, 1, setup, 2, answer, 3);
        expect("what was made is taken", n == 0 && state[1] == 1);
        int64_t place[6];
        memcpy(place, sites, sizeof place);
        place[2 + 3 * (i & 1)] = 3600;
        prepare(0);
        n = fennhop_make_record(2800, 3100, 401, 0, 0, 0, 0, list[i], 4, place, 6, storm, 6, answer, 3);
        refused("the given angle of a point", n, FENNHOP_REFUSED_STORM_VALUE, 1 + (i & 1));
    }
}

/* The deck's text, at the front of what was lent for it. */
static void is_written(const char *what, uint64_t got)
{
    expect(what, got == 0 && answer[0] == 0 && answer[1] == DECK_TEXT && answer[2] == 0);
    expect(what, !memcmp(text, deck_text, DECK_TEXT));
    expect(what, same(STATE, 0) && same_rows(0) && same(SETUP, 0) && same(STORM, 0));
    expect(what, same_text(DECK_TEXT) && same(ANSWER, FENNHOP_ANSWER));
}

/* Every beginning of a deck, with and without room; every room; answers of another length; and none of it. */
static void deck_counts(void)
{
    static const size_t rooms[] = {0, DECK_TEXT, ROOM - 2};
    for (int r = 0; r < 3; r++) {
        int64_t line = 1;
        refused("no deck", read_deck(0, rooms[r], 3), FENNHOP_REFUSED_ENDED, 0);
        for (size_t n = 1; n < DECK; n++) {
            if (deck[n - 1] == '\n') {
                refused("distances and depths of other counts", read_deck(n, rooms[r], 3), FENNHOP_REFUSED_CARD_COUNTS, 2);
                line++;
            } else {
                refused("a deck that ends inside a card", read_deck(n, rooms[r], 3), FENNHOP_REFUSED_MALFORMED, line);
            }
        }
    }
    for (size_t n = 0; n < ROOM - 1; n++)
        if (n < DECK_TEXT)
            refused("room for a text", read_deck(DECK, n, 3), FENNHOP_REFUSED_LENT, 0);
        else
            is_written("a text", read_deck(DECK, n, 3));
    for (size_t n = 0; n < 9; n++)
        if (n != 3) {
            untouched("an answer of another length, deck", read_deck(DECK, ROOM - 2, n));
            untouched("an answer of another length, no deck", read_deck(0, 0, n));
        }
}

/* The ends of int64_t in each given value, whatever the deck. */
static void deck_ends(void)
{
    for (int e = 0; e < 2; e++)
        for (int i = 0; i < 3; i++) {
            int64_t given[3] = {300, 25, 0};
            given[i] = end[e];
            prepare(0);
            uint64_t n = fennhop_read_deck(given[0], given[1], given[2], (const uint8_t *)deck, DECK, text, ROOM - 2, answer, 3);
            refused("an end of int64_t, deck", n, FENNHOP_REFUSED_TRAVERSE_VALUE, 0);
            n = fennhop_read_deck(given[0], given[1], given[2], NULL, 0, NULL, 0, answer, 3);
            refused("an end of int64_t, no deck", n, FENNHOP_REFUSED_TRAVERSE_VALUE, 0);
            prepare(0);
            untouched("an end of int64_t, no answer", fennhop_read_deck(given[0], given[1], given[2], NULL, 0, NULL, 0, NULL, 0));
        }
}

/* A deck that is refused, behind which nothing can be read, into a room that cannot be written. */
static void deck_refused(const char *cards, uint64_t number, int64_t place)
{
    const uint8_t *lent = fenced_bytes(cards, strlen(cards), PROT_READ);
    uint8_t *shut = fenced_bytes(deck_text, DECK_TEXT, PROT_READ);
    if (!lent || !shut)
        return;
    prepare(0);
    refused(cards, fennhop_read_deck(300, 25, 0, lent, strlen(cards), shut, DECK_TEXT, answer, 3), number, place);
}

/* Nothing is read behind a deck nor written behind the room, and a refused call writes no text: memory that cannot be written will do. */
static void deck_fenced(void)
{
    const uint8_t *cards = fenced_bytes(deck, DECK, PROT_READ);
    uint8_t *open_room = fenced_bytes(record_made, DECK_TEXT, PROT_READ | PROT_WRITE);
    uint8_t *shut = fenced_bytes(deck_text, DECK_TEXT, PROT_READ);
    if (!cards || !open_room || !shut)
        return;
    prepare(0);
    uint64_t n = fennhop_read_deck(300, 25, 0, cards, DECK, open_room, DECK_TEXT, answer, 3);
    expect("fenced deck and room", n == 0 && answer[1] == DECK_TEXT && !memcmp(open_room, deck_text, DECK_TEXT));
    expect("fenced deck and room", same_text(0) && same(ANSWER, FENNHOP_ANSWER));
    prepare(0);
    refused("a room that cannot be written, latitude", fennhop_read_deck(901, 25, 0, cards, DECK, shut, DECK_TEXT, answer, 3),
            FENNHOP_REFUSED_TRAVERSE_VALUE, 0);
    refused("a room that cannot be written, no deck", fennhop_read_deck(300, 25, 0, NULL, 0, shut, DECK_TEXT, answer, 3),
            FENNHOP_REFUSED_ENDED, 0);
    refused("a short room that cannot be written, deck", fennhop_read_deck(300, 25, 0, cards, DECK, shut + 1, DECK_TEXT - 1, answer, 3),
            FENNHOP_REFUSED_LENT, 0);
    prepare(0);
    untouched("an answer too short, fenced deck", fennhop_read_deck(300, 25, 0, cards, DECK, shut, DECK_TEXT, answer, 2));
    deck_refused("\n", FENNHOP_REFUSED_MALFORMED, 1);
    deck_refused("DIST", FENNHOP_REFUSED_MALFORMED, 1);
    deck_refused("DIST 1 1 0\nDEPTH 1 50 50", FENNHOP_REFUSED_MALFORMED, 2);
    deck_refused("DIST 1 1 0\nDEPTH 1 50 50 \n", FENNHOP_REFUSED_MALFORMED, 2);
    deck_refused("DIST 1 1 0\nDEPTH 1 50 50\n\n", FENNHOP_REFUSED_MALFORMED, 3);
    deck_refused("DIST 1 1 0\nDEPTH 2 50 50\n", FENNHOP_REFUSED_CARD_ORDER, 2);
    deck_refused("DIST 1 1 0\nDEPTH 1 50\nDIST 2 50\n", FENNHOP_REFUSED_CARD_ORDER, 3);
    deck_refused("DIST 1 1 0\nDEPTH 1 50 50.05\n", FENNHOP_REFUSED_CARD_UNIT, 2);
    deck_refused("DIST 1 1 0\nDEPTH 1 50\n", FENNHOP_REFUSED_CARD_COUNTS, 2);
    deck_refused("DEPTH 1 50\n", FENNHOP_REFUSED_CARD_COUNTS, 0);
}

/* A deck longer than 32 bits can count, whose first line is faulty from its first byte on. */
static void very_long_deck(void)
{
    const size_t most = ((size_t)1 << 32) + DECK;
    uint8_t *bytes = mmap(NULL, most, PROT_READ | PROT_WRITE, MAP_PRIVATE | MAP_ANONYMOUS | MAP_NORESERVE, -1, 0);
    if (bytes == MAP_FAILED) {
        expect("pages for a deck", 0);
        return;
    }
    bytes[0] = ' ';
    static const size_t counts[] = {1, (size_t)1 << 31, (size_t)1 << 32, ((size_t)1 << 32) + DECK};
    for (int i = 0; i < 4; i++) {
        prepare(0);
        uint64_t n = fennhop_read_deck(300, 25, 0, bytes, counts[i], text, ROOM - 2, answer, 3);
        refused("a very long deck", n, FENNHOP_REFUSED_MALFORMED, 1);
    }
    munmap(bytes, most);
}

/* The profile's entries and its text, a line for each. */
static void write_table(void)
{
    line_end[0] = (size_t)sprintf(table_text, "factor\n");
    for (int i = 0; i < TABLE; i++) {
        table[i] = 10000 - 9 * i;
        line_end[i + 1] = line_end[i] + (size_t)sprintf(table_text + line_end[i], "%" PRId64 "\n", table[i]);
    }
}

/* The table, at the front of what was lent for it. */
static void is_loaded(const char *what, uint64_t got)
{
    expect(what, got == 0 && answer[0] == 0 && answer[1] == 0 && answer[2] == 0);
    expect(what, !memcmp(factors, table, FACTORS * sizeof(int64_t)));
    expect(what, same(STATE, 0) && same_rows(0) && same(SETUP, 0) && same(STORM, 0) && same_text(0));
    expect(what, same_factors(FACTORS) && same(ANSWER, FENNHOP_ANSWER));
}

/* Every beginning of the text of more entries than a table has, behind which nothing can be read, with and without room. */
static void load_beginnings(void)
{
    static const size_t rooms[] = {0, FACTORS, TABLE};
    const size_t most = line_end[TABLE];
    char *copy = fenced_bytes(table_text, most, PROT_READ | PROT_WRITE);
    if (!copy)
        return;
    for (int r = 0; r < 3; r++) {
        size_t entries = 0;
        for (size_t n = 0; n <= most; n++) {
            char *lent = copy + most - n;
            memcpy(lent, table_text, n);
            if (n < line_end[0]) {
                refused("a text without its names line", load(lent, n, rooms[r], 3), FENNHOP_REFUSED_NAMES, 1);
                continue;
            }
            if (entries < TABLE && n == line_end[entries + 1])
                entries++;
            if (n != line_end[entries])
                refused("a text that ends inside a line", load(lent, n, rooms[r], 3), FENNHOP_REFUSED_MALFORMED, entries + 2);
            else if (entries != FACTORS)
                refused("entries missing or too many", load(lent, n, rooms[r], 3), FENNHOP_REFUSED_PROFILE_ENTRY,
                        entries < FACTORS ? entries : FACTORS);
            else if (rooms[r] < FACTORS)
                refused("no room for a table", load(lent, n, rooms[r], 3), FENNHOP_REFUSED_LENT, 0);
            else
                is_loaded("a table", load(lent, n, rooms[r], 3));
        }
    }
}

/* Every room; answers of another length; and none of it. */
static void load_counts(void)
{
    const size_t whole = line_end[FACTORS];
    for (size_t n = 0; n <= TABLE; n++)
        if (n < FACTORS)
            refused("room for a table", load(table_text, whole, n, 3), FENNHOP_REFUSED_LENT, 0);
        else
            is_loaded("room for a table", load(table_text, whole, n, 3));
    for (size_t n = 0; n < 9; n++)
        if (n != 3) {
            untouched("an answer of another length, loading", load(table_text, whole, TABLE, n));
            untouched("an answer of another length, no text", load(NULL, 0, 0, n));
        }
    refused("no text", load(NULL, 0, TABLE, 3), FENNHOP_REFUSED_NAMES, 1);
    refused("an answer alone, loading", load(NULL, 0, 0, 3), FENNHOP_REFUSED_NAMES, 1);
}

/* A text that is refused, behind which nothing can be read, into a room that cannot be written. */
static void load_refused(const char *bytes, size_t count, size_t room, uint64_t number, int64_t place)
{
    const uint8_t *lent = fenced_bytes(bytes, count, PROT_READ);
    int64_t *shut = fenced(table, FACTORS);
    if (!lent || !shut)
        return;
    prepare(0);
    refused("a room that cannot be written, loading", fennhop_load_profile(lent, count, shut + FACTORS - room, room, answer, 3), number,
            place);
    prepare(0);
    untouched("the same, an answer too short", fennhop_load_profile(lent, count, shut + FACTORS - room, room, answer, 2));
}

/* Nothing is read behind a text nor written behind the room, and a refused call writes no room: memory that cannot be written will do. */
static void load_fenced(void)
{
    const size_t whole = line_end[FACTORS];
    const uint8_t *lent = fenced_bytes(table_text, whole, PROT_READ);
    int64_t *room = fenced_bytes(table + 1, FACTORS * sizeof(int64_t), PROT_READ | PROT_WRITE);
    if (!lent || !room)
        return;
    prepare(0);
    uint64_t n = fennhop_load_profile(lent, whole, room, FACTORS, answer, 3);
    expect("fenced text and room", n == 0 && !memcmp(room, table, FACTORS * sizeof(int64_t)) && all_same() && same(ANSWER, 3));
    load_refused("factors\n", 8, FACTORS, FENNHOP_REFUSED_NAMES, 1);
    load_refused("\n", 1, FACTORS, FENNHOP_REFUSED_NAMES, 1);
    load_refused("factor", 6, FACTORS, FENNHOP_REFUSED_NAMES, 1);
    load_refused("factor\n", 7, FACTORS, FENNHOP_REFUSED_PROFILE_ENTRY, 0);
    load_refused("factor\n10000\n", 13, FACTORS, FENNHOP_REFUSED_PROFILE_ENTRY, 1);
    load_refused("factor\n10000\n9999\n10000\n", 24, FACTORS, FENNHOP_REFUSED_PROFILE_ENTRY, 2);
    load_refused("factor\n9999\n", 12, 0, FENNHOP_REFUSED_PROFILE_ENTRY, 0);
    load_refused("factor\n9999\n-0\n", 15, FACTORS, FENNHOP_REFUSED_MALFORMED, 3);
    load_refused("factor\n10000\n-", 14, FACTORS, FENNHOP_REFUSED_MALFORMED, 3);
    load_refused("factor\n10000\n5 ", 15, FACTORS, FENNHOP_REFUSED_MALFORMED, 3);
    load_refused(table_text, whole - 1, FACTORS, FENNHOP_REFUSED_MALFORMED, FACTORS + 1);
    load_refused(table_text, line_end[FACTORS - 1], FACTORS, FENNHOP_REFUSED_PROFILE_ENTRY, FACTORS - 1);
    load_refused(table_text, line_end[FACTORS + 1], FACTORS, FENNHOP_REFUSED_PROFILE_ENTRY, FACTORS);
    load_refused(table_text, line_end[FACTORS + 1] - 1, FACTORS, FENNHOP_REFUSED_MALFORMED, FACTORS + 2);
    load_refused(table_text, whole, FACTORS - 1, FENNHOP_REFUSED_LENT, 0);
}

/* A text longer than 32 bits can count, whose names line, or whose first value line, is faulty from its first byte on. */
static void very_long_text(void)
{
    const size_t wide = (size_t)1 << 32, most = wide + line_end[FACTORS];
    uint8_t *bytes = mmap(NULL, most, PROT_READ | PROT_WRITE, MAP_PRIVATE | MAP_ANONYMOUS | MAP_NORESERVE, -1, 0);
    if (bytes == MAP_FAILED) {
        expect("pages for a text", 0);
        return;
    }
    const size_t counts[] = {line_end[FACTORS], wide / 2, wide, wide + 7, most};
    for (int i = 0; i < 5; i++)
        refused("a very long text", load(bytes, counts[i], TABLE, 3), FENNHOP_REFUSED_NAMES, 1);
    memcpy(bytes, table_text, line_end[0]);
    for (int i = 0; i < 5; i++)
        refused("a very long text with its names line", load(bytes, counts[i], TABLE, 3), FENNHOP_REFUSED_MALFORMED, 2);
    munmap(bytes, most);
}

/* Every count of a table's entries, behind which nothing can be read. */
static void table_counts(void)
{
    int64_t *copy = fenced_bytes(table, sizeof table, PROT_READ | PROT_WRITE);
    if (!copy)
        return;
    for (size_t n = 0; n <= TABLE; n++) {
        int64_t *lent = copy + TABLE - n;
        memcpy(lent, table, n * sizeof(int64_t));
        if (n == FACTORS)
            is_record("a table", make_with(lent, n, 4, 9, 9, 3), record_made_with, 3, 1800, -35);
        else
            refused("entries of a table", make_with(lent, n, 4, 9, 9, 3), FENNHOP_REFUSED_PROFILE_ENTRY, n < FACTORS ? n : FACTORS);
    }
}

/* The ends of int64_t in each entry, behind the table's end too, and in all. */
static void table_ends(void)
{
    int64_t lent[TABLE];
    for (int e = 0; e < 2; e++)
        for (size_t i = 0; i < TABLE; i++) {
            memcpy(lent, table, sizeof lent);
            lent[i] = end[e];
            refused("an end of int64_t, in a table", make_with(lent, i < FACTORS ? FACTORS : TABLE, 4, 9, 9, 3),
                    FENNHOP_REFUSED_PROFILE_ENTRY, i < FACTORS ? i : FACTORS);
        }
    for (int e = 0; e < 2; e++) {
        for (size_t i = 0; i < TABLE; i++)
            lent[i] = end[e];
        refused("a table of an end of int64_t", make_with(lent, TABLE, 4, 9, 9, 3), FENNHOP_REFUSED_PROFILE_ENTRY, 0);
        lent[0] = 10000;
        refused("a table of an end of int64_t, but for entry 0", make_with(lent, FACTORS, 4, 9, 9, 3), FENNHOP_REFUSED_PROFILE_ENTRY, 1);
    }
}

/* Counts of all that is lent beside a table, and none of it; 20 comes before all but a wrong answer. */
static void table_first(void)
{
    int64_t wrong[FACTORS];
    memcpy(wrong, table, sizeof wrong);
    wrong[FACTORS - 1] = -1;
    for (size_t n = 0; n < 10; n++) {
        if (n % FENNHOP_WINDS_STRIDE || n == 0)
            refused("rows of a wind list, with a table", make_with(table, FACTORS, n, 6, 6, 3), FENNHOP_REFUSED_STORM_VALUE, 0);
        if (n != 6 && n != 9)
            refused("points, with a table", make_with(table, FACTORS, 4, n, 9, 3), FENNHOP_REFUSED_STORM_VALUE, 0);
        if (n < 6)
            refused("room for two points, with a table", make_with(table, FACTORS, 4, 6, n, 3), FENNHOP_REFUSED_LENT, 0);
        else
            is_record("two points, with a table", make_with(table, FACTORS, 4, 6, n, 3), record_made_with, 2, 1800, -35);
        if (n != 3) {
            untouched("an answer of another length, with a table", make_with(table, FACTORS, 4, 6, 6, n));
            untouched("an answer of another length, no table", make_with(NULL, 0, 4, 6, 6, n));
        }
        refused("a bad table, and any winds", make_with(wrong, FACTORS, n, 6, 6, 3), FENNHOP_REFUSED_PROFILE_ENTRY, FACTORS - 1);
        refused("a bad table, and any points", make_with(wrong, FACTORS, 4, n, 9, 3), FENNHOP_REFUSED_PROFILE_ENTRY, FACTORS - 1);
        refused("no table, and any room", make_with(NULL, 0, 4, 6, n, 3), FENNHOP_REFUSED_PROFILE_ENTRY, 0);
    }
    untouched("nothing at all, with a table", make_with(NULL, 0, 0, 0, 0, 0));
    refused("an answer alone, with a table", make_with(NULL, 0, 0, 0, 0, 3), FENNHOP_REFUSED_PROFILE_ENTRY, 0);
    refused("a table and an answer", make_with(table, FACTORS, 0, 0, 0, 3), FENNHOP_REFUSED_STORM_VALUE, 0);
    for (int e = 0; e < 2; e++) {
        int64_t bad = end[e], list[4] = {bad, bad, bad, bad}, place[6] = {bad, bad, bad, bad, bad, bad};
        prepare(0);
        refused("a bad table, and ends of int64_t in all else",
                fennhop_make_record_with(wrong, FACTORS, bad, bad, bad, bad, bad, bad, bad, list, 4, place, 6, storm, 6, answer, 3),
                FENNHOP_REFUSED_PROFILE_ENTRY, FACTORS - 1);
        refused("a table, and ends of int64_t in all else",
                fennhop_make_record_with(table, FACTORS, bad, bad, bad, bad, bad, bad, bad, list, 4, place, 6, storm, 6, answer, 3),
                FENNHOP_REFUSED_STORM_VALUE, 0);
    }
}

/* A table that cannot be written and behind which nothing can be read, and a room that cannot be written where the call is refused. */
static void table_fenced(void)
{
    static const int64_t level[] = {400, 1000, 400, 700};
    const int64_t *lent = fenced(table, FACTORS), *tail = fenced(table + 1, FACTORS);
    int64_t *shut = fenced(record_made, 6);
    if (!lent || !tail || !shut)
        return;
    is_record("a fenced table", make_with(lent, FACTORS, 8, 9, 9, 3), record_made_with, 3, 1800, -35);
    static const struct {
        int64_t radius;
        size_t left_out, room;
        uint64_t number;
        int64_t place;
    } given[] = {{401, 1, 6, FENNHOP_REFUSED_PROFILE_ENTRY, 0}, {0, 0, 6, FENNHOP_REFUSED_STORM_VALUE, 0},
                 {401, 0, 5, FENNHOP_REFUSED_LENT, 0}};
    for (int i = 0; i < 3; i++) {
        prepare(0);
        refused("a room that cannot be written, with a table",
                fennhop_make_record_with(lent + given[i].left_out, FACTORS - given[i].left_out, 2800, 3100, given[i].radius, 0, 0, 7, 8,
                                         winds, 4, sites, 6, shut + 6 - given[i].room, given[i].room, answer, 3),
                given[i].number, given[i].place);
    }
    prepare(0);
    uint64_t n = fennhop_make_record_with(tail, FACTORS, 2800, 3100, 401, 0, 0, 7, 8, level, 4, sites, 6, shut, 6, answer, 3);
    refused("a bad table and equal radii", n, FENNHOP_REFUSED_PROFILE_ENTRY, 0);
    n = fennhop_make_record_with(lent, FACTORS, 2800, 3100, 401, 0, 0, 7, 8, level, 4, sites, 6, shut, 6, answer, 3);
    refused("a table and equal radii", n, FENNHOP_REFUSED_WIND_RADII, 2);
    n = fennhop_make_record_with(lent, FACTORS, 2800, 3100, 401, 0, 0, 7, 8, winds, 4, sites, 6, shut, 6, NULL, 0);
    expect("a room that cannot be written, no answer", n == FENNHOP_WRONG_BUFFER);
}

/* Very many entries: noughts, of which entry 0 is bad, and then a table with very many behind it. */
static void very_long_table(void)
{
    const size_t wide = (size_t)1 << 32, bytes = (wide + FACTORS) * sizeof(int64_t);
    const size_t counts[] = {FACTORS + 1, 65536 + FACTORS, wide / 2, wide, wide + FACTORS};
    int64_t *blank = mmap(NULL, bytes, PROT_READ | PROT_WRITE, MAP_PRIVATE | MAP_ANONYMOUS | MAP_NORESERVE, -1, 0);
    if (blank == MAP_FAILED) {
        expect("pages for a table", 0);
        return;
    }
    for (int i = 0; i < 5; i++)
        refused("very many noughts", make_with(blank, counts[i], 4, 6, 6, 3), FENNHOP_REFUSED_PROFILE_ENTRY, 0);
    refused("a table of noughts", make_with(blank, FACTORS, 4, 6, 6, 3), FENNHOP_REFUSED_PROFILE_ENTRY, 0);
    memcpy(blank, table, FACTORS * sizeof(int64_t));
    for (int i = 0; i < 5; i++)
        refused("very many entries", make_with(blank, counts[i], 4, 6, 6, 3), FENNHOP_REFUSED_PROFILE_ENTRY, FACTORS);
    is_record("the table before them", make_with(blank, FACTORS, 4, 6, 6, 3), record_made_with, 2, 1800, -35);
    munmap(blank, bytes);
}

/* What is loaded makes a record, and the march takes it. */
static void loaded_and_made(void)
{
    is_loaded("a table to make a record with", load(table_text, line_end[FACTORS], TABLE, 3));
    uint64_t n = fennhop_make_record_with(factors, FACTORS, 2800, 3100, 401, 0, 0, 0, 0, winds, 4, sites, 6, storm, 6, answer, 3);
    is_record("a record by what was loaded", n, record_made_with, 2, 0, 0);
    expect("the table as it was loaded", !memcmp(factors, table, FACTORS * sizeof(int64_t)) && same_factors(FACTORS));
    rows[0] = (fennhop_row){0, 0, 0};
    n = fennhop_take_record(300, 25, 0, points, 4, answer[1], answer[2], storm, 6, state, 2, rows, 1, NULL, 0, answer, 3);
    expect("what was made is taken", n == 0 && state[1] == 1);
}

int main(void)
{
    for (int i = 0; i < LONG; i++) {
        long_points[2 * i] = 10 * (LONG - 1 - i);
        long_points[2 * i + 1] = 500;
        long_first[3 * i] = 1000;
        long_first[3 * i + 1] = 900;
    }
    header();
    for (int i = 0; i < 2; i++) {
        const struct pair *by = pairs + i;
        counts(by);
        rows_lent(by);
        very_many_rows(by);
        accepted(by);
        started(by);
        held(by);
        ends(by);
        calms(by);
        late_calm(by);
        row_ends(by);
        point_counts(by);
        very_many_points(by);
    }
    for (size_t count = FENNHOP_PANEL_MOST_POINTS + 1; count <= LONG; count++)
        for (int e = 0; e < 2; e++)
            too_long(pairs + 1, count, end[e]);
    make_counts();
    make_ends();
    made_calms();
    make_fenced();
    deck_counts();
    deck_ends();
    deck_fenced();
    very_long_deck();
    write_table();
    load_beginnings();
    load_counts();
    load_fenced();
    very_long_text();
    table_counts();
    table_ends();
    table_first();
    table_fenced();
    very_long_table();
    loaded_and_made();
    return summary();
}

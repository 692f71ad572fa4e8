/* How much stack each call of the library uses, in bytes: the call is made on a stack that was painted, and how far the paint is gone is looked for
 * afterwards. Counted from the frame of the caller down, so what it passes on the stack is in it. Each call is made with 65 points, on the panel 17,
 * with Level C or 50 rows of winds, accepted and refused; the most of these is printed. */
#include <inttypes.h>
#include <stdio.h>
#include <stdlib.h>
#include <string.h>
#include <ucontext.h>
#include "../include/surge.h"

enum { POINTS = FENNHOP_MOST_POINTS, SEGMENTS = FENNHOP_MOST_SEGMENTS, WINDS = FENNHOP_MOST_WINDS, SIZE = 1 << 20, PAINT = 0xa5 };

static int64_t points[FENNHOP_READ_POINTS], storm[FENNHOP_READ_STORM], state[FENNHOP_STATE], answer[FENNHOP_ANSWER];
static int64_t head[FENNHOP_HEAD], cursor[FENNHOP_CURSOR], values[FENNHOP_VALUES], setup[FENNHOP_SETUP_STRIDE * SEGMENTS];
static int64_t winds[FENNHOP_WINDS_STRIDE * WINDS], sites[FENNHOP_SITES_STRIDE * POINTS], room[FENNHOP_READ_STORM];
static int64_t factors[FENNHOP_FACTORS], table_room[FENNHOP_FACTORS];
static fennhop_row rows[SEGMENTS];
static char traverse_text[4096], storm_text[8192], deck[4096], profile[16384];
static uint8_t text[4096];

static unsigned char stack[SIZE], *frame; /* the frame of the function that makes the call */
static ucontext_t here, there;
static uint64_t told;

/* What the cases change: numbers that are refused, the seconds, the bytes of text, the room for a record, for a text and for a table. */
static int64_t latitude = 430, seconds, shore_wind = 264, central_pressure = 2757;
static size_t traverse_bytes, storm_bytes, deck_bytes, profile_bytes;
static size_t room_count = FENNHOP_READ_STORM, text_count = sizeof text, table_count = FENNHOP_FACTORS;

/* The march's two calls, and with how many points they are made: those nearest to the shore. */
static struct march {
    typeof(fennhop_open_traverse) *open;
    typeof(fennhop_take_record) *take;
    size_t points;
} program = {fennhop_open_traverse, fennhop_take_record, POINTS},
  panel = {fennhop_panel_open_traverse, fennhop_panel_take_record, FENNHOP_PANEL_MOST_POINTS}, march;

static void open_traverse(void)
{
    const int64_t *lent = points + FENNHOP_POINTS_STRIDE * (POINTS - march.points);
    frame = __builtin_frame_address(0);
    told = march.open(latitude, 25, 0, lent, FENNHOP_POINTS_STRIDE * march.points, state, FENNHOP_STATE, answer, FENNHOP_ANSWER);
}

static void take_record(void)
{
    size_t first = POINTS - march.points, segments = march.points - 1;
    const int64_t *lent = points + FENNHOP_POINTS_STRIDE * first, *winds_there = storm + FENNHOP_STORM_STRIDE * first;
    storm[FENNHOP_STORM_STRIDE * SEGMENTS] = shore_wind;
    frame = __builtin_frame_address(0);
    told = march.take(latitude, 25, 0, lent, FENNHOP_POINTS_STRIDE * march.points, seconds, 0, winds_there,
                      FENNHOP_STORM_STRIDE * march.points, state, FENNHOP_STATE, rows, segments, setup, FENNHOP_SETUP_STRIDE * segments,
                      answer, FENNHOP_ANSWER);
}

static void read_traverse(void)
{
    frame = __builtin_frame_address(0);
    told = fennhop_read_traverse((const uint8_t *)traverse_text, traverse_bytes, head, FENNHOP_HEAD, points, FENNHOP_READ_POINTS, answer,
                                 FENNHOP_ANSWER);
}

static void read_record(void)
{
    cursor[0] = cursor[1] = 0;
    frame = __builtin_frame_address(0);
    told = fennhop_read_record((const uint8_t *)storm_text, storm_bytes, POINTS, cursor, FENNHOP_CURSOR, values, FENNHOP_VALUES, storm,
                               FENNHOP_READ_STORM, answer, FENNHOP_ANSWER);
}

static void make_record(void)
{
    frame = __builtin_frame_address(0);
    told = fennhop_make_record(central_pressure, 2992, 403, -300, 403, 600, 0, winds, FENNHOP_WINDS_STRIDE * WINDS, sites,
                               FENNHOP_SITES_STRIDE * POINTS, room, room_count, answer, FENNHOP_ANSWER);
}

static void make_record_with(void)
{
    frame = __builtin_frame_address(0);
    told = fennhop_make_record_with(factors, FENNHOP_FACTORS, central_pressure, 2992, 403, -300, 403, 600, 0, winds,
                                    FENNHOP_WINDS_STRIDE * WINDS, sites, FENNHOP_SITES_STRIDE * POINTS, room, room_count, answer,
                                    FENNHOP_ANSWER);
}

static void load_profile(void)
{
    frame = __builtin_frame_address(0);
    told = fennhop_load_profile((const uint8_t *)profile, profile_bytes, table_room, table_count, answer, FENNHOP_ANSWER);
}

static void read_deck(void)
{
    frame = __builtin_frame_address(0);
    told = fennhop_read_deck(latitude, 25, 0, (const uint8_t *)deck, deck_bytes, text, text_count, answer, FENNHOP_ANSWER);
}

/* Bytes between the caller's frame and the deepest one that was written. */
static long used(void (*call)(void), uint64_t number)
{
    memset(stack, PAINT, SIZE);
    getcontext(&there);
    there.uc_stack.ss_sp = stack;
    there.uc_stack.ss_size = SIZE;
    there.uc_link = &here;
    makecontext(&there, call, 0);
    swapcontext(&here, &there);
    if (told != number) {
        fprintf(stderr, "returned %" PRIu64 " and not %" PRIu64 "\n", told, number);
        exit(1);
    }
    unsigned char *deepest = stack;
    while (*deepest == PAINT)
        deepest++;
    return frame - deepest;
}

static long most(long a, long b)
{
    return a > b ? a : b;
}

/* Both texts, of the most points, and a deck of as many. */
static void write_texts(void)
{
    int t = sprintf(traverse_text, "latitude friction initial\n430 25 0\ndistance depth\n");
    int s = sprintf(storm_text, "seconds tide wind angle deficit\n"), d = 0;
    for (int i = 0; i < POINTS; i++) {
        t += sprintf(traverse_text + t, "%d %d\n", 40 * (SEGMENTS - i), 500 + 50 * (SEGMENTS - i));
        s += sprintf(storm_text + s, "0 0 %d %d 100\n", 200 + i, 900 + 10 * i);
        d += sprintf(deck + d, "DIST %d %d.0\n", i + 1, 4 * (SEGMENTS - i));
    }
    for (int i = 0; i < POINTS; i++)
        d += sprintf(deck + d, "DEPTH %d %d.5\n", i + 1, 50 + 5 * (SEGMENTS - i));
    traverse_bytes = (size_t)t;
    storm_bytes = (size_t)s;
    deck_bytes = (size_t)d;
}

/* A table that falls by nine and ends far above 0, and its text. */
static void write_profile(void)
{
    int p = sprintf(profile, "factor\n");
    for (int m = 0; m < FENNHOP_FACTORS; m++) {
        factors[m] = 10000 - 9 * m;
        p += sprintf(profile + p, "%" PRId64 "\n", factors[m]);
    }
    profile_bytes = (size_t)p;
}

/* The longest list of winds, and points from beyond its last radius to inside its first. */
static void place_points(void)
{
    for (int i = 0; i < WINDS; i++) {
        winds[FENNHOP_WINDS_STRIDE * i] = 410 + 10 * i;
        winds[FENNHOP_WINDS_STRIDE * i + 1] = 1000 - 10 * i;
    }
    for (int i = 0; i < POINTS; i++) {
        sites[FENNHOP_SITES_STRIDE * i] = -20 * (SEGMENTS - i);
        sites[FENNHOP_SITES_STRIDE * i + 1] = 0;
        sites[FENNHOP_SITES_STRIDE * i + 2] = 900 + 10 * i;
    }
}

/* A sound text of so many bytes, an empty one, and one whose last line is not closed. */
static long of_reading(void (*call)(void), size_t *length)
{
    long bytes = used(call, 0);
    size_t whole = *length;
    *length = 0;
    bytes = most(bytes, used(call, FENNHOP_REFUSED_NAMES));
    *length = whole - 1;
    bytes = most(bytes, used(call, FENNHOP_REFUSED_MALFORMED));
    *length = whole;
    return bytes;
}

static long of_opening(struct march calls)
{
    march = calls;
    latitude = -1;
    long bytes = used(open_traverse, FENNHOP_REFUSED_TRAVERSE_VALUE);
    latitude = 430;
    return most(bytes, used(open_traverse, 0));
}

/* A first and a later record, and one refused at its first and at its last value, and for a calm that has a direction. */
static long of_taking(struct march calls)
{
    march = calls;
    memset(rows, 0, sizeof rows);
    seconds = 0;
    used(open_traverse, 0);
    long bytes = used(take_record, 0);
    seconds = 600;
    bytes = most(bytes, used(take_record, 0));
    shore_wind = 2001;
    bytes = most(bytes, used(take_record, FENNHOP_REFUSED_RECORD_VALUE));
    shore_wind = 0;
    bytes = most(bytes, used(take_record, FENNHOP_REFUSED_CALM_ANGLE));
    shore_wind = 264;
    latitude = -1;
    bytes = most(bytes, used(take_record, FENNHOP_REFUSED_TRAVERSE_VALUE));
    latitude = 430;
    return bytes;
}

/* A record that is made, and one refused by the first and by the last check of its numbers. */
static long of_making(void (*make)(void))
{
    long bytes = used(make, 0);
    central_pressure = 2499;
    bytes = most(bytes, used(make, FENNHOP_REFUSED_STORM_VALUE));
    central_pressure = 2757;
    room_count = FENNHOP_READ_STORM - 1;
    bytes = most(bytes, used(make, FENNHOP_REFUSED_LENT));
    room_count = FENNHOP_READ_STORM;
    return bytes;
}

/* The same by a table that is lent, and one refused for the table's last entry. */
static long of_making_with(void)
{
    long bytes = of_making(make_record_with);
    int64_t kept = factors[FENNHOP_FACTORS - 1];
    factors[FENNHOP_FACTORS - 1] = -1;
    bytes = most(bytes, used(make_record_with, FENNHOP_REFUSED_PROFILE_ENTRY));
    factors[FENNHOP_FACTORS - 1] = kept;
    return bytes;
}

/* A table that is loaded, and one refused for its names line, in its last line, without its last entry, and where it has no room. */
static long of_loading(void)
{
    long bytes = of_reading(load_profile, &profile_bytes);
    size_t whole = profile_bytes;
    profile_bytes -= sizeof "1000\n" - 1;
    bytes = most(bytes, used(load_profile, FENNHOP_REFUSED_PROFILE_ENTRY));
    profile_bytes = whole;
    table_count--;
    bytes = most(bytes, used(load_profile, FENNHOP_REFUSED_LENT));
    table_count++;
    return bytes;
}

/* A deck that is accepted; one refused by its first and by its last check, and in its last line. */
static long of_deck(void)
{
    long bytes = used(read_deck, 0);
    latitude = -1;
    bytes = most(bytes, used(read_deck, FENNHOP_REFUSED_TRAVERSE_VALUE));
    latitude = 430;
    text_count = traverse_bytes - 1;
    bytes = most(bytes, used(read_deck, FENNHOP_REFUSED_LENT));
    text_count = sizeof text;
    deck_bytes--;
    bytes = most(bytes, used(read_deck, FENNHOP_REFUSED_MALFORMED));
    deck_bytes++;
    return bytes;
}

/* One round before, so that what the dynamic linker does once is not counted. */
int main(void)
{
    write_texts();
    write_profile();
    place_points();
    for (int round = 0; round < 2; round++) {
        long reading_traverse = of_reading(read_traverse, &traverse_bytes), reading_record = of_reading(read_record, &storm_bytes);
        long opening = of_opening(program), taking = of_taking(program), panel_opening = of_opening(panel), panel_taking = of_taking(panel);
        long making = of_making(make_record), making_with = of_making_with(), loading = of_loading(), converting = of_deck();
        if (round == 0)
            continue;
        printf("fennhop_open_traverse %ld\nfennhop_take_record %ld\n", opening, taking);
        printf("fennhop_panel_open_traverse %ld\nfennhop_panel_take_record %ld\n", panel_opening, panel_taking);
        printf("fennhop_read_traverse %ld\nfennhop_read_record %ld\n", reading_traverse, reading_record);
        printf("fennhop_make_record %ld\nfennhop_make_record_with %ld\n", making, making_with);
        printf("fennhop_load_profile %ld\nfennhop_read_deck %ld\n", loading, converting);
    }
    return 0;
}

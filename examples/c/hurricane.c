/* Moves a design hurricane past a traverse, a record each half hour, and prints the hydrograph at the shore: elapsed seconds, low and high
 * of the water level in 0.0001 ft. The storm is the example problem of TM-35; examples/hurricane/README.md says where each number comes
 * from. From the project's root:
 *
 *   tools/library
 *   cc -O2 -I include -o target/hurricane examples/c/hurricane.c target/staticlib/libsurge_c.a
 *   target/hurricane
 *
 * Given the table of a pressure profile of your own (examples/profile), it takes the deficits from that one and not from the library's:
 * target/hurricane examples/profile/holland.txt.
 *
 * Exit status: 0 a whole listing, 1 the table cannot be read or the listing cannot be written, 2 wrong usage, 3 a refusal. */
#include <inttypes.h>
#include <stdio.h>
#include <stdlib.h>
#include "surge.h"

enum { WHOLE = 0, FAILED = 1, USAGE = 2, REFUSED = 3 };

/* The traverse. Each point: distance from shore in 0.1 nautical mile, depth in 0.1 ft. */
enum { LATITUDE = 370, FRICTION = 25, INITIAL = 50, POINTS = 17 };
static const int64_t points[FENNHOP_POINTS_STRIDE * POINTS] = {
    620, 6000, 600, 3500, 550, 2400, 500, 1780, 450, 1540, 400, 1300, 350, 1150, 300, 1020, 250, 840, 200, 710,
    150, 640,  100, 560,  50,  440,  35,  400,  20,  360,  10,  330,  0,   300,
};

/* The hurricane: pressures in 0.01 inch of mercury; in 0.1 nautical mile its radius R, how far seaward of the shore its centre starts, how
 * far to the left of the traverse it passes, and how far it goes from record to record. */
enum { CENTRAL_PRESSURE = 2757, EDGE_PRESSURE = 2992, RADIUS = 350, START = 3770, LEFT = 350, GOES = 110 };

/* The track: so many records, the seconds between two, and the tide in 0.01 ft. */
enum { RECORDS = 62, SECONDS = 1800, TIDE = 250 };

/* The list of winds, from R outward: radius in 0.1 statute mile, wind in 0.1 mile per hour. */
static const int64_t winds[] = {
    403, 1065, 460, 1047, 474, 1044, 529, 1012, 610, 939, 737, 834, 921, 729,
    1161, 624, 1358, 562, 1577, 507, 1918, 425, 2577, 311, 3385, 207, 4477, 105,
};
enum { WINDS_COUNT = sizeof winds / sizeof winds[0] };

/* The wind's direction in 0.1 degree, leftward from the traverse axis, by the distance seaward of the shore, in 0.1 nautical mile, when the
 * storm starts. The curve moves shoreward with the storm. It falls through 0: -220 is 3,380. */
static const struct direction {
    int64_t distance, angle;
} directions[] = {
    {0, 1250},    {1900, 1230}, {2300, 1210}, {2600, 1180}, {2800, 1155}, {3000, 1110}, {3100, 1070}, {3200, 1020}, {3300, 955},
    {3400, 870},  {3500, 770},  {3700, 500},  {3800, 350},  {3900, 150},  {3950, 0},    {4000, -220}, {4050, -295}, {4100, -335},
    {4300, -435}, {4500, -520}, {4700, -590}, {4900, -640}, {5100, -670}, {5600, -712}, {6400, -750}, {7650, -800},
};
enum { DIRECTIONS = sizeof directions / sizeof directions[0] };

/* A file's bytes. */
struct text {
    uint8_t *bytes;
    size_t count;
};

/* What the march keeps from record to record. */
struct march {
    int64_t state[FENNHOP_STATE];
    fennhop_row rows[POINTS - 1];
};

/* A line that is lost would leave a gap in the listing: so nothing more is written once a write failed. */
static void written(int result)
{
    if (result < 0) {
        perror("standard output");
        _Exit(FAILED);
    }
}

/* Only when the last line has left the buffer is it known to be written. */
static _Noreturn void end(int status)
{
    written(fflush(stdout));
    exit(status);
}

static _Noreturn void refused(uint64_t number, const int64_t *answer)
{
    written(printf("refused %" PRIu64 " %" PRId64 "\n", number, answer[0]));
    end(REFUSED);
}

static _Noreturn void failed(const char *what)
{
    perror(what);
    exit(FAILED);
}

/* All of a file. It is read to its end, not by its size: a named pipe has none. */
static struct text whole(const char *path)
{
    struct text text = {NULL, 0};
    size_t room = 0;
    FILE *file = fopen(path, "rb");
    if (!file)
        failed(path);
    while (!feof(file)) {
        if (text.count == room) {
            room = 2 * room + 65536;
            text.bytes = realloc(text.bytes, room);
            if (!text.bytes)
                failed(path);
        }
        text.count += fread(text.bytes + text.count, 1, room - text.count, file);
        if (ferror(file))
            failed(path);
    }
    fclose(file);
    return text;
}

/* The table of a profile. Once it is loaded, its text is no longer needed. */
static void load_profile(const char *path, int64_t *factors)
{
    struct text text = whole(path);
    int64_t answer[FENNHOP_ANSWER];
    uint64_t number = fennhop_load_profile(text.bytes, text.count, factors, FENNHOP_FACTORS, answer, FENNHOP_ANSWER);
    if (number)
        refused(number, answer);
    free(text.bytes);
}

/* From nautical to statute miles, to the nearest. */
static int64_t statute(int64_t nautical)
{
    return (nautical * 11508 + (nautical < 0 ? -5000 : 5000)) / 10000;
}

/* Straight between two numbers of the curve. */
static int64_t angle_at(int64_t distance)
{
    const struct direction *d = directions;
    while (d + 2 < directions + DIRECTIONS && d[1].distance < distance)
        d++;
    int64_t fall = (d[0].angle - d[1].angle) * (distance - d[0].distance) / (d[1].distance - d[0].distance);
    return (d[0].angle - fall + 3600) % 3600;
}

/* The points in the plane: x in 0.1 statute mile along the traverse axis, the shore at 0 and the sea below it, y to the axis' left. */
static void place_points(int64_t gone, int64_t *sites)
{
    for (int i = 0; i < POINTS; i++) {
        int64_t distance = points[FENNHOP_POINTS_STRIDE * i], *site = sites + FENNHOP_SITES_STRIDE * i;
        site[0] = -statute(distance);
        site[1] = 0;
        site[2] = angle_at(distance + gone);
    }
}

/* By the library's own table where there are no factors. Both calls are given the same numbers. */
static uint64_t make(const int64_t *factors, int64_t x, int64_t seconds, const int64_t *sites, int64_t *storm, int64_t *made)
{
    const int64_t radius = statute(RADIUS), y = statute(LEFT);
    const size_t sites_count = FENNHOP_SITES_STRIDE * POINTS, storm_count = FENNHOP_STORM_STRIDE * POINTS;
    if (!factors)
        return fennhop_make_record(CENTRAL_PRESSURE, EDGE_PRESSURE, radius, x, y, seconds, TIDE, winds, WINDS_COUNT, sites, sites_count,
                                   storm, storm_count, made, FENNHOP_ANSWER);
    return fennhop_make_record_with(factors, FENNHOP_FACTORS, CENTRAL_PRESSURE, EDGE_PRESSURE, radius, x, y, seconds, TIDE, winds,
                                    WINDS_COUNT, sites, sites_count, storm, storm_count, made, FENNHOP_ANSWER);
}

/* A record from the hurricane's few numbers: `storm` is its winds, angles and deficits, made[1] and made[2] its seconds and tide. */
static void make_record(const int64_t *factors, int record, int64_t *storm, int64_t *made)
{
    int64_t gone = (int64_t)record * GOES, sites[FENNHOP_SITES_STRIDE * POINTS];
    place_points(gone, sites);
    uint64_t number = make(factors, statute(gone - START), record ? SECONDS : 0, sites, storm, made);
    if (number)
        refused(number, made);
}

/* What was made is handed on as it is. Level B: no setup is asked for, NULL and 0. */
static void take_record(struct march *m, const int64_t *storm, const int64_t *made)
{
    int64_t answer[FENNHOP_ANSWER];
    uint64_t number = fennhop_take_record(LATITUDE, FRICTION, INITIAL, points, FENNHOP_POINTS_STRIDE * POINTS, made[1], made[2], storm,
                                          FENNHOP_STORM_STRIDE * POINTS, m->state, FENNHOP_STATE, m->rows, POINTS - 1, NULL, 0, answer,
                                          FENNHOP_ANSWER);
    if (number)
        refused(number, answer);
    written(printf("%" PRId64 " %" PRId64 " %" PRId64 "\n", m->state[0], answer[1], answer[2]));
}

static void open_traverse(struct march *m)
{
    int64_t answer[FENNHOP_ANSWER];
    uint64_t number = fennhop_open_traverse(LATITUDE, FRICTION, INITIAL, points, FENNHOP_POINTS_STRIDE * POINTS, m->state, FENNHOP_STATE,
                                            answer, FENNHOP_ANSWER);
    if (number)
        refused(number, answer);
    for (int i = 0; i < POINTS - 1; i++)
        m->rows[i] = (fennhop_row){0, 0, 0}; /* a fresh traverse */
}

int main(int count, char **words)
{
    struct march march;
    int64_t storm[FENNHOP_STORM_STRIDE * POINTS], made[FENNHOP_ANSWER], table[FENNHOP_FACTORS], *factors = NULL;
    if (count > 2) {
        fputs("usage: hurricane [PROFILE]\n", stderr);
        return USAGE;
    }
    if (count == 2) {
        factors = table;
        load_profile(words[1], factors);
    }
    open_traverse(&march);
    written(puts("seconds low high"));
    for (int record = 0; record < RECORDS; record++) {
        make_record(factors, record, storm, made);
        take_record(&march, storm, made);
    }
    end(WHOLE);
}

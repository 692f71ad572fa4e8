/* The march as a harbour panel has it: a traverse of 16 segments that is laid down in the program, a storm that comes record by record on
 * standard input; it opens no file and allocates nothing. It prints the hydrograph at the shore as the records come: elapsed seconds, low
 * and high of the water level in 0.0001 ft. The traverse is TM-35's example, Chesapeake Bay Entrance (examples/panel/README.md). From the
 * project's root:
 *
 *   tools/library
 *   cc -Os -I include -Wl,--gc-sections -o target/panel examples/c/panel.c target/staticlib/libsurge_c.a
 *   target/panel < examples/panel/storm.txt
 *
 * Exit status: 0 a whole listing, 1 the records cannot be read or the listing cannot be written, 2 wrong usage, 3 a refusal. */
#include <inttypes.h>
#include <stdio.h>
#include <stdlib.h>
#include <string.h>
#include "surge.h"

enum { WHOLE = 0, FAILED = 1, USAGE = 2, REFUSED = 3 };

/* The traverse. Each point: distance from shore in 0.1 nautical mile, depth in 0.1 ft. */
enum { LATITUDE = 370, FRICTION = 25, INITIAL = 50, POINTS = 17, SEGMENTS = POINTS - 1 };
static const int64_t points[FENNHOP_POINTS_STRIDE * POINTS] = {
    620, 6000, 600, 3500, 550, 2400, 500, 1780, 450, 1540, 400, 1300, 350, 1150, 300, 1020, 250, 840, 200, 710,
    150, 640,  100, 560,  50,  440,  35,  400,  20,  360,  10,  330,  0,   300,
};

/* All that the panel keeps: 400 bytes from record to record, and the 424 of the record that comes. Rows of nought are a fresh traverse. */
static int64_t state[FENNHOP_STATE];
static fennhop_row rows[SEGMENTS];
static int64_t seconds, tide, storm[FENNHOP_STORM_STRIDE * POINTS];

/* A height that is lost would leave a gap: so nothing more is shown once that failed. */
static void written(int result)
{
    if (result < 0) {
        perror("standard output");
        _Exit(FAILED);
    }
}

static _Noreturn void end(int status)
{
    written(fflush(stdout));
    exit(status);
}

static _Noreturn void refused(uint64_t number, const int64_t *answer)
{
    written(printf("refused %" PRIu64 " %" PRId64 "\n", number, answer[0]));
    end(REFUSED);
}

/* The heights above stand, but there are records that are not shown. */
static _Noreturn void failed(const char *what)
{
    fprintf(stderr, "standard input: %s\n", what);
    written(puts("failed"));
    end(FAILED);
}

/* A line of five whole numbers, as a line of storm.txt. False where there is none, because the input ended. */
static int line_came(int64_t *number)
{
    char line[64], more;
    if (!fgets(line, sizeof line, stdin)) {
        if (ferror(stdin))
            failed("cannot be read");
        return 0;
    }
    /* no number has more than nine digits, so each fits */
    if (!strchr(line, '\n') || sscanf(line, "%10" SCNd64 " %10" SCNd64 " %10" SCNd64 " %10" SCNd64 " %10" SCNd64 " %c", number, number + 1,
                                      number + 2, number + 3, number + 4, &more) != 5)
        failed("a line that is not five numbers");
    return 1;
}

/* The next record: a line for each point, from the sea on. False where there is none. */
static int record_came(void)
{
    for (int i = 0; i < POINTS; i++) {
        int64_t number[5];
        if (!line_came(number)) {
            if (i)
                failed("ends inside a record");
            return 0;
        }
        if (i && (seconds != number[0] || tide != number[1]))
            failed("seconds or tide differ within a record");
        seconds = number[0];
        tide = number[1];
        memcpy(storm + FENNHOP_STORM_STRIDE * i, number + 2, FENNHOP_STORM_STRIDE * sizeof *number);
    }
    return 1;
}

static void open_traverse(void)
{
    int64_t answer[FENNHOP_ANSWER];
    uint64_t number = fennhop_panel_open_traverse(LATITUDE, FRICTION, INITIAL, points, FENNHOP_POINTS_STRIDE * POINTS, state,
                                                  FENNHOP_STATE, answer, FENNHOP_ANSWER);
    if (number)
        refused(number, answer);
}

/* Level B: no setup is asked for, NULL and 0. */
static void take_record(void)
{
    int64_t answer[FENNHOP_ANSWER];
    uint64_t number = fennhop_panel_take_record(LATITUDE, FRICTION, INITIAL, points, FENNHOP_POINTS_STRIDE * POINTS, seconds, tide, storm,
                                                FENNHOP_STORM_STRIDE * POINTS, state, FENNHOP_STATE, rows, SEGMENTS, NULL, 0, answer,
                                                FENNHOP_ANSWER);
    if (number)
        refused(number, answer);
    written(printf("%" PRId64 " %" PRId64 " %" PRId64 "\n", state[0], answer[1], answer[2]));
}

int main(int count, char **words)
{
    char names[64];
    (void)words;
    if (count > 1) {
        fputs("usage: panel < STORM\n", stderr);
        return USAGE;
    }
    open_traverse();
    written(puts("seconds low high"));
    if (!fgets(names, sizeof names, stdin) || strcmp(names, "seconds tide wind angle deficit\n") != 0)
        failed("no names line");
    while (record_came())
        take_record();
    end(WHOLE);
}

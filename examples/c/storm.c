/* Marches the storm of a folder over its traverse and prints the hydrograph at the shore: elapsed seconds, low and high of the water level
 * in 0.0001 ft. It reads FOLDER/traverse.txt and FOLDER/storm.txt, by default of the current folder. From the project's root:
 *
 *   tools/library
 *   cc -O2 -I include -o target/storm examples/c/storm.c target/staticlib/libsurge_c.a
 *   target/storm examples/hampton-beach
 *
 * Exit status: 0 a whole listing, 1 a file cannot be read or the listing cannot be written, 2 wrong usage, 3 a refusal. */
#include <inttypes.h>
#include <stdio.h>
#include <stdlib.h>
#include <string.h>
#include "surge.h"

enum { WHOLE = 0, FAILED = 1, USAGE = 2, REFUSED = 3 };

/* A file's bytes. */
struct text {
    uint8_t *bytes;
    size_t count;
};

/* A traverse, and what the march keeps from record to record. */
struct march {
    int64_t head[FENNHOP_HEAD];
    int64_t points[FENNHOP_READ_POINTS];
    size_t point_count;
    int64_t state[FENNHOP_STATE];
    fennhop_row rows[FENNHOP_MOST_SEGMENTS];
};

/* A line that is lost would leave a gap in the listing: so nothing more is written once a write failed. */
static void written(int result)
{
    if (result < 0) {
        perror("standard output");
        _Exit(FAILED);
    }
}

/* Only when the last line has left the buffer is it known to be written. */
static _Noreturn void end(int status)
{
    written(fflush(stdout));
    exit(status);
}

static _Noreturn void refused(uint64_t number, const int64_t *answer)
{
    written(printf("refused %" PRIu64 " %" PRId64 "\n", number, answer[0]));
    end(REFUSED);
}

/* The lines above stand, but the listing is not whole. */
static _Noreturn void failed(const char *path)
{
    perror(path);
    written(puts("failed"));
    end(FAILED);
}

/* All of a file. It is read to its end, not by its size: a named pipe has none. A file that cannot be opened counts as empty text. */
static struct text whole(const char *path)
{
    struct text text = {NULL, 0};
    size_t room = 0;
    FILE *file = fopen(path, "rb");
    while (file && !feof(file)) {
        if (text.count == room) {
            room = 2 * room + 65536;
            text.bytes = realloc(text.bytes, room);
            if (!text.bytes)
                failed(path);
        }
        text.count += fread(text.bytes + text.count, 1, room - text.count, file);
        if (ferror(file))
            failed(path);
    }
    if (file)
        fclose(file);
    return text;
}

static struct text whole_of(const char *folder, const char *name)
{
    size_t room = strlen(folder) + strlen(name) + 2;
    char *path = malloc(room);
    if (!path)
        failed(name);
    snprintf(path, room, "%s/%s", folder, name);
    struct text text = whole(path);
    free(path);
    return text;
}

/* Reading judges the text, opening judges the values. */
static void open_traverse(struct march *m, struct text text)
{
    int64_t answer[FENNHOP_ANSWER];
    uint64_t number = fennhop_read_traverse(text.bytes, text.count, m->head, FENNHOP_HEAD, m->points, FENNHOP_READ_POINTS, answer,
                                            FENNHOP_ANSWER);
    if (number)
        refused(number, answer);
    m->point_count = (size_t)answer[1];
    number = fennhop_open_traverse(m->head[0], m->head[1], m->head[2], m->points, FENNHOP_POINTS_STRIDE * m->point_count, m->state,
                                   FENNHOP_STATE, answer, FENNHOP_ANSWER);
    if (number)
        refused(number, answer);
    for (int i = 0; i < FENNHOP_MOST_SEGMENTS; i++)
        m->rows[i] = (fennhop_row){0, 0, 0}; /* a fresh traverse */
}

/* Level B: no setup is asked for, NULL and 0. For Level C lend FENNHOP_SETUP_STRIDE numbers a segment. */
static void take_record(struct march *m, const int64_t *values, const int64_t *storm)
{
    int64_t answer[FENNHOP_ANSWER];
    uint64_t number = fennhop_take_record(m->head[0], m->head[1], m->head[2], m->points, FENNHOP_POINTS_STRIDE * m->point_count,
                                          values[0], values[1], storm, FENNHOP_STORM_STRIDE * m->point_count, m->state, FENNHOP_STATE,
                                          m->rows, m->point_count - 1, NULL, 0, answer, FENNHOP_ANSWER);
    if (number)
        refused(number, answer);
    written(printf("%" PRId64 " %" PRId64 " %" PRId64 "\n", m->state[0], answer[1], answer[2]));
}

/* Record after record: the lines of those that are sound stand above a refusal. */
static void march_storm(struct march *m, struct text text)
{
    int64_t cursor[FENNHOP_CURSOR] = {0, 0}; /* at the text's beginning */
    int64_t values[FENNHOP_VALUES], storm[FENNHOP_READ_STORM], answer[FENNHOP_ANSWER];
    for (;;) {
        uint64_t number = fennhop_read_record(text.bytes, text.count, m->point_count, cursor, FENNHOP_CURSOR, values, FENNHOP_VALUES,
                                              storm, FENNHOP_READ_STORM, answer, FENNHOP_ANSWER);
        if (number)
            refused(number, answer);
        if (!answer[1]) /* the text has no more records */
            return;
        take_record(m, values, storm);
    }
}

int main(int count, char **words)
{
    struct march march;
    if (count > 2) {
        fputs("usage: storm [FOLDER]\n", stderr);
        return USAGE;
    }
    const char *folder = count == 2 ? words[1] : ".";
    struct text text = whole_of(folder, "traverse.txt");
    open_traverse(&march, text);
    free(text.bytes);
    written(puts("seconds low high"));
    text = whole_of(folder, "storm.txt");
    march_storm(&march, text);
    free(text.bytes);
    end(WHOLE);
}

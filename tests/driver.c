/* Answers the requests of tests/calls.py, tests/make_calls.py, tests/deck_calls.py and tests/profile_calls.py (their heads have the
 * protocol) through the product's libraries: opening a traverse and taking a record, on the harbour panel too, making a record, by a
 * table that is lent too, loading such a table, reading a deck through libsurge_c.a as any customer's program would, the functions
 * below the march through libprobe.a. `segment` is not exported and is answered `skip`.
 *
 * Every array that is lent stands between two guard numbers, the rows between two guard rows, a text between guard bytes, and arrays
 * that are only read are compared with a copy after the call; a number changed outside of what was lent ends the driver. Behind a deck,
 * the text of a table and the factors of one is a page that cannot be read. */
#include <errno.h>
#include <inttypes.h>
#include <stdio.h>
#include <stdlib.h>
#include <string.h>
#include <sys/mman.h>
#include "../include/surge.h"

int64_t probe_sine(int64_t angle);
int64_t probe_cosine(int64_t angle);
void probe_coefficient(int64_t wind, int64_t *out, size_t out_count);
int64_t probe_stress(int64_t wind);
void probe_force(int64_t seconds, int64_t old, int64_t new, int64_t *out, size_t out_count);
void probe_damped(int64_t c, int64_t v_low, int64_t v_high, int64_t f_low, int64_t f_high, int64_t d_low, int64_t d_high,
                  int64_t *out, size_t out_count);
int64_t probe_limiting_speed(int64_t friction, int64_t sum);
void probe_limited(int64_t speed, int64_t low, int64_t high, int64_t d_low, int64_t d_high, int64_t *out, size_t out_count);
void probe_quotient(int64_t n_low, int64_t n_high, int64_t d_low, int64_t d_high, int64_t *out, size_t out_count);

enum { WRITTEN = 100, ROOM = 4096, WHOLE = 4000, FIRST = 200 };
#define GUARD INT64_C(0x5bd1e995a5a5a5a5)
static const fennhop_row GUARD_ROW = {GUARD, GUARD, GUARD};

/* Zero pages for a count of points or of rows above 100, of which the request gives none. They cannot be written, and a call that tried
 * would end the driver; but for the first rows, which a refused call may write back as they were, and the first of a room. */
static const int64_t *blank;
static fennhop_row *blank_rows;
static int64_t *blank_room;
static uint8_t *blank_text;
static const size_t BLANK = (size_t)13 << 30; /* numbers: twice and thrice the largest count asked */
static const size_t OPEN = 1 << 16; /* bytes of rows, of a room, and of a text, that can be written */

static char *at; /* the next number of the request */

static void fail(const char *what)
{
    fflush(stdout);
    fprintf(stderr, "driver: %s\n", what);
    exit(1);
}

static int64_t number(void)
{
    char *end;
    errno = 0;
    int64_t n = strtoll(at, &end, 10);
    if (end == at || errno)
        fail("a request has too few numbers, or one past 64 bits");
    at = end;
    return n;
}

/* An array between two guards, with a copy of what was lent. */
struct lent {
    int64_t space[ROOM + 2], copy[ROOM];
    const int64_t *numbers;
    size_t count;
};

static void fill(struct lent *a, size_t count)
{
    if (count > ROOM)
        fail("an array of the request is too long for the driver");
    for (size_t i = 0; i < count; i++)
        a->copy[i] = a->space[i + 1] = number();
    a->space[0] = a->space[count + 1] = GUARD;
    a->numbers = a->space + 1;
    a->count = count;
}

static int64_t *lend(struct lent *a)
{
    return a->count ? a->space + 1 : NULL;
}

static void guarded(const struct lent *a)
{
    if (a->space[0] != GUARD || a->space[a->count + 1] != GUARD)
        fail("a number beside a lent array was changed");
}

static void unchanged(const struct lent *a)
{
    guarded(a);
    if (memcmp(a->copy, a->space + 1, a->count * sizeof(int64_t)))
        fail("an array that is only read was changed, or a refused call changed one");
}

/* COUNT and its points of `width` numbers; above 100 the count alone. */
static void points(struct lent *a, size_t width)
{
    size_t count = (size_t)number();
    if (count <= WRITTEN) {
        fill(a, count * width);
        return;
    }
    if (count * width > BLANK)
        fail("a count of points is larger than the driver's blank pages");
    fill(a, 0);
    a->numbers = blank;
    a->count = count * width;
}

static const int64_t *given(const struct lent *a)
{
    return a->count ? a->numbers : NULL;
}

static void check_given(const struct lent *a)
{
    if (a->numbers != blank)
        unchanged(a);
}

static struct lent line, storm, state, setup, answer, winds, sites, room;

/* Rows between two guard rows, with a copy of what was lent. */
static struct {
    fennhop_row space[WRITTEN + 2], copy[WRITTEN];
    fennhop_row *lent;
    size_t count;
} rows;

static int same_row(const fennhop_row *a, const fennhop_row *b)
{
    return a->low == b->low && a->high == b->high && a->cross == b->cross;
}

/* COUNT and its rows; above 100 the count alone. */
static void fill_rows(void)
{
    rows.count = (size_t)number();
    if (rows.count > WRITTEN) {
        if (rows.count > BLANK / 3)
            fail("a count of rows is larger than the driver's blank pages");
        rows.lent = blank_rows;
        return;
    }
    for (size_t i = 0; i < rows.count; i++) {
        rows.copy[i].low = number();
        rows.copy[i].high = number();
        rows.copy[i].cross = number();
        rows.space[i + 1] = rows.copy[i];
    }
    rows.space[0] = rows.space[rows.count + 1] = GUARD_ROW;
    rows.lent = rows.count ? rows.space + 1 : NULL;
}

static void guarded_rows(void)
{
    if (rows.lent == blank_rows)
        return;
    if (!same_row(&rows.space[0], &GUARD_ROW) || !same_row(&rows.space[rows.count + 1], &GUARD_ROW))
        fail("a number beside the lent rows was changed");
}

static void unchanged_rows(void)
{
    static const fennhop_row fresh;
    int all_fresh = rows.lent == blank_rows;
    size_t count = all_fresh ? OPEN / sizeof(fennhop_row) : rows.count;
    for (size_t i = 0; i < count; i++)
        if (!same_row(&rows.lent[i], all_fresh ? &fresh : &rows.copy[i]))
            fail("a refused call changed a row");
}

static void write_rows(void)
{
    printf(" %zu", rows.count);
    if (rows.lent == blank_rows)
        return;
    for (size_t i = 1; i <= rows.count; i++)
        printf(" %" PRId64 " %" PRId64 " %" PRId64, rows.space[i].low, rows.space[i].high, rows.space[i].cross);
}

static void lend_answer(void)
{
    for (int i = 0; i < FENNHOP_ANSWER; i++)
        answer.space[i + 1] = GUARD;
    answer.space[0] = answer.space[FENNHOP_ANSWER + 1] = GUARD;
    answer.numbers = answer.space + 1;
    answer.count = FENNHOP_ANSWER;
}

/* The calls of our own program and of the panel are of one type. */
typedef __typeof__(fennhop_open_traverse) opening;
typedef __typeof__(fennhop_take_record) taking;

static void open_traverse(opening *call)
{
    int64_t latitude = number(), friction = number(), initial = number();
    points(&line, FENNHOP_POINTS_STRIDE);
    static char fresh[] = "7 7";
    at = fresh;
    fill(&state, FENNHOP_STATE);
    lend_answer();
    uint64_t n = call(latitude, friction, initial, given(&line), line.count, lend(&state), state.count, lend(&answer), answer.count);
    check_given(&line);
    guarded(&state);
    guarded(&answer);
    if (n) {
        unchanged(&state);
        printf("%" PRIu64 " %" PRId64 "\n", n, answer.numbers[0]);
    } else {
        printf("0 %" PRId64 " %" PRId64 "\n", state.numbers[0], state.numbers[1]);
    }
}

static void write_all(const struct lent *a)
{
    printf(" %zu", a->count);
    for (size_t i = 0; i < a->count; i++)
        printf(" %" PRId64, a->numbers[i]);
}

static void take_record(taking *call)
{
    int64_t latitude = number(), friction = number(), initial = number();
    points(&line, FENNHOP_POINTS_STRIDE);
    fill(&state, FENNHOP_STATE);
    fill_rows();
    fill(&setup, (size_t)number());
    int64_t seconds = number(), tide = number();
    points(&storm, FENNHOP_STORM_STRIDE);
    lend_answer();
    uint64_t n = call(latitude, friction, initial, given(&line), line.count, seconds, tide, given(&storm), storm.count, lend(&state),
                      state.count, rows.lent, rows.count, lend(&setup), setup.count, lend(&answer), answer.count);
    check_given(&line);
    check_given(&storm);
    guarded(&state);
    guarded_rows();
    guarded(&setup);
    guarded(&answer);
    if (n) {
        unchanged(&state);
        unchanged_rows();
        unchanged(&setup);
    }
    printf("%" PRIu64 " %" PRId64 " %" PRId64 " %" PRId64 " %" PRId64 " %" PRId64, n, answer.numbers[0], answer.numbers[1],
           answer.numbers[2], state.numbers[0], state.numbers[1]);
    write_rows();
    write_all(&setup);
    putchar('\n');
}

/* COUNT and so many numbers; above 4,000 the count alone, and the pages for it. */
static void array(struct lent *a, const int64_t *pages)
{
    size_t count = (size_t)number();
    if (count <= WHOLE) {
        fill(a, count);
        return;
    }
    if (count > BLANK)
        fail("a count of numbers is larger than the driver's blank pages");
    fill(a, 0);
    a->numbers = pages;
    a->count = count;
}

/* The room as the call left it: of blank pages the first numbers, which are set to 0 again, behind which nothing was written. */
static void write_room(void)
{
    if (room.numbers != blank_room) {
        guarded(&room);
        write_all(&room);
        return;
    }
    printf(" %zu", room.count);
    for (size_t i = 0; i < OPEN / sizeof(int64_t); i++) {
        if (i < FIRST)
            printf(" %" PRId64, blank_room[i]);
        else if (blank_room[i])
            fail("a number far behind what is written was changed");
    }
    memset(blank_room, 0, FIRST * sizeof(int64_t));
}

/* Factors in front of a page that cannot be read, with a copy of what was lent. */
enum { FACTORS = 200000 };
static struct {
    int64_t copy[FACTORS], *end;
    const int64_t *numbers;
    size_t count;
} factors;

/* COUNT and so many factors; above 200,000 the count alone, and blank pages. */
static void fill_factors(void)
{
    factors.count = (size_t)number();
    factors.numbers = blank;
    if (factors.count > FACTORS) {
        if (factors.count > BLANK)
            fail("a count of factors is larger than the driver's blank pages");
        return;
    }
    int64_t *lent = factors.end - factors.count;
    for (size_t i = 0; i < factors.count; i++)
        lent[i] = factors.copy[i] = number();
    lent[-1] = GUARD;
    factors.numbers = factors.count ? lent : NULL;
}

static void unchanged_factors(void)
{
    if (factors.numbers == blank)
        return;
    const int64_t *lent = factors.end - factors.count;
    if (lent[-1] != GUARD || memcmp(lent, factors.copy, factors.count * sizeof(int64_t)))
        fail("a factor, or the number before them, was changed");
}

/* Blank pages are lent as they are. */
static int64_t *lend_room(void)
{
    return room.numbers == blank_room ? blank_room : lend(&room);
}

/* By the table of the request, or by the library's own. */
static void make_record(int with_factors)
{
    if (with_factors)
        fill_factors();
    int64_t centre = number(), edge = number(), radius = number(), x = number(), y = number(), seconds = number(), tide = number();
    array(&winds, blank);
    array(&sites, blank);
    array(&room, blank_room);
    fill(&answer, (size_t)number());
    uint64_t n;
    if (with_factors) {
        n = fennhop_make_record_with(factors.numbers, factors.count, centre, edge, radius, x, y, seconds, tide, given(&winds),
                                     winds.count, given(&sites), sites.count, lend_room(), room.count, lend(&answer), answer.count);
        unchanged_factors();
    } else {
        n = fennhop_make_record(centre, edge, radius, x, y, seconds, tide, given(&winds), winds.count, given(&sites), sites.count,
                                lend_room(), room.count, lend(&answer), answer.count);
    }
    check_given(&winds);
    check_given(&sites);
    guarded(&answer);
    printf("%" PRIu64, n);
    write_all(&answer);
    write_room();
    putchar('\n');
}

/* Bytes of a request, and guards beside them. */
enum { BYTES = 4000000, FIRST_BYTES = 1000, FENCE = 64, FENCE_BYTE = 0x5b };

/* A deck or the text of a table, in front of a page that cannot be read, with a copy of what was lent. */
static struct {
    uint8_t copy[BYTES], *end;
    size_t count;
} bytes;

static int all_fence(const uint8_t *fence)
{
    for (int i = 0; i < FENCE; i++)
        if (fence[i] != FENCE_BYTE)
            return 0;
    return 1;
}

/* Two hex digits a byte, `-` for no byte. */
static void fill_bytes(void)
{
    static const char hex[] = "0123456789abcdef";
    at += *at == ' ';
    bytes.count = strspn(at, hex) / 2;
    if (bytes.count > BYTES)
        fail("a text of the request is too long for the driver");
    for (size_t i = 0; i < bytes.count; i++)
        bytes.copy[i] = (uint8_t)(16 * (strchr(hex, at[2 * i]) - hex) + (strchr(hex, at[2 * i + 1]) - hex));
    memcpy(bytes.end - bytes.count, bytes.copy, bytes.count);
    memset(bytes.end - bytes.count - FENCE, FENCE_BYTE, FENCE);
}

static const uint8_t *lend_bytes(void)
{
    return bytes.count ? bytes.end - bytes.count : NULL;
}

static void unchanged_bytes(void)
{
    if (!all_fence(bytes.end - bytes.count - FENCE))
        fail("a byte before the text that is read was changed");
    if (memcmp(bytes.end - bytes.count, bytes.copy, bytes.count))
        fail("the text that is read was changed");
}

static uint8_t text_space[FENCE + BYTES + FENCE];

/* Room for a text: bytes that no text has; above 4,000,000 blank pages. */
static uint8_t *lend_text(size_t count)
{
    if (count > BYTES) {
        if (count > BLANK * sizeof(int64_t))
            fail("a count of bytes is larger than the driver's blank pages");
        return blank_text;
    }
    memset(text_space, FENCE_BYTE, FENCE);
    memset(text_space + FENCE + count, FENCE_BYTE, FENCE);
    for (size_t i = 0; i < count; i++)
        text_space[FENCE + i] = (uint8_t)(151 + i % 97);
    return count ? text_space + FENCE : NULL;
}

/* The text as the call left it; of blank pages the first bytes, behind which nothing was written. */
static void write_text(const uint8_t *text, size_t count)
{
    if (text == blank_text) {
        for (size_t i = FIRST_BYTES; i < OPEN; i++)
            if (text[i])
                fail("a byte far behind what is written was changed");
        count = FIRST_BYTES;
    } else if (!all_fence(text_space) || !all_fence(text_space + FENCE + count)) {
        fail("a byte beside the text was changed");
    }
    putchar(' ');
    if (count == 0)
        putchar('-');
    for (size_t i = 0; i < count; i++) {
        putchar("0123456789abcdef"[text[i] >> 4]);
        putchar("0123456789abcdef"[text[i] & 15]);
    }
}

/* What reading the text of a traverse answers, and where it is accepted head and points. */
static void read_back(const uint8_t *text, size_t count)
{
    int64_t head[FENNHOP_HEAD], points_read[FENNHOP_READ_POINTS], told[FENNHOP_ANSWER];
    uint64_t n = fennhop_read_traverse(text, count, head, FENNHOP_HEAD, points_read, FENNHOP_READ_POINTS, told, FENNHOP_ANSWER);
    printf(" %" PRIu64 " %" PRId64 " %" PRId64 " %" PRId64, n, told[0], told[1], told[2]);
    for (int i = 0; n == 0 && i < FENNHOP_HEAD; i++)
        printf(" %" PRId64, head[i]);
    for (int i = 0; n == 0 && i < FENNHOP_POINTS_STRIDE * told[1]; i++)
        printf(" %" PRId64, points_read[i]);
}

static void read_deck(void)
{
    int64_t latitude = number(), friction = number(), initial = number();
    size_t room_count = (size_t)number();
    uint8_t *text = lend_text(room_count);
    fill(&answer, (size_t)number());
    fill_bytes();
    uint64_t n = fennhop_read_deck(latitude, friction, initial, lend_bytes(), bytes.count, text, room_count, lend(&answer), answer.count);
    unchanged_bytes();
    guarded(&answer);
    printf("%" PRIu64, n);
    write_all(&answer);
    write_text(text, room_count);
    if (n == 0) {
        size_t count = (size_t)answer.numbers[1];
        if (count > room_count || (text == blank_text && count > OPEN))
            fail("a text longer than its room");
        read_back(text, count);
    }
    putchar('\n');
    if (text == blank_text)
        memset(text, 0, FIRST_BYTES);
}

/* What is lent as room for a table: numbers that no table has, or noughts of blank pages. */
static int64_t lent_number(size_t i)
{
    return room.numbers == blank_room ? 0 : -8000001 - (int64_t)i;
}

static void lend_numbers(size_t count)
{
    if (count > BLANK)
        fail("a count of numbers is larger than the driver's blank pages");
    fill(&room, 0);
    room.count = count;
    if (count > WHOLE) {
        room.numbers = blank_room;
        return;
    }
    for (size_t i = 0; i < count; i++)
        room.space[i + 1] = lent_number(i);
    room.space[count + 1] = GUARD;
}

/* The room up to the last number that is not as it was lent; blank pages are set to 0 again. */
static void write_left(void)
{
    size_t looked_at = room.count, left = 0;
    if (room.numbers == blank_room)
        looked_at = OPEN / sizeof(int64_t);
    else
        guarded(&room);
    for (size_t i = 0; i < looked_at; i++)
        if (room.numbers[i] != lent_number(i))
            left = i + 1;
    printf(" %zu", left);
    for (size_t i = 0; i < left; i++)
        printf(" %" PRId64, room.numbers[i]);
    if (room.numbers == blank_room)
        memset(blank_room, 0, left * sizeof(int64_t));
}

static void load_profile(void)
{
    lend_numbers((size_t)number());
    fill(&answer, (size_t)number());
    fill_bytes();
    uint64_t n = fennhop_load_profile(lend_bytes(), bytes.count, lend_room(), room.count, lend(&answer), answer.count);
    unchanged_bytes();
    guarded(&answer);
    printf("%" PRIu64, n);
    write_all(&answer);
    write_left();
    putchar('\n');
}

static void write_pair(const int64_t *r)
{
    printf("%" PRId64 " %" PRId64 "\n", r[0], r[1]);
}

static void coefficient(void)
{
    int64_t wind = number(), out[2];
    probe_coefficient(wind, out, 2);
    write_pair(out);
}

static void force(void)
{
    int64_t seconds = number(), old = number(), new = number(), out[2];
    probe_force(seconds, old, new, out, 2);
    write_pair(out);
}

static void flux(void)
{
    int64_t v0 = number(), v1 = number(), f0 = number(), f1 = number(), c = number(), d0 = number(), d1 = number(), out[2];
    probe_damped(c, v0, v1, f0, f1, d0, d1, out, 2);
    write_pair(out);
}

static void limiting_speed(void)
{
    int64_t friction = number(), sum = number();
    printf("%" PRId64 "\n", probe_limiting_speed(friction, sum));
}

/* The range of the step before the limit, and then held. */
static void held(void)
{
    int64_t speed = number(), v0 = number(), v1 = number(), f0 = number(), f1 = number(), c = number(), d0 = number(), d1 = number();
    int64_t free_range[2], out[2];
    probe_damped(c, v0, v1, f0, f1, d0, d1, free_range, 2);
    probe_limited(speed, free_range[0], free_range[1], d0, d1, out, 2);
    write_pair(out);
}

/* The gain is a quotient of the library; its numerator is formed here, by document 01's step 3. */
static void gain(void)
{
    int64_t x = number(), s = number(), v0 = number(), v1 = number(), y = number(), d0 = number(), d1 = number(), out[2];
    int64_t low = x * (2748816 * s * v0 + 2030 * y), high = x * (2748816 * s * v1 + 2030 * y);
    probe_quotient(low, high, 1000000000 * d0, 1000000000 * d1, out, 2);
    write_pair(out);
}

static void one(int64_t (*function)(int64_t))
{
    printf("%" PRId64 "\n", function(number()));
}

static void request(char *text)
{
    char *word = text;
    at = text + strcspn(text, " \n");
    if (*at)
        *at++ = '\0';
    if (!strcmp(word, "record"))
        take_record(fennhop_take_record);
    else if (!strcmp(word, "panel_record"))
        take_record(fennhop_panel_take_record);
    else if (!strcmp(word, "open"))
        open_traverse(fennhop_open_traverse);
    else if (!strcmp(word, "panel_open"))
        open_traverse(fennhop_panel_open_traverse);
    else if (!strcmp(word, "make"))
        make_record(0);
    else if (!strcmp(word, "make_with"))
        make_record(1);
    else if (!strcmp(word, "profile"))
        load_profile();
    else if (!strcmp(word, "deck"))
        read_deck();
    else if (!strcmp(word, "force"))
        force();
    else if (!strcmp(word, "flux"))
        flux();
    else if (!strcmp(word, "speed"))
        limiting_speed();
    else if (!strcmp(word, "held"))
        held();
    else if (!strcmp(word, "gain"))
        gain();
    else if (!strcmp(word, "sine"))
        one(probe_sine);
    else if (!strcmp(word, "cosine"))
        one(probe_cosine);
    else if (!strcmp(word, "coefficient"))
        coefficient();
    else if (!strcmp(word, "stress"))
        one(probe_stress);
    else
        puts("skip");
}

/* Pages of zeros that cannot be written. */
static void *zeros(void)
{
    void *pages = mmap(NULL, BLANK * sizeof(int64_t), PROT_READ, MAP_PRIVATE | MAP_ANONYMOUS | MAP_NORESERVE, -1, 0);
    if (pages == MAP_FAILED)
        fail("no blank pages");
    return pages;
}

/* The end of pages for so many bytes and what stands before them; what is behind it cannot be read. */
static void *end_of_pages(size_t count)
{
    const size_t page = 1 << 16, size = count / page * page + 2 * page;
    uint8_t *pages = mmap(NULL, size + page, PROT_READ | PROT_WRITE, MAP_PRIVATE | MAP_ANONYMOUS, -1, 0);
    if (pages == MAP_FAILED || mprotect(pages + size, page, PROT_NONE))
        fail("no pages for a text or for factors");
    return pages + size;
}

int main(void)
{
    static char in[1 << 20], out[1 << 20];
    char *text = NULL;
    size_t size = 0;
    setvbuf(stdin, in, _IOFBF, sizeof in);
    setvbuf(stdout, out, _IOFBF, sizeof out);
    blank = zeros();
    blank_rows = zeros();
    blank_room = zeros();
    blank_text = zeros();
    if (mprotect(blank_rows, OPEN, PROT_READ | PROT_WRITE) || mprotect(blank_room, OPEN, PROT_READ | PROT_WRITE) ||
        mprotect(blank_text, OPEN, PROT_READ | PROT_WRITE))
        fail("no blank rows, room or text");
    bytes.end = end_of_pages(BYTES);
    factors.end = end_of_pages(sizeof factors.copy);
    while (getline(&text, &size, stdin) > 0)
        request(text);
    if (ferror(stdin) || fflush(stdout))
        fail("reading or writing failed");
    return 0;
}

/* surge.h: storm surge at an open coast, for programs in C and in languages that call C.
 *
 * The bathystrophic method of CERC Technical Memorandum 35 along a traverse from the shelf edge to the shore, in whole-number
 * ranges: each height, flux and setup is a low and a high end, rounded outward, and the march in exact fractions lies between them.
 * Link with libsurge_c.a; it needs no other library but C's own (memcpy and memset of it), allocates nothing, keeps nothing between
 * calls, prints nothing and never fails otherwise than by the numbers below. Calls from several threads at once are safe where they do
 * not share an array that a call may write.
 *
 * A STORM is marched by one call of fennhop_open_traverse, rows set to 0, and then one call of fennhop_take_record for each record
 * in order. A record CLOSES an interval: its winds, tide and deficits are those at the end of its seconds.
 *
 * THE FLUX that a record leaves in each segment's row is held by the limiting flux of TM-35's errata: it is no larger than c, the water
 * depth times b / 1,000, where b is the greatest whole number with 225,000 * friction * b * b not above 242 times the size of the cross
 * sum that the same record leaves in the row. What lies above c becomes c and what lies below -c becomes -c, for each flux and depth in
 * their ranges; a record whose cross sum is 0 leaves no flux. The first record leaves 0 and is not held.
 *
 * THE TEXT of a traverse and of a storm, in the form of traverse.txt and storm.txt and held whole by the caller, is read into such
 * numbers by fennhop_read_traverse and fennhop_read_record. No value is judged by its limits there: that is for the two calls above.
 *
 * ON A HARBOUR PANEL, where there is little memory, the march is called by fennhop_panel_open_traverse and fennhop_panel_take_record. They
 * are the two calls above with another limit: a traverse has 2 to 17 points, 16 segments. One with 18 to 65 points is refused (19) and
 * one that has more, or fewer than 2, as ever (5). Of a traverse that the panel takes, both pairs of calls answer and leave the same
 * numbers, and a storm may go from one pair to the other between two records. Linked with -Wl,--gc-sections, a program has of the
 * library what it calls and no more.
 *
 * A HURRICANE that is held by its few numbers (pressures at the centre and at the edge, radius R of greatest wind, a list of winds by
 * radius, a track) is turned into records by fennhop_make_record, one call for one place of the track. At each point, with r its
 * distance from the centre, rounded down: the deficit is (edge - centre) * (1 - e^(-R/r)), equations 31 and 33 of TM-35, rounded down,
 * e^(-R/r) being the nearest ten-thousandth, with R/r rounded down to hundredths, 10 at most, and 10 where r is 0; the wind is that of
 * the list at r, straight between two rows and rounded down, the first row's inside its radius and the last row's beyond its own; the
 * angle is the one given, or 0 where the wind is 0. Seconds and tide are passed on as they are given: they, and the elapsed time, may
 * still be refused by fennhop_take_record (9, place 0). Every other number of a record that was made passes checks 9 and 18.
 *
 * A PRESSURE PROFILE OF YOUR OWN takes the place of e^(-R/r), which is Myers'. Its table has FENNHOP_FACTORS entries, by hundredths of
 * R/r from 0 to 10. Each is in ten-thousandths: the deficit is (edge - centre) * (10,000 - entry) / 10,000, rounded down. Entry 0 is
 * 10,000, no entry is above the one before it, and none is below 0. fennhop_load_profile reads the table from a text of a names line
 * `factor` and a line for each entry, entry 0 first; fennhop_make_record_with makes a record by any such table as fennhop_make_record
 * does by its own, and judges it first (20), whoever made it.
 *
 * AN OLD CARD DECK, the DIST and DEPTH cards of TM-50 as text and held whole by the caller, is turned into the text of traverse.txt by
 * fennhop_read_deck; latitude, friction and initial level are given. A card is a line: a word, a card number and one to six numbers,
 * one space between two of them and a line feed behind the last. A word is any bytes but space and line feed, a card number one to
 * eight digits, and so is a number, with at most one point before, between or behind them. DIST cards come first, with distances in
 * nautical miles from shore; then DEPTH cards, with depths in feet. Both are numbered from 1. A deck may have any number of points:
 * count, values and distances are judged where the text that was written is read (5) and opened (6, 7).
 *
 * NUMBERS AND LIMITS. All are whole numbers, int64_t. Both ends of a limit are allowed.
 *
 *   latitude           0.1 degree north                           0 to 900
 *   friction           0.0001                                     10 to 50
 *   initial level      0.01 ft                                    -1,000 to 1,000
 *   distance           0.1 nautical mile from shore               0 to 6,400, each 1 to 100 less than the one before, the last 0
 *   depth              0.1 ft                                     0 to 10,000
 *   seconds            s                                          0 in the first record, 1 to 3,600 in a later one
 *   tide               0.01 ft                                    -2,000 to 2,000
 *   wind               0.1 mile per hour                          0 to 2,000
 *   angle              0.1 degree, counted leftward from the
 *                      traverse axis, which points shoreward      0 to 3,599; 0 where the wind is 0
 *   deficit            0.01 inch of mercury                       0 to 300
 *   flux               0.01 ft2/s along the shore                 -1,000,000 to 1,000,000
 *   cross sum          10^-13 mph2, sum of two stresses           -2,572,800,000,000 to 2,572,800,000,000
 *   setup, height      0.0001 ft                                  setup -1,000,000 to 1,000,000
 *   elapsed            s since the first record                   0 to 1,000,000,000
 *
 * and for making a record, where a mile is statute or nautical, the same for all lengths (a nautical mile is 1.1508 statute miles):
 *
 *   central pressure   0.01 inch of mercury                       2,500 to 3,200
 *   edge pressure      0.01 inch of mercury                       2,500 to 3,200, 0 to 300 above the central pressure
 *   R                  0.1 mile                                   1 to 2,000
 *   x, y               0.1 mile, in a plane of the caller's       -10,000 to 10,000
 *   list's radius      0.1 mile from the centre                   0 to 30,000, each above the one before
 *
 * A number of a card is a decimal one, and a whole count of tenths: 12.5, 12.50, 0012.5, 12. and .5 are; 12.55 is not.
 *
 * ARRAYS. Each is a pointer and, right after it, a count: of rows for `rows`, of bytes for `text` and `deck`, and for every other array
 * of its numbers (not of points). All are the caller's: they are used during the call alone, and the library keeps no pointer. Arrays
 * marked const are only read. A pointer may be NULL where its count is 0, and only there; otherwise it points to so many of them,
 * aligned as C aligns their type. Arrays that a call may write must not overlap each other nor an array that it reads.
 *
 *   points   FENNHOP_POINTS_STRIDE numbers a point, sea to shore: distance, depth. 2 to 65 points; on the panel 2 to 17.
 *   storm    FENNHOP_STORM_STRIDE numbers a point, in the order of the traverse: wind, angle, deficit.
 *   state    FENNHOP_STATE numbers: elapsed seconds; 0 before the first accepted record, 1 after it (any number but 0 is read as 1).
 *            fennhop_open_traverse sets it; every accepted record moves it on. Plain numbers: keep, copy or store them as you like.
 *   rows     a fennhop_row for each segment, sea to shore: low and high of the flux, cross sum. All 0 for a fresh traverse. A segment
 *            lies between two neighbouring points, so there are points - 1 of them.
 *   setup    Level B: no numbers (count 0). Level C: FENNHOP_SETUP_STRIDE numbers a segment, which an accepted record sets to the
 *            setup range after each segment: low, high.
 *   answer   FENNHOP_ANSWER numbers, set by every call that returns anything but FENNHOP_WRONG_BUFFER:
 *            [0] the place of a refusal, else 0; [1], [2] low and high of the height at the shore where a record is accepted, else 0.
 *            Reading a text: [1] the points of the traverse, or 1 where a record was read; else 0. [2] is 0.
 *            Making a record: [1], [2] seconds and tide as given where it is made, else 0.
 *            Reading a deck: [1] the bytes of the text that was written, else 0. [2] is 0.
 *
 * and for reading a text:
 *
 *   text     bytes, uint8_t, only read; any bytes, any count.
 *   head     FENNHOP_HEAD numbers: latitude, friction, initial level.
 *   points   FENNHOP_READ_POINTS numbers: as above for as many points as answer[1] says, then 0. The march's two calls are given
 *            FENNHOP_POINTS_STRIDE * answer[1] as their count.
 *   cursor   FENNHOP_CURSOR numbers: the bytes and the lines of the storm's text that were read so far. 0 and 0 to begin; a record
 *            that is read moves it past its lines. A negative number is read as 0; a cursor past the text is at its end.
 *   values   FENNHOP_VALUES numbers: seconds, tide.
 *   storm    FENNHOP_READ_STORM numbers: as above for each point of the traverse, then 0. The march's call is given
 *            FENNHOP_STORM_STRIDE times the points as its count.
 *
 * and for making a record:
 *
 *   winds    FENNHOP_WINDS_STRIDE numbers a row of the list, from the centre outward: radius, wind. 1 to 50 rows.
 *   sites    FENNHOP_SITES_STRIDE numbers a point, in the order of the traverse: x, y, angle (0 to 3,599, whatever the wind). 2 to 65
 *            points.
 *   storm    room for FENNHOP_STORM_STRIDE numbers a point of `sites` or more, which a record that is made sets as above; spare room
 *            behind them stays as it was. The march's call is given FENNHOP_STORM_STRIDE times the points as its count: room of just
 *            so many numbers is handed on as it is, and answer[1] and answer[2] with it as seconds and tide.
 *
 * and for a profile of your own:
 *
 *   text     bytes, uint8_t, only read; any bytes, any count.
 *   factors  fennhop_load_profile: room for FENNHOP_FACTORS numbers or more, which a table that is accepted sets from its front on;
 *            spare room behind them stays as it was. fennhop_make_record_with: the table, FENNHOP_FACTORS numbers, only read.
 *
 * and for reading a deck:
 *
 *   deck     bytes, uint8_t, only read; any bytes, any count.
 *   text     room for the text of traverse.txt, bytes, uint8_t, which a deck that is accepted sets from its front on; spare room
 *            behind it stays as it was. fennhop_read_traverse is given answer[1] as its count.
 *
 * WHAT A CALL RETURNS: 0 where it is accepted, else the number of the first refusal, with its place in answer[0] (lines, points, rows
 * and segments count from 1, entries of a profile from 0). Each number has a name below. The march's two calls make checks 5 to 9, 18
 * and 10 to 12 alone, in this order, and on the panel 19 directly after 5; the two that read the text of a traverse or of a storm return
 * 1 to 5 alone, fennhop_make_record 13, 14 and 8 alone, fennhop_make_record_with 20 and then these, fennhop_load_profile 1, 2, 20 and 8
 * alone, and fennhop_read_deck 6, 3, 2, 15, 16, 17 and 8 alone, in the order told at each.
 *
 *    1  a names line different, or the text empty                                    line; 1 if empty
 *    2  a value line malformed, or a wrong count of values                           line
 *       reading a deck: a line that has not the shape of a card                      line
 *    3  the text ends inside a record, or before the value line, the first point
 *       or the first record                                                          last line
 *       reading a deck: a deck of no bytes                                           0
 *    4  seconds or tide differ within a record                                       line
 *    5  fewer than 2 or more than 65 points                                          points given
 *    6  a value of the traverse past its limits                                      point; 0 for latitude, friction, initial level
 *    7  distances break their rule                                                   point
 *    8  rows not one for each segment, points of the record not as many as of the
 *       traverse, setup neither 0 nor two numbers a segment (place 0); or a row
 *       whose low is above its high or that is past its limits                       row
 *       making a record, loading a profile, reading a deck: room for fewer numbers
 *       or bytes than it writes                                                      0
 *    9  a value of the record past its limits                                        point; 0 for seconds, tide, elapsed
 *   10  water depth past 100 to 100,000 (0.01 ft)                                    segment
 *   11  flux past its limits, though held                                            segment
 *   12  setup past its limits                                                        segment
 *   13  making a record: a pressure, R, the centre or a count past its limits
 *       (place 0); a radius or a wind of the list; x, y or angle of a point          row of the list; point
 *   14  making a record: a radius of the list not above the one before               row, the later of the two
 *   15  reading a deck: a wrong word, or a wrong card number                         line
 *   16  reading a deck: a number that is no whole count of tenths                    line
 *   17  reading a deck: not as many depths as distances                              distances given
 *   18  a wind of 0 with an angle other than 0                                       point
 *   19  on the panel: 18 to 65 points                                                points given
 *   20  a profile of your own: the first entry that is bad, missing or one too many
 *       (entry 1,001)                                                                entry, from 0
 *
 * FENNHOP_WRONG_BUFFER: `state`, `answer`, or what the text of a traverse or of a storm is read into, is not as long as it has to be; no
 * check was made and nothing was written, the answer neither.
 *
 * A count that is no multiple of the numbers of a point, or of a row of the list, counts as none at all: 5, place 0, for `points`, 8,
 * place 0, for `storm`, 13, place 0, for `sites` and `winds`. Room may have any count from what is written on. An elapsed time in
 * `state` that is itself past its limits is 9, place 0. All points are judged by 9 before the first is judged by 18. Within a segment
 * 10 comes before 11 and 11 before 12, and all three before the next segment.
 *
 * A refused call writes nothing but its answer: state, rows and setup stay exactly as they were, so the caller may mend the record and
 * call again. A refused reading leaves head, points, cursor, values and storm exactly as they were, and a record that is not made
 * leaves its room so, as does a deck or a profile that is refused.
 *
 * STACK that a call needs, from its caller's frame down, as measured on x86-64 (bench/stack.c) and rounded up to a multiple of 512.
 * What a dynamic linker needs to find memcpy the first time is not in it.
 *
 *   fennhop_open_traverse         512 bytes
 *   fennhop_take_record         5,120 bytes
 *   fennhop_panel_open_traverse   512 bytes
 *   fennhop_panel_take_record   2,048 bytes
 *   fennhop_read_traverse       1,536 bytes
 *   fennhop_read_record         2,048 bytes
 *   fennhop_make_record           512 bytes
 *   fennhop_make_record_with      512 bytes
 *   fennhop_load_profile          512 bytes
 *   fennhop_read_deck             512 bytes
 */
#ifndef FENNHOP_SURGE_H
#define FENNHOP_SURGE_H

#include <stddef.h>
#include <stdint.h>

#ifdef __cplusplus
extern "C" {
#endif

/* The version of this header and its library; the number is 10,000 * major + 100 * minor + patch. */
#define FENNHOP_VERSION "3.1.0"
#define FENNHOP_VERSION_NUMBER 30100

/* The most points of a traverse, and the most segments between them; and the same on the panel. */
#define FENNHOP_MOST_POINTS 65
#define FENNHOP_MOST_SEGMENTS 64
#define FENNHOP_PANEL_MOST_POINTS 17
#define FENNHOP_PANEL_MOST_SEGMENTS 16

/* The most rows of a list of winds. */
#define FENNHOP_MOST_WINDS 50

/* The entries of a table of factors. */
#define FENNHOP_FACTORS 1001

/* Numbers a point of `points`, a point of `storm`, a segment of `setup`, a row of `winds`, a point of `sites`. */
#define FENNHOP_POINTS_STRIDE 2
#define FENNHOP_STORM_STRIDE 3
#define FENNHOP_SETUP_STRIDE 2
#define FENNHOP_WINDS_STRIDE 2
#define FENNHOP_SITES_STRIDE 3

/* Numbers of the arrays that have one length. */
#define FENNHOP_STATE 2
#define FENNHOP_ANSWER 3
#define FENNHOP_HEAD 3
#define FENNHOP_READ_POINTS 130 /* FENNHOP_POINTS_STRIDE * FENNHOP_MOST_POINTS */
#define FENNHOP_CURSOR 2
#define FENNHOP_VALUES 2
#define FENNHOP_READ_STORM 195 /* FENNHOP_STORM_STRIDE * FENNHOP_MOST_POINTS */

/* What is returned: the refusals, by the table above. */
#define FENNHOP_REFUSED_NAMES 1           /* a names line different, or the text empty */
#define FENNHOP_REFUSED_MALFORMED 2       /* a value line malformed, or a wrong count of values */
#define FENNHOP_REFUSED_ENDED 3           /* the text ends inside a record, or before the value line, the first point or record */
#define FENNHOP_REFUSED_DIFFERS 4         /* seconds or tide differ within a record */
#define FENNHOP_REFUSED_POINTS 5          /* fewer than 2 or more than 65 points */
#define FENNHOP_REFUSED_TRAVERSE_VALUE 6  /* a value of the traverse past its limits */
#define FENNHOP_REFUSED_DISTANCE 7        /* distances break their rule */
#define FENNHOP_REFUSED_LENT 8            /* rows, points of the record, setup or room do not fit, or a row past its limits */
#define FENNHOP_REFUSED_RECORD_VALUE 9    /* a value of the record, or the elapsed time, past its limits */
#define FENNHOP_REFUSED_DEPTH 10          /* water depth past its limits */
#define FENNHOP_REFUSED_FLUX 11           /* flux past its limits */
#define FENNHOP_REFUSED_SETUP 12          /* setup past its limits */
#define FENNHOP_REFUSED_STORM_VALUE 13    /* a value or a count that a record is made from past its limits */
#define FENNHOP_REFUSED_WIND_RADII 14     /* radii of the list of winds do not rise */
#define FENNHOP_REFUSED_CARD_ORDER 15     /* a wrong word or card number of a deck */
#define FENNHOP_REFUSED_CARD_UNIT 16      /* a number of a deck that is no whole count of tenths */
#define FENNHOP_REFUSED_CARD_COUNTS 17    /* not as many depths of a deck as distances */
#define FENNHOP_REFUSED_CALM_ANGLE 18     /* a wind of 0 with an angle other than 0 */
#define FENNHOP_REFUSED_PANEL_POINTS 19   /* on the panel: more than 17 points, and no more than 65 */
#define FENNHOP_REFUSED_PROFILE_ENTRY 20  /* an entry of a pressure profile that is bad, missing or one too many */

/* Returned where an array that has one length is lent with another. */
#define FENNHOP_WRONG_BUFFER 255

/* What the march keeps of a segment: the range of its flux, and its last sum of two cross stresses. */
typedef struct fennhop_row {
    int64_t low, high, cross;
} fennhop_row;

/* Opens a traverse: checks 5 to 7. Accepted: state is that of a fresh traverse. Refused: state is left as it was. */
uint64_t fennhop_open_traverse(int64_t latitude, int64_t friction, int64_t initial,
                               const int64_t *points, size_t points_count,
                               int64_t *state, size_t state_count,
                               int64_t *answer, size_t answer_count);

/* Takes a record: checks 5 to 9, 18 and 10 to 12, those of the traverse again. Accepted: state, rows and setup are those after the
 * record and answer has the height. Refused: they are left as they were. */
uint64_t fennhop_take_record(int64_t latitude, int64_t friction, int64_t initial,
                             const int64_t *points, size_t points_count,
                             int64_t seconds, int64_t tide,
                             const int64_t *storm, size_t storm_count,
                             int64_t *state, size_t state_count,
                             fennhop_row *rows, size_t rows_count,
                             int64_t *setup, size_t setup_count,
                             int64_t *answer, size_t answer_count);

/* The same two on a harbour panel: 2 to 17 points, 16 segments at most. After check 5 they make check 19. */
uint64_t fennhop_panel_open_traverse(int64_t latitude, int64_t friction, int64_t initial,
                                     const int64_t *points, size_t points_count,
                                     int64_t *state, size_t state_count,
                                     int64_t *answer, size_t answer_count);

uint64_t fennhop_panel_take_record(int64_t latitude, int64_t friction, int64_t initial,
                                   const int64_t *points, size_t points_count,
                                   int64_t seconds, int64_t tide,
                                   const int64_t *storm, size_t storm_count,
                                   int64_t *state, size_t state_count,
                                   fennhop_row *rows, size_t rows_count,
                                   int64_t *setup, size_t setup_count,
                                   int64_t *answer, size_t answer_count);

/* Reads the text of a traverse. In this order: line by line 1 and 2; 3 where the text ends too early; the count of points, 5.
 * Accepted: head and points are the traverse's and answer[1] is the count of its points. Refused: head and points are left as they
 * were. */
uint64_t fennhop_read_traverse(const uint8_t *text, size_t text_count,
                               int64_t *head, size_t head_count,
                               int64_t *points, size_t points_count,
                               int64_t *answer, size_t answer_count);

/* Reads the next record from the text of a storm, for a traverse of point_count points. In this order: the lengths of what is lent,
 * 255; with cursor 0, 0 the names line, 1; the count of points, 5; the end of the text, which is 3 before the first record; line by
 * line 2 and 4, within a line 2 first; 3 where the text ends inside the record and no line that is there is faulty. Returns 0 with
 * answer[1] = 1 where a record was read: cursor, values and storm are set. Returns 0 with answer[1] = 0 where the text ended after a
 * record. Then, and where it is refused, cursor, values and storm are left as they were. */
uint64_t fennhop_read_record(const uint8_t *text, size_t text_count, size_t point_count,
                             int64_t *cursor, size_t cursor_count,
                             int64_t *values, size_t values_count,
                             int64_t *storm, size_t storm_count,
                             int64_t *answer, size_t answer_count);

/* Makes a record of a hurricane for the points in `sites`; x and y are its centre, radius is R. In this order: the length of answer,
 * 255; 13, place 0, for both pressures, R, the centre and the counts of rows and points; 13 by row of the list for its radius and wind;
 * 13 by point for its x, y and angle; 14 by row; the room, 8, place 0. Made: storm has the wind, angle and deficit of each point, and
 * answer has 0, seconds, tide. Refused: storm is left as it was. */
uint64_t fennhop_make_record(int64_t central_pressure, int64_t edge_pressure, int64_t radius, int64_t x, int64_t y,
                             int64_t seconds, int64_t tide,
                             const int64_t *winds, size_t winds_count,
                             const int64_t *sites, size_t sites_count,
                             int64_t *storm, size_t storm_count,
                             int64_t *answer, size_t answer_count);

/* Loads the table of a pressure profile from its text. In this order: the length of answer, 255; the names line, 1; line by line 2, to
 * the text's end; the entries, 20; the room, 8, place 0. Loaded: factors has the table, and answer has 0, 0, 0. Refused: factors is left
 * as it was. */
uint64_t fennhop_load_profile(const uint8_t *text, size_t text_count,
                              int64_t *factors, size_t factors_count,
                              int64_t *answer, size_t answer_count);

/* Makes a record by the table in `factors`, which need not be a loaded one. In this order: the length of answer, 255; the table, 20; then
 * all as fennhop_make_record, which does the same by its own table. */
uint64_t fennhop_make_record_with(const int64_t *factors, size_t factors_count,
                                  int64_t central_pressure, int64_t edge_pressure, int64_t radius, int64_t x, int64_t y,
                                  int64_t seconds, int64_t tide,
                                  const int64_t *winds, size_t winds_count,
                                  const int64_t *sites, size_t sites_count,
                                  int64_t *storm, size_t storm_count,
                                  int64_t *answer, size_t answer_count);

/* Turns an old card deck into the text of traverse.txt. In this order: the length of answer, 255; 6, place 0, for latitude, friction
 * and initial level; 3, place 0, for a deck of no bytes; then line by line 2, 15 and 16; 17; the room, 8, place 0. Accepted: the text
 * stands at the front of text, and answer[1] is how many bytes it has. Refused: text is left as it was. */
uint64_t fennhop_read_deck(int64_t latitude, int64_t friction, int64_t initial,
                           const uint8_t *deck, size_t deck_count,
                           uint8_t *text, size_t text_count,
                           int64_t *answer, size_t answer_count);

#ifdef __cplusplus
}
#endif

#endif

/* Turns an old card deck into a traverse file: reads the DIST and DEPTH cards of a file and prints the text of traverse.txt. Latitude, friction
 * and initial level, which the cards do not have, are given in the units of that file: 0.1 degree, 0.0001, 0.01 ft. From the project's root:
 *
 *   tools/library
 *   cc -O2 -I include -o target/deck examples/c/deck.c target/staticlib/libsurge_c.a
 *   target/deck examples/decks/hampton-beach.deck 428 25 60
 *
 * A refusal goes to standard error: its number, its place, and what they say.
 * Exit status: 0 a whole text, 1 the deck cannot be read or the text cannot be written, 2 wrong usage, 3 a refusal. */
#include <errno.h>
#include <inttypes.h>
#include <stdio.h>
#include <stdlib.h>
#include "surge.h"

enum { WHOLE = 0, FAILED = 1, USAGE = 2, REFUSED = 3 };

/* A file's bytes. */
struct text {
    uint8_t *bytes;
    size_t count;
};

static _Noreturn void failed(const char *what)
{
    perror(what);
    exit(FAILED);
}

/* All of a file. It is read to its end, not by its size: a named pipe has none. */
static struct text whole(const char *path)
{
    struct text text = {NULL, 0};
    size_t room = 0;
    FILE *file = fopen(path, "rb");
    if (!file)
        failed(path);
    while (!feof(file)) {
        if (text.count == room) {
            room = 2 * room + 65536;
            text.bytes = realloc(text.bytes, room);
            if (!text.bytes)
                failed(path);
        }
        text.count += fread(text.bytes + text.count, 1, room - text.count, file);
        if (ferror(file))
            failed(path);
    }
    fclose(file);
    return text;
}

/* A whole decimal number, and nothing beside it. */
static int64_t number(const char *word)
{
    char *end;
    errno = 0;
    int64_t n = strtoll(word, &end, 10);
    if ((*word != '-' && (*word < '0' || *word > '9')) || *end || end == word || errno) {
        fprintf(stderr, "%s is no whole number\n", word);
        exit(USAGE);
    }
    return n;
}

static const char *condition(uint64_t number)
{
    switch (number) {
    case FENNHOP_REFUSED_MALFORMED:
        return "a line has not the shape of a card";
    case FENNHOP_REFUSED_ENDED:
        return "the deck is empty";
    case FENNHOP_REFUSED_TRAVERSE_VALUE:
        return "latitude, friction or initial level is past its limits";
    case FENNHOP_REFUSED_LENT:
        return "the text has no room";
    case FENNHOP_REFUSED_CARD_ORDER:
        return "a card has a wrong word or a wrong card number";
    case FENNHOP_REFUSED_CARD_UNIT:
        return "a number is no whole count of tenths";
    case FENNHOP_REFUSED_CARD_COUNTS:
        return "there are not as many depths as distances";
    default:
        return "no refusal of a deck";
    }
}

/* The place is a line, but where it is 0, and for unequal counts. */
static _Noreturn void refused(const char *path, uint64_t number, int64_t place)
{
    fprintf(stderr, "refused %" PRIu64 " %" PRId64 ": %s\n", number, place, condition(number));
    if (number == FENNHOP_REFUSED_CARD_COUNTS)
        fprintf(stderr, "in %s, distances: %" PRId64 "\n", path, place);
    else if (place)
        fprintf(stderr, "in %s, line %" PRId64 "\n", path, place);
    exit(REFUSED);
}

/* Only when the last byte has left the buffer is it known to be written. */
static void print(struct text text)
{
    if (fwrite(text.bytes, 1, text.count, stdout) != text.count || fflush(stdout))
        failed("standard output");
}

/* A card's number and the space behind it have two bytes or more; its tenths and the byte behind them have one more than those at most, so
 * that twice the deck is enough for the points. The lines before the points have 54 bytes at most. */
static struct text room_for(struct text deck)
{
    struct text room = {NULL, 2 * deck.count + 54};
    room.bytes = malloc(room.count);
    if (!room.bytes)
        failed("the text");
    return room;
}

int main(int count, char **words)
{
    int64_t answer[FENNHOP_ANSWER];
    if (count != 5) {
        fputs("usage: deck DECK LATITUDE FRICTION INITIAL\n", stderr);
        return USAGE;
    }
    int64_t latitude = number(words[2]), friction = number(words[3]), initial = number(words[4]);
    struct text deck = whole(words[1]), text = room_for(deck);
    uint64_t refusal = fennhop_read_deck(latitude, friction, initial, deck.bytes, deck.count, text.bytes, text.count, answer, FENNHOP_ANSWER);
    if (refusal)
        refused(words[1], refusal, answer[0]);
    text.count = (size_t)answer[1];
    print(text);
    free(text.bytes);
    free(deck.bytes);
    return WHOLE;
}

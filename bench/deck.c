/* Converting a card deck through the library: nanoseconds a point for decks of 65 and of 100,000 points, six numbers a card, beside the same done
 * in plain C, which reads by strtod and writes by sprintf, checks nothing and keeps the points in an array. The least of TURNS. */
#include <inttypes.h>
#include <math.h>
#include <stdio.h>
#include <stdlib.h>
#include <string.h>
#include <time.h>
#include "../include/surge.h"

enum { MOST = 100000, CARD = 6 };

static char deck[MOST * 20 + 4096];
static uint8_t text[MOST * 20 + 4096];
static double values[2][MOST];

static double seconds_now(void)
{
    struct timespec t;
    clock_gettime(CLOCK_MONOTONIC, &t);
    return (double)t.tv_sec + 1e-9 * (double)t.tv_nsec;
}

/* Numbers of tenths from some up to n tenths, falling. */
static char *cards(char *to, const char *word, int n, int some)
{
    for (int i = 0; i < n; i++) {
        if (i % CARD == 0)
            to += sprintf(to, "%s %d", word, i / CARD + 1);
        to += sprintf(to, " %d.%d", (n - 1 - i + some) / 10, (n - 1 - i + some) % 10);
        if (i % CARD == CARD - 1 || i == n - 1)
            *to++ = '\n';
    }
    return to;
}

static size_t ours(size_t size)
{
    int64_t answer[FENNHOP_ANSWER];
    uint64_t number = fennhop_read_deck(428, 25, 60, (const uint8_t *)deck, size, text, sizeof text, answer, FENNHOP_ANSWER);
    if (number) {
        fprintf(stderr, "refused: %" PRIu64 " %" PRId64 "\n", number, answer[0]);
        exit(1);
    }
    return (size_t)answer[1];
}

static size_t plain(size_t size)
{
    int counts[2] = {0, 0};
    for (char *at = deck, *end = deck + size; at < end; at++) {
        int depth = at[1] == 'E';
        at = strchr(strchr(at, ' ') + 1, ' ');
        while (*at == ' ')
            values[depth][counts[depth]++] = strtod(at + 1, &at);
    }
    char *to = (char *)text + sprintf((char *)text, "latitude friction initial\n428 25 60\ndistance depth\n");
    for (int i = 0; i < counts[0]; i++)
        to += sprintf(to, "%ld %ld\n", lround(10 * values[0][i]), lround(10 * values[1][i]));
    return (size_t)(to - (char *)text);
}

static double took(size_t (*convert)(size_t), size_t size, size_t length, int times)
{
    double began = seconds_now();
    for (int i = 0; i < times; i++)
        if (convert(size) != length)
            exit(1);
    return (seconds_now() - began) / times;
}

int main(int count, char **words)
{
    int turns = count > 1 ? atoi(words[1]) : 15;
    static const int points[] = {65, MOST};
    for (int i = 0; i < 2; i++) {
        int n = points[i], times = i ? 1 : 200;
        size_t size = (size_t)(cards(cards(deck, "DIST", n, 0), "DEPTH", n, 25) - deck), length = plain(size);
        static uint8_t kept[sizeof text];
        memcpy(kept, text, length);
        if (ours(size) != length || memcmp(kept, text, length) != 0) {
            fprintf(stderr, "the two do not write the same\n");
            return 1;
        }
        double least[2] = {1e9, 1e9};
        for (int turn = 0; turn < turns; turn++) {
            double a = took(ours, size, length, times), b = took(plain, size, length, times);
            least[0] = a < least[0] ? a : least[0];
            least[1] = b < least[1] ? b : least[1];
        }
        printf("  %6d points: %.0f ns a point, %.0f MB/s of deck, plain C %.0f ns, ratio %.2f\n", n, 1e9 * least[0] / n, (double)size / least[0] / 1e6,
               1e9 * least[1] / n, least[0] / least[1]);
    }
    return 0;
}

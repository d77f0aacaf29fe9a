/*
 * Times mending beside the reading of the text (bench/mends.sh builds and runs it):
 *
 *     mends SECONDS SIZE..       SECONDS for each text and way; SIZE in bytes
 *
 * Texts of five shapes (texts.c), as they are and with every count of one digit, or of more that begin with one, off by some; then hostile ones: nothing but count lines, one option again and again, everything behind
 * end_file. A time is the best of at least three runs, in processor time of this thread; the ways take turns. The tables of the reading have just the rows needed.
 */
#define _GNU_SOURCE
#include "kastepuhm.h"
#include "texts.h"

#include <stdio.h>
#include <stdlib.h>
#include <string.h>
#include <time.h>

enum { TABLES = 8, POINTS = 4 };
static const size_t strides[TABLES] = {KASTEPUHM_SEGMENT_STRIDE,    KASTEPUHM_LANE_STRIDE, KASTEPUHM_ZONE_STRIDE, KASTEPUHM_SPOT_STRIDE, KASTEPUHM_POINT_STRIDE,
                                       KASTEPUHM_CHECKPOINT_STRIDE, KASTEPUHM_STOP_STRIDE, KASTEPUHM_EXIT_STRIDE};

static uint32_t *tables[TABLES], *list;
static size_t lengths[TABLES], list_length;
static struct text given, troubled;
static uint8_t *output;
static double seconds;

#define LENT(i) tables[i], lengths[i]
#define NETWORK LENT(0), LENT(1), LENT(2), LENT(3), (int32_t *)tables[POINTS], lengths[POINTS], LENT(5), LENT(6), LENT(7)

static void *must(void *memory)
{
    if (memory == NULL)
        exit(2);
    return memory;
}

static double now(void)
{
    struct timespec t;
    clock_gettime(CLOCK_THREAD_CPUTIME_ID, &t);
    return (double)t.tv_sec * 1e9 + (double)t.tv_nsec;
}

static void lend(int i, size_t rows)
{
    free(tables[i]);
    lengths[i] = rows * strides[i];
    tables[i] = must(calloc(lengths[i] + 1, sizeof(uint32_t)));
}

static kastepuhm_answer read_it(const struct text *t)
{
    return kastepuhm_read_rndf(KASTEPUHM_MARCH_2007, (const uint8_t *)t->bytes, t->length, NETWORK);
}

static kastepuhm_mend_answer mend_it(const struct text *t)
{
    size_t lent = t->length + t->length / 3 + 64;   /* the mended text is at most so long: what is lent is cleared, so no more of it */
    return kastepuhm_mend(KASTEPUHM_MARCH_2007, (const uint8_t *)t->bytes, t->length, list, list_length, output, lent < KASTEPUHM_LONGEST_TEXT ? lent : KASTEPUHM_LONGEST_TEXT);
}

static void list_for(const struct text *t)
{
    size_t lines = 1;
    for (size_t i = 0; i < t->length; i++)
        lines += t->bytes[i] == '\n';
    free(list);
    list_length = lines * KASTEPUHM_MEND_STRIDE;
    list = must(calloc(list_length, sizeof(uint32_t)));
}

/* The best time of one way on one text, and what it answered. */
static double best_mend(const struct text *t, kastepuhm_mend_answer *answer)
{
    double best = 1e30, spent = 0;
    list_for(t);
    for (int runs = 0; runs < 3 || spent < seconds * 1e9; runs++) {
        double start = now();
        *answer = mend_it(t);
        double took = now() - start;
        spent += took;
        best = took < best ? took : best;
    }
    return best;
}

static double best_read(const struct text *t)
{
    double best = 1e30, spent = 0;
    for (int i = 0; i < TABLES; i++)
        lend(i, t->length / 6 + 1);
    kastepuhm_answer a = read_it(t);
    const uint32_t rows[TABLES] = {a.segments, a.lanes, a.zones, a.spots, a.points, a.checkpoints, a.stops, a.exits};
    for (int i = 0; i < TABLES; i++)
        lend(i, rows[i]);
    for (int runs = 0; runs < 3 || spent < seconds * 1e9; runs++) {
        double start = now();
        if (!read_it(t).accepted)
            exit(1);
        double took = now() - start;
        spent += took;
        best = took < best ? took : best;
    }
    return best;
}

/* Every count's last digit changed, its length kept: as many bytes, and every count line is to be mended. */
static void trouble(void)
{
    memcpy(troubled.bytes, given.bytes, given.length);
    troubled.length = given.length;
    for (size_t i = 0; i + 4 < given.length; i++)
        if ((i == 0 || given.bytes[i - 1] == '\n') && memcmp(given.bytes + i, "num_", 4) == 0) {
            size_t e = i;
            while (e < given.length && given.bytes[e] != '\n' && given.bytes[e] != '\r' && given.bytes[e] != '/')
                e++;
            while (e > i && (given.bytes[e - 1] < '0' || given.bytes[e - 1] > '9'))
                e--;
            char *digit = troubled.bytes + e - 1;
            *digit = *digit == '1' ? '2' : '1';
        }
}

static size_t put(struct text *t, const char *words)
{
    size_t n = strlen(words);
    memcpy(t->bytes + t->length, words, n);
    return t->length += n;
}

static const char good_head[] = "RNDF_name\ty\nnum_segments\t1\nnum_zones\t0\nformat_version\t1\nsegment\t1\nnum_lanes\t1\nlane\t1.1\nnum_waypoints\t1\nlane_width\t3\n";
static const char good_tail[] = "1.1.1\t0.000000\t0.000000\nend_lane\nend_segment\nend_file\n";

/* Texts that ask for much looking ahead, or for many changes. */
static void hostile(int which, size_t size)
{
    troubled.length = 0;
    if (which == 0) {
        while (troubled.length + 16 < size)
            put(&troubled, "num_segments\t0\n");
    } else if (which == 1) {
        put(&troubled, "RNDF_name\ty\n");
        while (troubled.length + 40 < size)
            put(&troubled, "num_lanes\t0\nlane\t1.1\nend_lane\n");
    } else {
        put(&troubled, good_head);
        if (which == 2)
            while (troubled.length + 200 < size)
                put(&troubled, "lane_width\t3\n");
        put(&troubled, good_tail);
        if (which == 3)
            while (troubled.length + 20 < size)
                put(&troubled, "lane\t1.1\n");
    }
}

int main(int count, char **words)
{
    static const char *const hostiles[] = {"count lines alone", "counts and lanes", "one option again", "behind end_file"};
    struct text mdf = {must(malloc(4u << 20)), 0};
    double worst = 0, first[4];
    seconds = count > 1 ? atof(words[1]) : 0.5;
    given.bytes = must(malloc(64u << 20));
    troubled.bytes = must(malloc(64u << 20));
    output = must(malloc(KASTEPUHM_LONGEST_TEXT));
    printf("                             nanoseconds to a byte        by reading\n");
    printf("shape                  bytes     read     same   mended     same  mended     rows\n");
    for (int z = 2; z < count; z++)
        for (int s = 0; s < SHAPES; s++) {
            kastepuhm_mend_answer same, mended;
            build(&shapes[s], strtoul(words[z], NULL, 10), &given, &mdf);
            trouble();
            double reading = best_read(&given), unchanged = best_mend(&given, &same), changed = best_mend(&troubled, &mended), bytes = (double)given.length;
            if (!same.accepted || same.rows != 0 || same.length != given.length || !mended.accepted || mended.length > given.length + 8 * mended.rows) {
                printf("%s: refused, or mended otherwise (%u %u)\n", shapes[s].name, same.number, mended.number);
                return 1;
            }
            printf("%-18s %9zu %8.3f %8.3f %8.3f %8.2f %7.2f %8u\n", shapes[s].name, given.length, reading / bytes, unchanged / bytes, changed / bytes, unchanged / reading, changed / reading, mended.rows);
            fflush(stdout);
            worst = unchanged / reading > worst ? unchanged / reading : worst;
            worst = changed / reading > worst ? changed / reading : worst;
        }
    for (int z = 2; z < count; z++)
        for (int h = 0; h < 4; h++) {
            kastepuhm_mend_answer answer;
            hostile(h, strtoul(words[z], NULL, 10));
            double took = best_mend(&troubled, &answer) / (double)troubled.length;
            if (z == 2)
                first[h] = took;
            printf("%-18s %9zu                   %8.3f                    %8u, %s; %.2f times as long a byte as in the first\n", hostiles[h], troubled.length, took, answer.rows, answer.accepted ? "mended" : "past mending",
                   took / first[h]);
            fflush(stdout);
        }
    printf("most, by reading: %.2f\n", worst);
    return 0;
}

/*
 * Times the writing of a map beside the reading of its text, on the texts of texts.c (bench/maps.sh builds and runs it):
 *
 *     maps SECONDS SIZE..      SECONDS for each text and way; SIZE in bytes
 *
 * The tables have just the rows needed. A time is the best of at least five runs, in processor time of this thread.
 */
#define _GNU_SOURCE
#include "kastepuhm.h"
#include "texts.h"

#include <stdio.h>
#include <stdlib.h>
#include <time.h>

enum { TABLES = 8, POINTS = 4 };
static const size_t strides[TABLES] = {KASTEPUHM_SEGMENT_STRIDE,    KASTEPUHM_LANE_STRIDE, KASTEPUHM_ZONE_STRIDE, KASTEPUHM_SPOT_STRIDE, KASTEPUHM_POINT_STRIDE,
                                       KASTEPUHM_CHECKPOINT_STRIDE, KASTEPUHM_STOP_STRIDE, KASTEPUHM_EXIT_STRIDE};

static uint32_t *tables[TABLES];
static size_t lengths[TABLES];
static struct text rndf;
static uint8_t *output;
static size_t output_length;

#define LENT(i) tables[i], lengths[i]
#define TEXT KASTEPUHM_MARCH_2007, (const uint8_t *)rndf.bytes, rndf.length
#define NETWORK LENT(0), LENT(1), LENT(2), LENT(3), (int32_t *)tables[POINTS], lengths[POINTS], LENT(5), LENT(6), LENT(7)

static void *must(void *memory)
{
    if (memory == NULL)
        exit(2);
    return memory;
}

static void lend(int i, size_t rows)
{
    free(tables[i]);
    lengths[i] = rows * strides[i];
    tables[i] = must(calloc(lengths[i] + 1, sizeof(uint32_t)));
}

/* As many rows as the text needs: first as many as it can have lines. */
static void lend_all(void)
{
    for (int i = 0; i < TABLES; i++)
        lend(i, rndf.length / 6 + 1);
    kastepuhm_answer a = kastepuhm_read_rndf(TEXT, NETWORK);
    const uint32_t rows[TABLES] = {a.segments, a.lanes, a.zones, a.spots, a.points, a.checkpoints, a.stops, a.exits};
    for (int i = 0; i < TABLES; i++)
        lend(i, rows[i]);
}

static double now(void)
{
    struct timespec t;
    clock_gettime(CLOCK_THREAD_CPUTIME_ID, &t);
    return (double)t.tv_sec * 1e9 + (double)t.tv_nsec;
}

/* Nanoseconds of the reading (map 0) or the writing; `length` is told how long the map is. */
static double best_of(double seconds, int map, size_t *length)
{
    double best = 1e30, spent = 0;
    for (int runs = 0; runs < 5 || spent < seconds * 1e9; runs++) {
        double start = now();
        kastepuhm_write_answer a = {0};
        if (map)
            a = kastepuhm_write_map(TEXT, NETWORK, output, output_length);
        else
            a.answer = kastepuhm_read_rndf(TEXT, NETWORK);
        double took = now() - start;
        spent += took;
        best = took < best ? took : best;
        if (!a.answer.accepted) {
            printf("refused %u %u %u\n", a.answer.file, a.answer.line, a.answer.number);
            exit(1);
        }
        *length = a.length;
    }
    return best;
}

int main(int count, char **words)
{
    struct text mdf = {must(malloc(4u << 20)), 0};
    rndf.bytes = must(malloc(64u << 20));
    output = must(malloc(KASTEPUHM_LONGEST_TEXT));
    printf("                                    nanoseconds to a byte of the text       by reading\n");
    printf("shape          bytes  map's bytes     read      map  just enough      map  just enough\n");
    for (int z = 2; z < count; z++)
        for (int s = 0; s < SHAPES; s++) {
            size_t length, none;
            build(&shapes[s], strtoul(words[z], NULL, 10), &rndf, &mdf);
            lend_all();
            double bytes = (double)rndf.length, seconds = atof(words[1]);
            double read = best_of(seconds, 0, &none);
            output_length = KASTEPUHM_LONGEST_TEXT;
            double map = best_of(seconds, 1, &length);
            output_length = length;
            double enough = best_of(seconds, 1, &none);
            printf("%-10s %9zu %12zu %8.3f %8.3f %12.3f %8.2f %12.2f\n", shapes[s].name, rndf.length, length, read / bytes, map / bytes, enough / bytes, map / read, enough / read);
            fflush(stdout);
        }
    return 0;
}

/*
 * Times packing and unpacking beside the reading of the text, on the texts of texts.c (bench/packed.sh builds and runs it):
 *
 *     packed SECONDS SIZE..      SECONDS for each text and way; SIZE in bytes
 *
 * The tables have just the rows needed. A time is the best of at least five runs, in processor time of this thread; the ways take turns.
 */
#define _GNU_SOURCE
#include "kastepuhm.h"
#include "texts.h"

#include <stdio.h>
#include <stdlib.h>
#include <string.h>
#include <time.h>

enum { TABLES = 8, POINTS = 4 };
enum { READ, PACK, PACK_ENOUGH, UNPACK, WAYS };
static const size_t strides[TABLES] = {KASTEPUHM_SEGMENT_STRIDE,    KASTEPUHM_LANE_STRIDE, KASTEPUHM_ZONE_STRIDE, KASTEPUHM_SPOT_STRIDE, KASTEPUHM_POINT_STRIDE,
                                       KASTEPUHM_CHECKPOINT_STRIDE, KASTEPUHM_STOP_STRIDE, KASTEPUHM_EXIT_STRIDE};

static uint32_t *tables[TABLES], *kept[TABLES];
static size_t lengths[TABLES];
static struct text rndf;
static uint8_t *output, *form;
static size_t form_length;

#define LENT(i) tables[i], lengths[i]
#define TEXT KASTEPUHM_MARCH_2007, (const uint8_t *)rndf.bytes, rndf.length
#define NETWORK LENT(0), LENT(1), LENT(2), LENT(3), (int32_t *)tables[POINTS], lengths[POINTS], LENT(5), LENT(6), LENT(7)

static void *must(void *memory)
{
    if (memory == NULL)
        exit(2);
    return memory;
}

static void lend(int i, size_t rows)
{
    free(tables[i]);
    lengths[i] = rows * strides[i];
    tables[i] = must(calloc(lengths[i] + 1, sizeof(uint32_t)));
}

static double now(void)
{
    struct timespec t;
    clock_gettime(CLOCK_THREAD_CPUTIME_ID, &t);
    return (double)t.tv_sec * 1e9 + (double)t.tv_nsec;
}

/* One call. A packing is lent as many bytes as the text has, or just as many as the form has. */
static kastepuhm_write_answer call(int way)
{
    kastepuhm_write_answer a = {0};
    if (way == READ)
        a.answer = kastepuhm_read_rndf(TEXT, NETWORK);
    else if (way == UNPACK)
        a.answer = kastepuhm_read_packed(form, form_length, NETWORK);
    else
        a = kastepuhm_write_packed(TEXT, NETWORK, output, way == PACK ? rndf.length : form_length);
    if (!a.answer.accepted) {
        printf("refused %u %u %u (way %d)\n", a.answer.file, a.answer.line, a.answer.number, way);
        exit(1);
    }
    return a;
}

/* As many rows as the text needs: first as many as it can have lines. The form, and that unpacking leaves what reading left, but for names. */
static void prepare(void)
{
    for (int i = 0; i < TABLES; i++)
        lend(i, rndf.length / 6 + 1);
    kastepuhm_answer a = kastepuhm_read_rndf(TEXT, NETWORK);
    const uint32_t rows[TABLES] = {a.segments, a.lanes, a.zones, a.spots, a.points, a.checkpoints, a.stops, a.exits};
    for (int i = 0; i < TABLES; i++)
        lend(i, rows[i]);
    form_length = call(PACK).length;
    memcpy(form, output, form_length);
    for (int i = 0; i < TABLES; i++) {
        kept[i] = must(malloc(lengths[i] * sizeof(uint32_t) + 1));
        memcpy(kept[i], tables[i], lengths[i] * sizeof(uint32_t));
    }
    call(UNPACK);
    for (int i = 0; i < TABLES; i++) {
        size_t names = i == 0 || i == 2 ? strides[i] - 2 : strides[i];
        for (size_t k = 0; k < lengths[i]; k++)
            if (k % strides[i] != names && kept[i][k] != tables[i][k]) {
                printf("unpacked otherwise: table %d, number %zu\n", i, k);
                exit(1);
            }
        free(kept[i]);
    }
}

int main(int count, char **words)
{
    struct text mdf = {must(malloc(4u << 20)), 0};
    double seconds = count > 1 ? atof(words[1]) : 0.5, worst_pack = 0, worst_unpack = 0, worst_growth = 0, first[SHAPES][WAYS];
    rndf.bytes = must(malloc(64u << 20));
    output = must(malloc(KASTEPUHM_LONGEST_TEXT));
    form = must(malloc(KASTEPUHM_LONGEST_TEXT));
    printf("                                   form    nanoseconds to a byte of the text         by reading\n");
    printf("shape          bytes form's bytes by text     read     pack  enough   unpack     pack  enough  unpack\n");
    for (int z = 2; z < count; z++)
        for (int s = 0; s < SHAPES; s++) {
            double best[WAYS], spent = 0;
            build(&shapes[s], strtoul(words[z], NULL, 10), &rndf, &mdf);
            prepare();
            for (int way = 0; way < WAYS; way++)
                best[way] = 1e30;
            for (int runs = 0; runs < 5 || spent < WAYS * seconds * 1e9; runs++)
                for (int way = 0; way < WAYS; way++) {
                    double start = now();
                    call(way);
                    double took = now() - start;
                    spent += took;
                    best[way] = took < best[way] ? took : best[way];
                }
            double bytes = (double)rndf.length;
            printf("%-10s %9zu %12zu %7.3f %8.3f %8.3f %7.3f %8.3f %8.2f %7.2f %7.2f\n", shapes[s].name, rndf.length, form_length, (double)form_length / bytes, best[READ] / bytes, best[PACK] / bytes,
                   best[PACK_ENOUGH] / bytes, best[UNPACK] / bytes, best[PACK] / best[READ], best[PACK_ENOUGH] / best[READ], best[UNPACK] / best[READ]);
            fflush(stdout);
            worst_pack = best[PACK] / best[READ] > worst_pack ? best[PACK] / best[READ] : worst_pack;
            worst_unpack = best[UNPACK] / best[READ] > worst_unpack ? best[UNPACK] / best[READ] : worst_unpack;
            for (int way = 0; way < WAYS; way++) {
                if (z == 2)
                    first[s][way] = best[way] / bytes;
                if (way != READ && best[way] / bytes / first[s][way] > worst_growth)
                    worst_growth = best[way] / bytes / first[s][way];
            }
        }
    printf("most, by reading: packing %.2f, unpacking %.2f; a byte of a longer text takes at most %.2f times as long as one of the first size\n", worst_pack, worst_unpack, worst_growth);
    return 0;
}

/*
 * Runs the cases of tests/oracle (cases.bin on standard input; its format is in tests/oracle/casefile.py) through the library and prints what expected.txt has: every reply, and
 * every number of every lent table. Each table is lent full of other numbers, with a number before and behind it that must stay as it is.
 */
#include "kastepuhm.h"

#include <inttypes.h>
#include <stdio.h>
#include <stdlib.h>

enum { SEGMENTS, LANES, ZONES, SPOTS, POINTS, CHECKPOINTS, STOPS, EXITS, GOALS, LIMITS, TABLES };
enum { MOST_BYTES = 8192, MOST_NUMBERS = 600 };

#define OTHER 0x5A5A5A5Au

static const char *const names[TABLES] = {"segments", "lanes", "zones", "spots", "points", "checkpoints", "stops", "exits", "goals", "limits"};

/* Table i is lent from its second number on. */
static uint32_t tables[TABLES][MOST_NUMBERS + 2];
static int32_t points[MOST_NUMBERS + 2];
static size_t lengths[TABLES];
static uint8_t rndf[MOST_BYTES], mdf[MOST_BYTES];

static size_t number(int bytes)
{
    size_t n = 0;
    for (int i = 0; i < bytes; i++)
        n |= (size_t)getchar() << 8 * i;
    return n;
}

static void take(uint8_t *text, size_t length)
{
    if (length > MOST_BYTES || fread(text, 1, length, stdin) != length)
        exit(2);
}

static void soil(void)
{
    for (size_t i = 0; i < TABLES; i++)
        for (size_t j = 0; j < MOST_NUMBERS + 2; j++)
            tables[i][j] = OTHER;
    for (size_t j = 0; j < MOST_NUMBERS + 2; j++)
        points[j] = (int32_t)OTHER;
}

static void print_names(const char *what, const kastepuhm_name *name, int count)
{
    printf("%s", what);
    for (int i = 0; i < count; i++)
        printf(" %" PRIu32 " %" PRIu32, name[i].start, name[i].length);
    printf("\n");
}

static void print_answer(const kastepuhm_answer *a, int pair)
{
    const kastepuhm_name file[] = {a->rndf_name, a->rndf_version, a->rndf_date};
    const kastepuhm_name mission[] = {a->mdf_name, a->mdf_rndf, a->mdf_version, a->mdf_date};
    if (!a->accepted) {
        printf("refused %" PRIu32 " %" PRIu32 " %" PRIu32 " %" PRIu32 "\n", a->file, a->line, a->number, a->column);
        return;
    }
    printf("ok %" PRIu32 " %" PRIu32 " %" PRIu32 " %" PRIu32 " %" PRIu32, a->segments, a->zones, a->lanes, a->points, a->spots);
    printf(" %" PRIu32 " %" PRIu32 " %" PRIu32 " %" PRIu32 " %" PRIu32 "\n", a->checkpoints, a->stops, a->exits, a->goals, a->limits);
    print_names("file", file, 3);
    if (pair)
        print_names("mission", mission, 4);
}

static void print_table(size_t i)
{
    printf("%s", names[i]);
    for (size_t j = 1; j <= lengths[i]; j++) {
        if (i == POINTS)
            printf(" %" PRId32, points[j]);
        else
            printf(" %" PRIu32, tables[i][j]);
    }
    if (i == POINTS ? points[0] != (int32_t)OTHER || points[lengths[i] + 1] != (int32_t)OTHER : tables[i][0] != OTHER || tables[i][lengths[i] + 1] != OTHER)
        printf(" WRITTEN OUTSIDE");
    printf("\n");
}

#define LENT(i) tables[i] + 1, lengths[i]
#define NETWORK LENT(SEGMENTS), LENT(LANES), LENT(ZONES), LENT(SPOTS), points + 1, lengths[POINTS], LENT(CHECKPOINTS), LENT(STOPS), LENT(EXITS)

int main(void)
{
    int mode;
    for (int k = 1; (mode = getchar()) != EOF; k++) {
        size_t rndf_length = number(3), mdf_length = number(3);
        uint32_t edition;
        kastepuhm_answer a;
        for (size_t i = 0; i < TABLES; i++)
            lengths[i] = number(2) % MOST_NUMBERS;
        take(rndf, rndf_length);
        take(mdf, mdf_length);
        soil();
        /* modes 3 and 4 are 1 and 2 in the edition of December 6, 2006; any other number than its own is the present one */
        edition = mode > 2 ? KASTEPUHM_DECEMBER_2006 : (uint32_t)k + 1u;
        mode = 2 - mode % 2;
        a = mode == 1 ? kastepuhm_read_rndf(edition, rndf, rndf_length, NETWORK)
                      : kastepuhm_read_pair(edition, rndf, rndf_length, mdf, mdf_length, NETWORK, LENT(GOALS), LENT(LIMITS));
        printf("case %d\n", k);
        print_answer(&a, mode == 2);
        for (size_t i = 0; i < (mode == 1 ? GOALS : TABLES); i++)
            print_table(i);
    }
    return 0;
}

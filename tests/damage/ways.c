/*
 * Tries routes over a pair (request L5) and asks whether its mission can be driven at all (request L13), for tests/damage/ways.py, which has the formats.
 *
 * Of every case on standard input: what kastepuhm_check_mission answers, with just as many rows of work space as there are points; what kastepuhm_check_route answers for one given route; and then
 * for every list of points of up to so many places that begins at the start, one number that is no point among them. Unless all are asked for, no list is tried that goes on from one with a
 * step that is no move (22): it has that step too.
 */
#include "kastepuhm.h"

#include <inttypes.h>
#include <stdio.h>
#include <stdlib.h>
#include <string.h>

enum { MOST_BYTES = 1 << 24, MOST_STEPS = 1 << 22, MOST_NUMBERS = 1 << 21 };
enum { SEGMENTS, LANES, ZONES, SPOTS, POINTS, CHECKPOINTS, STOPS, EXITS, GOALS, LIMITS, TABLES };

static uint8_t rndf[MOST_BYTES], mdf[MOST_BYTES];
static uint32_t tables[TABLES][MOST_NUMBERS], lengths[TABLES], route[MOST_STEPS], first_good[MOST_STEPS], work[MOST_NUMBERS * KASTEPUHM_WORK_STRIDE];
static uint32_t edition, start, points, longest, all, rndf_length, mdf_length, given_length, first_length;
static uint64_t tried, good, odd;

#define LENT(i) tables[i], lengths[i]
#define PAIR edition, rndf, rndf_length, mdf, mdf_length, LENT(SEGMENTS), LENT(LANES), LENT(ZONES), LENT(SPOTS), (int32_t *)tables[POINTS], lengths[POINTS], LENT(CHECKPOINTS), LENT(STOPS), LENT(EXITS), LENT(GOALS), LENT(LIMITS)

static kastepuhm_answer judge(size_t length)
{
    return kastepuhm_check_route(PAIR, start, route, length);
}

/* Every list that begins with the `length` points of the route. */
static void extend(uint32_t length)
{
    kastepuhm_answer a = judge(length);
    tried++;
    if (a.accepted && good++ == 0) {
        memcpy(first_good, route, length * sizeof *route);
        first_length = length;
    }
    if (a.number == KASTEPUHM_NO_MOVE && !all) {
        odd += a.line != length - 1;            /* the list without its last point had no such step */
        return;
    }
    for (uint32_t b = 0; length < longest && b <= points; b++) {
        route[length] = b;
        extend(length + 1);
    }
}

static void take(void *memory, size_t size, size_t most)
{
    if (size > most || fread(memory, 1, size, stdin) != size) {
        fprintf(stderr, "ways: the case is cut short or too long\n");
        exit(2);
    }
}

static void print_answer(const kastepuhm_answer *a)
{
    printf("%" PRIu32 " %" PRIu32 " %" PRIu32 " %" PRIu32 " ", a->accepted, a->file, a->line, a->number);
}

int main(void)
{
    uint32_t head[8 + TABLES];
    while (fread(head, sizeof *head, 1, stdin) == 1) {
        kastepuhm_answer a;
        take(head + 1, sizeof head - sizeof *head, sizeof head);
        edition = head[0], start = head[1], points = head[2], longest = head[3], all = head[4], rndf_length = head[5], mdf_length = head[6], given_length = head[7];
        for (int i = 0; i < TABLES; i++)
            if ((lengths[i] = head[8 + i]) > MOST_NUMBERS)
                exit(2);
        if (longest > MOST_STEPS || points > MOST_NUMBERS)
            exit(2);
        take(rndf, rndf_length, sizeof rndf);
        take(mdf, mdf_length, sizeof mdf);
        take(route, given_length * sizeof *route, sizeof route);
        memset(work, 0x5A, points * KASTEPUHM_WORK_STRIDE * sizeof *work);
        a = kastepuhm_check_mission(PAIR, start, work, points * KASTEPUHM_WORK_STRIDE);
        print_answer(&a);
        a = judge(given_length);
        print_answer(&a);
        tried = good = odd = first_length = 0;
        for (uint32_t first = all ? 0 : start; longest > 0 && first <= (all ? points : start); first++) {
            route[0] = first;
            extend(1);
        }
        for (uint32_t i = 0; i < points * KASTEPUHM_WORK_STRIDE; i++)
            odd += work[i] != 0;
        printf("%" PRIu64 " %" PRIu64 " %" PRIu64, tried, good, odd);
        for (uint32_t i = 0; i < first_length; i++)
            printf(" %" PRIu32, first_good[i]);
        printf("\n");
    }
    return 0;
}

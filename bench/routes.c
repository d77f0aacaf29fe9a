/*
 * Times the judging of routes beside the reading of the pair (bench/routes.sh builds and runs it), on networks of four shapes:
 *
 *     lanes    23,000 lanes of 20 waypoints, 16 MB; from each lane's end an exit to any lane's beginning
 *     zone     a zone of 32,768 perimeter points and 32,768 spots; from any of its points to any other
 *     both     10,000 lanes and 10,000 zones in turn: along the lane, into the zone by an exit, about in it, and out to the next lane
 *     exits    a lane of 32,768 waypoints, an exit from each to any other, written out of order; each step along an exit
 *     goals    as lanes, with 32,768 goals
 *
 * Every route is good. A time is the best of three runs, in processor time of this thread.
 */
#define _GNU_SOURCE
#include "kastepuhm.h"

#include <stdio.h>
#include <stdlib.h>
#include <time.h>

enum { TABLES = 10, MOST_STEPS = 1000000, LARGEST = 32768 };
enum { SEGMENTS, LANES, ZONES, SPOTS, POINTS, CHECKPOINTS, STOPS, EXITS, GOALS, LIMITS };
static const size_t strides[TABLES] = {4, 5, 6, 2, 2, 2, 1, 2, 1, 3};

static char *rndf, *mdf;
static size_t rndf_length, mdf_length;
static uint32_t *tables[TABLES], *route;
static size_t lengths[TABLES];
static uint32_t numbers[2000000];       /* the checkpoint number of each point, or 0 */

static uint32_t draw(uint32_t below)
{
    static uint32_t seed = 1;
    seed = seed * 1664525u + 1013904223u;
    return (uint32_t)((uint64_t)seed * below >> 32);
}

static void *must(void *memory)
{
    if (memory == NULL)
        exit(2);
    return memory;
}

#define PUT(...) (rndf_length += (size_t)sprintf(rndf + rndf_length, __VA_ARGS__))
#define PUT_MDF(...) (mdf_length += (size_t)sprintf(mdf + mdf_length, __VA_ARGS__))

static void put_points(uint32_t x, uint32_t y, uint32_t count)
{
    for (uint32_t z = 1; z <= count; z++)
        PUT("%u.%u.%u\t45.%06u\t-93.%06u\n", x, y, z, draw(1000000), draw(1000000));
}

/* ---- networks; each leaves the checkpoint numbers of its points */

static void build_lanes(void)
{
    PUT("RNDF_name\tbench\nnum_segments\t1\nnum_zones\t0\nsegment\t1\nnum_lanes\t23000\n");
    for (uint32_t n = 1; n <= 23000; n++) {
        PUT("lane\t1.%u\nnum_waypoints\t20\ncheckpoint\t1.%u.1\t%u\nexit\t1.%u.20\t1.%u.1\n", n, n, n, n, 1 + draw(23000));
        numbers[20 * (n - 1)] = n;
        put_points(1, n, 20);
        PUT("end_lane\n");
    }
    PUT("end_segment\nend_file\n");
}

static void build_zone(void)
{
    PUT("RNDF_name\tbench\nnum_segments\t1\nnum_zones\t1\nsegment\t1\nnum_lanes\t1\nlane\t1.1\nnum_waypoints\t1\n");
    put_points(1, 1, 1);
    PUT("end_lane\nend_segment\nzone\t2\nnum_spots\t32768\nperimeter\t2.0\nnum_perimeterpoints\t32768\n");
    put_points(2, 0, LARGEST);
    PUT("end_perimeter\n");
    for (uint32_t n = 1; n <= LARGEST; n++) {
        PUT("spot\t2.%u\ncheckpoint\t2.%u.2\t%u\n", n, n, n);
        numbers[1 + LARGEST + 2 * (n - 1) + 1] = n;
        put_points(2, n, 2);
        PUT("end_spot\n");
    }
    PUT("end_zone\nend_file\n");
}

enum { BOTH = 10000, BOTH_LANE = 16, BOTH_PERIMETER = 24 };

static void build_both(void)
{
    PUT("RNDF_name\tbench\nnum_segments\t%d\nnum_zones\t%d\n", BOTH, BOTH);
    for (uint32_t m = 1; m <= BOTH; m++) {
        PUT("segment\t%u\nnum_lanes\t1\nlane\t%u.1\nnum_waypoints\t%d\ncheckpoint\t%u.1.1\t%u\nexit\t%u.1.%d\t%u.0.1\n", m, m, BOTH_LANE, m, m, m, BOTH_LANE, BOTH + m);
        numbers[BOTH_LANE * (m - 1)] = m;
        put_points(m, 1, BOTH_LANE);
        PUT("end_lane\nend_segment\n");
    }
    for (uint32_t m = 1; m <= BOTH; m++) {
        uint32_t z = BOTH + m;
        PUT("zone\t%u\nnum_spots\t1\nperimeter\t%u.0\nnum_perimeterpoints\t%d\nexit\t%u.0.2\t%u.1.1\n", z, z, BOTH_PERIMETER, z, m % BOTH + 1);
        put_points(z, 0, BOTH_PERIMETER);
        PUT("end_perimeter\nspot\t%u.1\ncheckpoint\t%u.1.2\t%u\n", z, z, z);
        put_points(z, 1, 2);
        PUT("end_spot\nend_zone\n");
    }
    PUT("end_file\n");
}

static void shuffle(uint32_t numbered[LARGEST])
{
    for (uint32_t i = 0; i < LARGEST; i++)
        numbered[i] = i;
    for (uint32_t i = LARGEST - 1; i > 0; i--) {
        uint32_t j = draw(i + 1), other = numbered[j];
        numbered[j] = numbered[i];
        numbered[i] = other;
    }
}

/* One round through all waypoints, its exits written in another order. */
static void build_exits(void)
{
    static uint32_t round[LARGEST], order[LARGEST];
    shuffle(round);
    shuffle(order);
    PUT("RNDF_name\tbench\nnum_segments\t1\nnum_zones\t0\nsegment\t1\nnum_lanes\t1\nlane\t1.1\nnum_waypoints\t%d\n", LARGEST);
    for (uint32_t i = 0; i < LARGEST; i++) {
        PUT("exit\t1.1.%u\t1.1.%u\ncheckpoint\t1.1.%u\t%u\n", round[order[i]] + 1, round[(order[i] + 1) % LARGEST] + 1, i + 1, i + 1);
        numbers[i] = i + 1;
    }
    put_points(1, 1, LARGEST);
    PUT("end_lane\nend_segment\nend_file\n");
}

/* ---- routes, from the tables as the reader leaves them */

static uint32_t exit_from(uint32_t point)
{
    static uint32_t entries[2000000], known;
    if (point == UINT32_MAX) {
        known = 0;
        return 0;
    }
    if (!known)
        for (size_t i = 0; i + 1 < lengths[EXITS]; i += 2)
            entries[tables[EXITS][i]] = tables[EXITS][i + 1];
    known = 1;
    return entries[point];
}

static uint32_t next_in_lanes(uint32_t a)
{
    return a % 20 < 19 ? a + 1 : exit_from(a);
}

static uint32_t next_in_zone(uint32_t a)
{
    uint32_t first = 1, points = LARGEST + 2 * LARGEST, b = first + draw(points);
    return a < first ? first : b != a ? b : first + (b - first + 1) % points;
}

static uint32_t next_in_both(uint32_t a)
{
    const uint32_t lanes = BOTH * BOTH_LANE, size = BOTH_PERIMETER + 2;
    if (a < lanes)
        return a % BOTH_LANE < BOTH_LANE - 1 ? a + 1 : exit_from(a);
    uint32_t zone = (a - lanes) / size, at = (a - lanes) % size;
    if (at == 1)
        return exit_from(a);
    return lanes + zone * size + (at == size - 1 ? 1 : at == 0 ? 5 + draw(12) : size - 1);     /* in, about, to the spot, to the way out */
}

struct shape { const char *name; void (*build)(void); uint32_t (*next)(uint32_t), first, steps, goals; };
static const struct shape shapes[] = {
    {"lanes", build_lanes, next_in_lanes, 0, MOST_STEPS, 1}, {"zone", build_zone, next_in_zone, 1, MOST_STEPS, 1},        {"both", build_both, next_in_both, 0, MOST_STEPS, 1},
    {"exits", build_exits, exit_from, 0, 100000, 1},         {"goals", build_lanes, next_in_lanes, 0, MOST_STEPS, LARGEST},
};

/* ---- the pair */

static void lend(int i, size_t rows)
{
    free(tables[i]);
    lengths[i] = rows * strides[i];
    tables[i] = must(calloc(lengths[i] + 1, sizeof(uint32_t)));
}

#define LENT(i) tables[i], lengths[i]
#define TEXTS KASTEPUHM_MARCH_2007, (const uint8_t *)rndf, rndf_length, (const uint8_t *)mdf, mdf_length
#define NETWORK LENT(SEGMENTS), LENT(LANES), LENT(ZONES), LENT(SPOTS), (int32_t *)tables[POINTS], lengths[POINTS], LENT(CHECKPOINTS), LENT(STOPS), LENT(EXITS)

/* Just the rows needed: first as many as the text can have lines. */
static void lend_all(uint32_t goals)
{
    for (int i = 0; i < TABLES; i++)
        lend(i, rndf_length / 6 + 1);
    kastepuhm_answer a = kastepuhm_read_rndf(KASTEPUHM_MARCH_2007, (const uint8_t *)rndf, rndf_length, NETWORK);
    const uint32_t rows[TABLES] = {a.segments, a.lanes, a.zones, a.spots, a.points, a.checkpoints, a.stops, a.exits, goals, a.segments + a.zones};
    for (int i = 0; i < TABLES; i++)
        lend(i, rows[i]);
    a = kastepuhm_read_rndf(KASTEPUHM_MARCH_2007, (const uint8_t *)rndf, rndf_length, NETWORK);
    if (!a.accepted) {
        printf("refused %u %u %u\n", a.file, a.line, a.number);
        exit(1);
    }
}

/* A mission with so many goals at rising places of the route, the last at its end. */
static void build_mission(uint32_t steps, uint32_t goals)
{
    uint32_t ids = (uint32_t)(lengths[SEGMENTS] / 4 + lengths[ZONES] / 6), met = 0, marked = 0;
    for (uint32_t i = 0; i < steps; i++)
        marked += numbers[route[i]] != 0;
    mdf_length = 0;
    if (goals > marked)
        goals = marked;
    lend(GOALS, goals);
    PUT_MDF("MDF_name\tm\nRNDF\tbench\ncheckpoints\nnum_checkpoints\t%u\n", goals);
    for (uint32_t i = 0; i < steps; i++)
        if (numbers[route[i]] != 0 && ++met > marked - goals)
            PUT_MDF("%u\n", numbers[route[i]]);
    PUT_MDF("end_checkpoints\nspeed_limits\nnum_speed_limits\t%u\n", ids);
    for (uint32_t i = 1; i <= ids; i++)
        PUT_MDF("%u\t0\t0\n", i);
    PUT_MDF("end_speed_limits\nend_file\n");
}

/* ---- time */

static double now(void)
{
    struct timespec t;
    clock_gettime(CLOCK_THREAD_CPUTIME_ID, &t);
    return (double)t.tv_sec + 1e-9 * (double)t.tv_nsec;
}

static double best_of_three(int judged, uint32_t steps)
{
    double best = 1e30;
    for (int runs = 0; runs < 3; runs++) {
        double start = now();
        kastepuhm_answer a = judged ? kastepuhm_check_route(TEXTS, NETWORK, LENT(GOALS), LENT(LIMITS), route[0], route, steps) : kastepuhm_read_pair(TEXTS, NETWORK, LENT(GOALS), LENT(LIMITS));
        double took = now() - start;
        best = took < best ? took : best;
        if (!a.accepted) {
            printf("refused %u %u %u\n", a.file, a.line, a.number);
            exit(1);
        }
    }
    return best;
}

int main(void)
{
    rndf = must(malloc(64u << 20));
    mdf = must(malloc(4u << 20));
    route = must(malloc(MOST_STEPS * sizeof *route));
    printf("shape      RNDF's bytes     steps    goals  read pair, s  judge, s  nanoseconds to a step\n");
    for (size_t s = 0; s < sizeof shapes / sizeof *shapes; s++) {
        const struct shape *shape = &shapes[s];
        rndf_length = 0;
        for (size_t i = 0; i < sizeof numbers / sizeof *numbers; i++)
            numbers[i] = 0;
        shape->build();
        for (uint32_t most = shape->steps / 100; most <= shape->steps; most *= 10) {
            uint32_t steps = 0;
            lend_all(shape->goals);
            exit_from(UINT32_MAX);
            route[0] = shape->first;
            for (uint32_t i = 1; i < most; i++)
                route[i] = shape->next(route[i - 1]);
            for (uint32_t i = 0; i < most; i++)
                if (numbers[route[i]] != 0)
                    steps = i + 1;
            build_mission(steps, shape->goals);
            double read = best_of_three(0, steps), judged = best_of_three(1, steps);
            printf("%-10s %12zu %9u %8zu %13.3f %9.3f %22.1f\n", shape->name, rndf_length, steps, lengths[GOALS], read, judged, (judged - read) * 1e9 / steps);
            fflush(stdout);
        }
    }
    return 0;
}

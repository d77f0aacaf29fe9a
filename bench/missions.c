/*
 * Times whether missions can be driven (kastepuhm_check_mission, which reads the pair first) beside the reading of the same pair (bench/missions.sh builds and runs it), on networks of these
 * shapes:
 *
 *     yard          about 1 MB: lanes and zones in turn, from each zone an exit to the next lane and one to any; 500 goals, all different
 *     zone          a zone of 32,768 perimeter points and 32,768 spots, a checkpoint in each; 1,000 goals, all different
 *     zone, all     the same with every spot as a goal
 *     from a lane   a lane of 32,768 waypoints with an exit from each, whose points are entered from the last to the first: by exits of another lane's points, in their order. What
 *                   is entered last has the only exit that leads on, to the goal
 *     lane, 5 goals the same with five goals, from each of which the way to the next is the whole way round again
 *     from a point  as from a lane, entered by the exits of one point, written from the last entry to the first
 *     to and fro    the same, written from the first entry to the last
 *     lanes         23,000 lanes of 20 waypoints, 16 MB, from each lane's end an exit to another's beginning, one round through all; 5 goals
 *     lanes, some   the same with 500 goals, all different
 *     two in turn   as lanes, with two goals in turn, 32,768 in all
 *
 * Every mission can be driven. A time is the best of three runs, or the first if it takes over two seconds, in processor time of this thread.
 */
#define _GNU_SOURCE
#include "kastepuhm.h"

#include <stdio.h>
#include <stdlib.h>
#include <string.h>
#include <time.h>

enum { TABLES = 10, LARGEST = 32768 };
enum { SEGMENTS, LANES, ZONES, SPOTS, POINTS, CHECKPOINTS, STOPS, EXITS, GOALS, LIMITS };
static const size_t strides[TABLES] = {KASTEPUHM_SEGMENT_STRIDE,    KASTEPUHM_LANE_STRIDE, KASTEPUHM_ZONE_STRIDE, KASTEPUHM_SPOT_STRIDE, KASTEPUHM_POINT_STRIDE,
                                       KASTEPUHM_CHECKPOINT_STRIDE, KASTEPUHM_STOP_STRIDE, KASTEPUHM_EXIT_STRIDE, KASTEPUHM_GOAL_STRIDE, KASTEPUHM_LIMIT_STRIDE};

static char *rndf, *mdf;
static size_t rndf_length, mdf_length;
static uint32_t *tables[TABLES], *work;
static size_t lengths[TABLES], work_length;

static uint32_t draw(uint32_t below)
{
    static uint32_t seed = 1;
    seed = seed * 1664525u + 1013904223u;
    return (uint32_t)((uint64_t)seed * below >> 32);
}

static void *must(void *memory)
{
    if (memory == NULL)
        exit(2);
    return memory;
}

static void shuffle(uint32_t *numbered, uint32_t count)
{
    for (uint32_t i = 0; i < count; i++)
        numbered[i] = i;
    for (uint32_t i = count - 1; i > 0; i--) {
        uint32_t j = draw(i + 1), other = numbered[j];
        numbered[j] = numbered[i];
        numbered[i] = other;
    }
}

#define PUT(...) (rndf_length += (size_t)sprintf(rndf + rndf_length, __VA_ARGS__))
#define PUT_MDF(...) (mdf_length += (size_t)sprintf(mdf + mdf_length, __VA_ARGS__))

static void put_points(uint32_t x, uint32_t y, uint32_t count)
{
    for (uint32_t z = 1; z <= count; z++)
        PUT("%u.%u.%u\t45.%06u\t-93.%06u\n", x, y, z, draw(1000000), draw(1000000));
}

/* ---- networks; each has the checkpoint numbers from 1 on, and the tractor stands at the first point */

enum { YARD = 750, YARD_LANE = 16, YARD_PERIMETER = 24 };

static void build_yard(void)
{
    PUT("RNDF_name\tbench\nnum_segments\t%d\nnum_zones\t%d\n", YARD, YARD);
    for (uint32_t m = 1; m <= YARD; m++) {
        PUT("segment\t%u\nnum_lanes\t1\nlane\t%u.1\nnum_waypoints\t%d\ncheckpoint\t%u.1.1\t%u\nexit\t%u.1.%d\t%u.0.1\n", m, m, YARD_LANE, m, m, m, YARD_LANE, YARD + m);
        put_points(m, 1, YARD_LANE);
        PUT("end_lane\nend_segment\n");
    }
    for (uint32_t m = 1; m <= YARD; m++) {
        uint32_t z = YARD + m;
        PUT("zone\t%u\nnum_spots\t1\nperimeter\t%u.0\nnum_perimeterpoints\t%d\nexit\t%u.0.2\t%u.1.1\nexit\t%u.0.3\t%u.1.%u\n", z, z, YARD_PERIMETER, z, m % YARD + 1, z, 1 + draw(YARD), 1 + draw(YARD_LANE));
        put_points(z, 0, YARD_PERIMETER);
        PUT("end_perimeter\nspot\t%u.1\ncheckpoint\t%u.1.2\t%u\n", z, z, z);
        put_points(z, 1, 2);
        PUT("end_spot\nend_zone\n");
    }
    PUT("end_file\n");
}

static void build_zone(void)
{
    PUT("RNDF_name\tbench\nnum_segments\t1\nnum_zones\t1\nsegment\t1\nnum_lanes\t1\nlane\t1.1\nnum_waypoints\t1\nexit\t1.1.1\t2.0.1\n");
    put_points(1, 1, 1);
    PUT("end_lane\nend_segment\nzone\t2\nnum_spots\t%d\nperimeter\t2.0\nnum_perimeterpoints\t%d\n", LARGEST, LARGEST);
    put_points(2, 0, LARGEST);
    PUT("end_perimeter\n");
    for (uint32_t n = 1; n <= LARGEST; n++) {
        PUT("spot\t2.%u\ncheckpoint\t2.%u.2\t%u\n", n, n, n);
        put_points(2, n, 2);
        PUT("end_spot\n");
    }
    PUT("end_zone\nend_file\n");
}

/*
 * Lane 1.1, from which lane 1.2 is entered: its n-th exit is from one point or from point n, to the entry that `way` says. Of lane 1.2 the first point alone has exits that lead on, to the goals:
 * lanes of one point with an exit to lane 1.1's first.
 */
static void put_entered(uint32_t points, uint32_t (*way)(uint32_t), uint32_t goals)
{
    PUT("RNDF_name\tbench\nnum_segments\t1\nnum_zones\t0\nsegment\t1\nnum_lanes\t%u\nlane\t1.1\nnum_waypoints\t%u\n", 2 + goals, points);
    for (uint32_t n = 1; n <= LARGEST; n++)
        PUT("exit\t1.1.%u\t1.2.%u\n", points > 1 ? n : 1, way(n));
    put_points(1, 1, points);
    PUT("end_lane\nlane\t1.2\nnum_waypoints\t%d\n", LARGEST);
    for (uint32_t n = 3; n < 3 + goals; n++)
        PUT("exit\t1.2.1\t1.%u.1\n", n);
    for (uint32_t n = 2; n <= LARGEST; n++)
        PUT("exit\t1.2.%u\t1.2.%u\n", n, n + draw(LARGEST + 1 - n));
    put_points(1, 2, LARGEST);
    for (uint32_t n = 3; n < 3 + goals; n++) {
        PUT("end_lane\nlane\t1.%u\nnum_waypoints\t1\ncheckpoint\t1.%u.1\t%u\nexit\t1.%u.1\t1.1.1\n", n, n, n - 2, n);
        put_points(1, n, 1);
    }
    PUT("end_lane\nend_segment\nend_file\n");
}

static uint32_t back_to_front(uint32_t n) { return LARGEST + 1 - n; }
static uint32_t front_to_back(uint32_t n) { return n; }
static void build_from_lane(void) { put_entered(LARGEST, back_to_front, 1); }
static void build_lane_goals(void) { put_entered(LARGEST, back_to_front, 5); }
static void build_from_point(void) { put_entered(1, back_to_front, 1); }
static void build_to_and_fro(void) { put_entered(1, front_to_back, 1); }

enum { ROUND = 23000 };

static void build_lanes(void)
{
    static uint32_t round[ROUND], next[ROUND];
    shuffle(round, ROUND);
    for (uint32_t i = 0; i < ROUND; i++)
        next[round[i]] = round[(i + 1) % ROUND];
    PUT("RNDF_name\tbench\nnum_segments\t1\nnum_zones\t0\nsegment\t1\nnum_lanes\t%d\n", ROUND);
    for (uint32_t n = 1; n <= ROUND; n++) {
        PUT("lane\t1.%u\nnum_waypoints\t20\ncheckpoint\t1.%u.1\t%u\nexit\t1.%u.20\t1.%u.1\n", n, n, n, n, next[n - 1] + 1);
        put_points(1, n, 20);
        PUT("end_lane\n");
    }
    PUT("end_segment\nend_file\n");
}

/* kinds: how many goals are different; these come in turn */
struct shape { const char *name; void (*build)(void); uint32_t numbers, kinds, goals; };
static const struct shape shapes[] = {
    {"yard", build_yard, 2 * YARD, 500, 500},           {"zone", build_zone, LARGEST, 1000, 1000},       {"zone, all", build_zone, LARGEST, LARGEST, LARGEST},
    {"from a lane", build_from_lane, 1, 1, 1},          {"lane, 5 goals", build_lane_goals, 5, 5, 5},    {"from a point", build_from_point, 1, 1, 1},
    {"to and fro", build_to_and_fro, 1, 1, 1},          {"lanes", build_lanes, ROUND, 5, 5},             {"lanes, some", build_lanes, ROUND, 500, 500},
    {"two in turn", build_lanes, ROUND, 2, LARGEST},
};

/* ---- the pair */

static void lend(int i, size_t rows)
{
    free(tables[i]);
    lengths[i] = rows * strides[i];
    tables[i] = must(calloc(lengths[i] + 1, sizeof(uint32_t)));
}

#define LENT(i) tables[i], lengths[i]
#define TEXTS KASTEPUHM_MARCH_2007, (const uint8_t *)rndf, rndf_length, (const uint8_t *)mdf, mdf_length
#define NETWORK LENT(SEGMENTS), LENT(LANES), LENT(ZONES), LENT(SPOTS), (int32_t *)tables[POINTS], lengths[POINTS], LENT(CHECKPOINTS), LENT(STOPS), LENT(EXITS)

static void must_be_accepted(kastepuhm_answer a)
{
    if (!a.accepted) {
        printf("refused %u %u %u\n", a.file, a.line, a.number);
        exit(1);
    }
}

/* Just the rows needed: first as many as the text can have lines. */
static void lend_all(uint32_t goals)
{
    for (int i = 0; i < TABLES; i++)
        lend(i, rndf_length / 6 + 1);
    kastepuhm_answer a = kastepuhm_read_rndf(KASTEPUHM_MARCH_2007, (const uint8_t *)rndf, rndf_length, NETWORK);
    must_be_accepted(a);
    const uint32_t rows[TABLES] = {a.segments, a.lanes, a.zones, a.spots, a.points, a.checkpoints, a.stops, a.exits, goals, a.segments + a.zones};
    for (int i = 0; i < TABLES; i++)
        lend(i, rows[i]);
    free(work);
    work_length = (size_t)a.points * KASTEPUHM_WORK_STRIDE;
    work = must(calloc(work_length + 1, sizeof(uint32_t)));
}

static void build_mission(const struct shape *shape)
{
    static uint32_t order[LARGEST];
    uint32_t ids = (uint32_t)(lengths[SEGMENTS] / strides[SEGMENTS] + lengths[ZONES] / strides[ZONES]);
    shuffle(order, shape->numbers);
    mdf_length = 0;
    PUT_MDF("MDF_name\tm\nRNDF\tbench\ncheckpoints\nnum_checkpoints\t%u\n", shape->goals);
    for (uint32_t i = 0; i < shape->goals; i++)
        PUT_MDF("%u\n", order[i % shape->kinds] + 1);
    PUT_MDF("end_checkpoints\nspeed_limits\nnum_speed_limits\t%u\n", ids);
    for (uint32_t i = 1; i <= ids; i++)
        PUT_MDF("%u\t0\t0\n", i);
    PUT_MDF("end_speed_limits\nend_file\n");
}

/* ---- time */

static double now(void)
{
    struct timespec t;
    clock_gettime(CLOCK_THREAD_CPUTIME_ID, &t);
    return (double)t.tv_sec + 1e-9 * (double)t.tv_nsec;
}

static double best_of_three(int checked)
{
    double best = 1e30;
    for (int runs = 0; runs < 3 && (runs == 0 || best < 2); runs++) {
        double begun = now();
        kastepuhm_answer a = checked ? kastepuhm_check_mission(TEXTS, NETWORK, LENT(GOALS), LENT(LIMITS), 0, work, work_length) : kastepuhm_read_pair(TEXTS, NETWORK, LENT(GOALS), LENT(LIMITS));
        double took = now() - begun;
        best = took < best ? took : best;
        must_be_accepted(a);
    }
    return best;
}

int main(int words, char **word)
{
    rndf = must(malloc(64u << 20));
    mdf = must(malloc(4u << 20));
    printf("case          RNDF's bytes    points     exits     goals  read pair, ms    check, ms\n");
    for (size_t s = 0; s < sizeof shapes / sizeof *shapes; s++) {
        const struct shape *shape = &shapes[s];
        if (words > 1 && strcmp(word[1], shape->name) != 0)
            continue;
        rndf_length = 0;
        shape->build();
        lend_all(shape->goals);
        build_mission(shape);
        double read = best_of_three(0), checked = best_of_three(1);
        printf("%-13s %12zu %9zu %9zu %9u %14.1f %12.1f\n", shape->name, rndf_length, lengths[POINTS] / strides[POINTS], lengths[EXITS] / strides[EXITS], shape->goals, read * 1e3, checked * 1e3);
        fflush(stdout);
    }
    return 0;
}

/*
 * Times our reader beside the C reader of bench/creader, with and without its shortcuts, and beside an ordinary one in C++ (bench/creader/typical.cpp), on the texts of texts.c
 * (bench/run.sh builds and runs it):
 *
 *     bench SECONDS SIZE..      SECONDS for each text and reader; SIZE in bytes
 *
 * All read the same text in turn, each into its own tables, which have 16 rows more than needed; a time is the best of at least five runs, in processor time of this thread. Their
 * replies and tables are compared; they must be the same. The stack is what a reader wrote on a stack painted beforehand; ours has some 500 bytes of
 * read_ours below in it (tests/stack.py has the library's own), and the ordinary one allocates besides.
 */
#define _GNU_SOURCE
#include "creader/creader.h"
#include "kastepuhm.h"
#include "texts.h"

#include <stdio.h>
#include <stdlib.h>
#include <string.h>
#include <time.h>
#include <ucontext.h>

enum { OURS, C, C_PLAIN, ORDINARY, READERS };
enum { RNDF_TABLES = 8, TABLES = 10, MOST_SIZES = 8, STACK = 1 << 20 };
static const uint32_t columns[TABLES] = {4, 5, 6, 2, 2, 2, 1, 2, 1, 3};

/* ---- readers */

typedef cr_reply reader(const struct text *rndf, const struct text *mdf, const cr_tables *t);

extern cr_reply plain_read_rndf(const void *, size_t, const cr_tables *);
extern cr_reply plain_read_pair(const void *, size_t, const void *, size_t, const cr_tables *);
extern cr_reply other_read_rndf(const void *, size_t, const cr_tables *);
extern cr_reply other_read_pair(const void *, size_t, const void *, size_t, const cr_tables *);

#define LENT(table, stride) t->table.cells, (size_t)t->table.rows * KASTEPUHM_##stride##_STRIDE
#define NETWORK LENT(segments, SEGMENT), LENT(lanes, LANE), LENT(zones, ZONE), LENT(spots, SPOT), LENT(points, POINT), LENT(checkpoints, CHECKPOINT), LENT(stops, STOP), LENT(exits, EXIT)
#define NAME(n) {a.n.start, a.n.length}

static cr_reply read_ours(const struct text *rndf, const struct text *mdf, const cr_tables *t)
{
    const uint8_t *r = (const uint8_t *)rndf->bytes, *m = (const uint8_t *)mdf->bytes;
    kastepuhm_answer a = mdf->length ? kastepuhm_read_pair(KASTEPUHM_MARCH_2007, r, rndf->length, m, mdf->length, NETWORK, LENT(goals, GOAL), LENT(limits, LIMIT)) : kastepuhm_read_rndf(KASTEPUHM_MARCH_2007, r, rndf->length, NETWORK);
    return (cr_reply){(int)a.accepted, a.file, a.line, a.number,
                      {a.segments, a.lanes, a.zones, a.spots, a.points, a.checkpoints, a.stops, a.exits, a.goals, a.limits},
                      {NAME(rndf_name), NAME(rndf_version), NAME(rndf_date), {0, 0}},
                      {NAME(mdf_name), NAME(mdf_version), NAME(mdf_date), NAME(mdf_rndf)}};
}

static cr_reply read_c(const struct text *rndf, const struct text *mdf, const cr_tables *t)
{
    return mdf->length ? read_pair(rndf->bytes, rndf->length, mdf->bytes, mdf->length, t) : read_rndf(rndf->bytes, rndf->length, t);
}

static cr_reply read_c_plain(const struct text *rndf, const struct text *mdf, const cr_tables *t)
{
    return mdf->length ? plain_read_pair(rndf->bytes, rndf->length, mdf->bytes, mdf->length, t) : plain_read_rndf(rndf->bytes, rndf->length, t);
}

static cr_reply read_ordinary(const struct text *rndf, const struct text *mdf, const cr_tables *t)
{
    return mdf->length ? other_read_pair(rndf->bytes, rndf->length, mdf->bytes, mdf->length, t) : other_read_rndf(rndf->bytes, rndf->length, t);
}

static cr_reply read_nothing(const struct text *rndf, const struct text *mdf, const cr_tables *t)
{
    (void)rndf, (void)mdf, (void)t;
    return (cr_reply){0};
}

static reader *const readers[READERS] = {read_ours, read_c, read_c_plain, read_ordinary};

/* ---- tables */

struct lent { uint32_t *cells[TABLES]; size_t bytes[TABLES]; cr_tables t; };

static void lend(struct lent *l, const uint32_t rows[TABLES])
{
    for (int i = 0; i < TABLES; i++) {
        l->bytes[i] = (size_t)rows[i] * columns[i] * sizeof(uint32_t);
        l->cells[i] = malloc(l->bytes[i] + 1);
        if (l->cells[i] == NULL)
            exit(1);
        memset(l->cells[i], 0xa5, l->bytes[i]);
    }
#define T(i) {l->cells[i], columns[i], rows[i]}
    l->t = (cr_tables){T(0), T(1), T(2), T(3), {(int32_t *)l->cells[4], columns[4], rows[4]}, T(5), T(6), T(7), T(8), T(9)};
}

static void give_back(struct lent *l)
{
    for (int i = 0; i < TABLES; i++)
        free(l->cells[i]);
}

/* How many rows the texts need, and 16 more. */
static void rows_for(const struct text *rndf, const struct text *mdf, uint32_t rows[TABLES])
{
    struct lent l;
    for (int i = 0; i < TABLES; i++)
        rows[i] = (uint32_t)((rndf->length + mdf->length) / (i == 8 ? 2 : 6));
    lend(&l, rows);
    cr_rows used = read_c(rndf, mdf, &l.t).used;
    give_back(&l);
    const uint32_t needed[TABLES] = {used.segments, used.lanes, used.zones, used.spots, used.points, used.checkpoints, used.stops, used.exits, used.goals, used.limits};
    for (int i = 0; i < TABLES; i++)
        rows[i] = needed[i] + 16;
}

static int same_tables(const struct lent *a, const struct lent *b, int tables)
{
    for (int i = 0; i < tables; i++)
        if (memcmp(a->cells[i], b->cells[i], a->bytes[i]) != 0)
            return 0;
    return 1;
}

/* ---- stack */

static struct { reader *read; const struct text *rndf, *mdf; const cr_tables *t; ucontext_t back, there; } call;

static void call_there(void)
{
    call.read(call.rndf, call.mdf, call.t);
}

static size_t painted_stack(reader *read, const struct text *rndf, const struct text *mdf, const cr_tables *t)
{
    static unsigned char stack[STACK];
    size_t untouched = 0;
    memset(stack, 0xa5, STACK);
    call.read = read, call.rndf = rndf, call.mdf = mdf, call.t = t;
    getcontext(&call.there);
    call.there.uc_stack.ss_sp = stack;
    call.there.uc_stack.ss_size = STACK;
    call.there.uc_link = &call.back;
    makecontext(&call.there, call_there, 0);
    swapcontext(&call.back, &call.there);
    while (untouched < STACK && stack[untouched] == 0xa5)
        untouched++;
    return STACK - untouched;
}

/* ---- time */

static double now(void)
{
    struct timespec t;
    clock_gettime(CLOCK_THREAD_CPUTIME_ID, &t);
    return (double)t.tv_sec * 1e9 + (double)t.tv_nsec;
}

/* Nanoseconds to a byte of each reader, or the end of the program if they do not agree. */
static void time_text(const struct shape *shape, const struct text *rndf, const struct text *mdf, double seconds, double ns[READERS], size_t stack[READERS])
{
    uint32_t rows[TABLES];
    struct lent l[READERS];
    cr_reply reply[READERS];
    double best[READERS], spent[READERS];
    rows_for(rndf, mdf, rows);
    for (int i = 0; i < READERS; i++) {
        lend(&l[i], rows);
        memset(&reply[i], 0, sizeof reply[i]);
        best[i] = 1e30, spent[i] = 0;
    }
    for (int runs = 0, more = 1; more; runs++) {
        more = 0;
        for (int i = 0; i < READERS; i++) {
            if (runs >= 5 && spent[i] >= seconds * 1e9)
                continue;
            double start = now();
            reply[i] = readers[i](rndf, mdf, &l[i].t);
            double took = now() - start;
            spent[i] += took;
            best[i] = took < best[i] ? took : best[i];
            more = 1;
        }
    }
    for (int i = 0; i < READERS; i++) {
        if (!reply[i].accepted || memcmp(&reply[i], &reply[C], sizeof *reply) != 0 || !same_tables(&l[i], &l[C], mdf->length ? TABLES : RNDF_TABLES)) {
            printf("%s: REPLIES OR TABLES DIFFER\n", shape->name);
            exit(1);
        }
        ns[i] = best[i] / (double)(rndf->length + mdf->length);
        stack[i] = painted_stack(readers[i], rndf, mdf, &l[i].t) - painted_stack(read_nothing, rndf, mdf, &l[i].t);
    }
    for (int i = 0; i < READERS; i++)
        give_back(&l[i]);
}

int main(int count, char **words)
{
    double ns[MOST_SIZES][SHAPES][READERS];
    size_t stack[READERS], most[READERS] = {0};
    int sizes = count - 2;
    struct text rndf = {malloc(64u << 20), 0}, mdf = {malloc(4u << 20), 0};
    if (sizes < 1 || sizes > MOST_SIZES || rndf.bytes == NULL || mdf.bytes == NULL)
        return 2;
    printf("                      nanoseconds to a byte                  time, ours by                stack in bytes\n");
    printf("shape          bytes     ours        C  C plain ordinary        C  C plain ordinary       ours        C  C plain ordinary\n");
    for (int z = 0; z < sizes; z++)
        for (int s = 0; s < SHAPES; s++) {
            double *n = ns[z][s];
            build(&shapes[s], strtoul(words[z + 2], NULL, 10), &rndf, &mdf);
            time_text(&shapes[s], &rndf, &mdf, atof(words[1]), n, stack);
            printf("%-10s %9zu %8.3f %8.3f %8.3f %8.3f %8.2f %8.2f %8.2f %10zu %8zu %8zu %8zu\n", shapes[s].name, rndf.length + mdf.length, n[OURS], n[C], n[C_PLAIN], n[ORDINARY],
                   n[OURS] / n[C], n[OURS] / n[C_PLAIN], n[OURS] / n[ORDINARY], stack[OURS], stack[C], stack[C_PLAIN], stack[ORDINARY]);
            fflush(stdout);
            for (int i = 0; i < READERS; i++)
                most[i] = stack[i] > most[i] ? stack[i] : most[i];
        }
    printf("all replies and tables are the same; most stack: ours %zu, C %zu, C plain %zu, ordinary %zu bytes\n", most[OURS], most[C], most[C_PLAIN], most[ORDINARY]);
    for (int s = 0; s < SHAPES && sizes > 1; s++)
        printf("%s: a byte of the last size takes %.2f times as long as one of the first, in C %.2f, C plain %.2f, ordinary %.2f\n", shapes[s].name, ns[sizes - 1][s][OURS] / ns[0][s][OURS],
               ns[sizes - 1][s][C] / ns[0][s][C], ns[sizes - 1][s][C_PLAIN] / ns[0][s][C_PLAIN], ns[sizes - 1][s][ORDINARY] / ns[0][s][ORDINARY]);
    return 0;
}

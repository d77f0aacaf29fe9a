#ifndef EDITION
#define EDITION 0
#endif
/*
 * Times our reader beside the C reader of bench/creader, with and without its shortcuts, on the texts of texts.c (bench/run.sh builds and runs it):
 *
 *     bench SECONDS SIZE..      SECONDS for each text and reader; SIZE in bytes
 *
 * All read the same text in turn, each into its own tables, which have 16 rows more than needed; a time is the best of at least five runs, in processor time of this thread. Their
 * replies and tables are compared; they must be the same. The stack is what a reader wrote on a stack painted beforehand; ours has some 500 bytes of
 * read_ours below in it (tests/stack.py has the library's own).
 */
#define _GNU_SOURCE
#include "creader/creader.h"
#include "kastepuhm.h"
#include "texts.h"

#include <stdio.h>
#include <stdlib.h>
#include <string.h>
#include <time.h>
#include <ucontext.h>

enum { OURS, C, C_PLAIN, READERS };
enum { RNDF_TABLES = 8, TABLES = 10, MOST_SIZES = 8, STACK = 1 << 20 };
static const uint32_t columns[TABLES] = {4, 5, 6, 2, 2, 2, 1, 2, 1, 3};

/* ---- readers */

typedef cr_reply reader(const struct text *rndf, const struct text *mdf, const cr_tables *t);

extern cr_reply plain_read_rndf(const void *, size_t, const cr_tables *);
extern cr_reply plain_read_pair(const void *, size_t, const void *, size_t, const cr_tables *);

#define LENT(table, stride) t->table.cells, (size_t)t->table.rows * KASTEPUHM_##stride##_STRIDE
#define NETWORK LENT(segments, SEGMENT), LENT(lanes, LANE), LENT(zones, ZONE), LENT(spots, SPOT), LENT(points, POINT), LENT(checkpoints, CHECKPOINT), LENT(stops, STOP), LENT(exits, EXIT)
#define NAME(n) {a.n.start, a.n.length}

static cr_reply read_ours(const struct text *rndf, const struct text *mdf, const cr_tables *t)
{
    const uint8_t *r = (const uint8_t *)rndf->bytes, *m = (const uint8_t *)mdf->bytes;
    kastepuhm_answer a = mdf->length ? kastepuhm_read_pair(EDITION, r, rndf->length, m, mdf->length, NETWORK, LENT(goals, GOAL), LENT(limits, LIMIT)) : kastepuhm_read_rndf(EDITION, r, rndf->length, NETWORK);
    return (cr_reply){(int)a.accepted, a.file, a.line, a.number,
                      {a.segments, a.lanes, a.zones, a.spots, a.points, a.checkpoints, a.stops, a.exits, a.goals, a.limits},
                      {NAME(rndf_name), NAME(rndf_version), NAME(rndf_date), {0, 0}},
                      {NAME(mdf_name), NAME(mdf_version), NAME(mdf_date), NAME(mdf_rndf)}};
}

static cr_reply read_c(const struct text *rndf, const struct text *mdf, const cr_tables *t)
{
    return mdf->length ? read_pair(rndf->bytes, rndf->length, mdf->bytes, mdf->length, t) : read_rndf(rndf->bytes, rndf->length, t);
}

static cr_reply read_c_plain(const struct text *rndf, const struct text *mdf, const cr_tables *t)
{
    return mdf->length ? plain_read_pair(rndf->bytes, rndf->length, mdf->bytes, mdf->length, t) : plain_read_rndf(rndf->bytes, rndf->length, t);
}

static cr_reply read_nothing(const struct text *rndf, const struct text *mdf, const cr_tables *t)
{
    (void)rndf, (void)mdf, (void)t;
    return (cr_reply){0};
}

static reader *const readers[READERS] = {read_ours, read_c, read_c_plain};

/* ---- tables */

struct lent { uint32_t *cells[TABLES]; size_t bytes[TABLES]; cr_tables t; };

static void lend(struct lent *l, const uint32_t rows[TABLES])
{
    for (int i = 0; i < TABLES; i++) {
        l->bytes[i] = (size_t)rows[i] * columns[i] * sizeof(uint32_t);
        l->cells[i] = malloc(l->bytes[i] + 1);
        if (l->cells[i] == NULL)
            exit(1);
        memset(l->cells[i], 0xa5, l->bytes[i]);
    }
#define T(i) {l->cells[i], columns[i], rows[i]}
    l->t = (cr_tables){T(0), T(1), T(2), T(3), {(int32_t *)l->cells[4], columns[4], rows[4]}, T(5), T(6), T(7), T(8), T(9)};
}

static void give_back(struct lent *l)
{
    for (int i = 0; i < TABLES; i++)
        free(l->cells[i]);
}

/* How many rows the texts need, and 16 more. */
static void rows_for(const struct text *rndf, const struct text *mdf, uint32_t rows[TABLES])
{
    struct lent l;
    for (int i = 0; i < TABLES; i++)
        rows[i] = (uint32_t)((rndf->length + mdf->length) / (i == 8 ? 2 : 6));
    lend(&l, rows);
    cr_rows used = read_c(rndf, mdf, &l.t).used;
    give_back(&l);
    const uint32_t needed[TABLES] = {used.segments, used.lanes, used.zones, used.spots, used.points, used.checkpoints, used.stops, used.exits, used.goals, used.limits};
    for (int i = 0; i < TABLES; i++)
        rows[i] = needed[i] + 16;
}

static int same_tables(const struct lent *a, const struct lent *b, int tables)
{
    for (int i = 0; i < tables; i++)
        if (memcmp(a->cells[i], b->cells[i], a->bytes[i]) != 0)
            return 0;
    return 1;
}

/* ---- stack */

static struct { reader *read; const struct text *rndf, *mdf; const cr_tables *t; ucontext_t back, there; } call;

static void call_there(void)
{
    call.read(call.rndf, call.mdf, call.t);
}

static size_t painted_stack(reader *read, const struct text *rndf, const struct text *mdf, const cr_tables *t)
{
    static unsigned char stack[STACK];
    size_t untouched = 0;
    memset(stack, 0xa5, STACK);
    call.read = read, call.rndf = rndf, call.mdf = mdf, call.t = t;
    getcontext(&call.there);
    call.there.uc_stack.ss_sp = stack;
    call.there.uc_stack.ss_size = STACK;
    call.there.uc_link = &call.back;
    makecontext(&call.there, call_there, 0);
    swapcontext(&call.back, &call.there);
    while (untouched < STACK && stack[untouched] == 0xa5)
        untouched++;
    return STACK - untouched;
}

/* ---- time */

static double now(void)
{
    struct timespec t;
    clock_gettime(CLOCK_THREAD_CPUTIME_ID, &t);
    return (double)t.tv_sec * 1e9 + (double)t.tv_nsec;
}

/* Nanoseconds to a byte of each reader, or the end of the program if they do not agree. */
static void time_text(const struct shape *shape, const struct text *rndf, const struct text *mdf, double seconds, double ns[READERS], size_t stack[READERS])
{
    uint32_t rows[TABLES];
    struct lent l[READERS];
    cr_reply reply[READERS];
    double best[READERS] = {1e30, 1e30, 1e30}, spent = 0;
    rows_for(rndf, mdf, rows);
    for (int i = 0; i < READERS; i++) {
        lend(&l[i], rows);
        memset(&reply[i], 0, sizeof reply[i]);
    }
    for (int runs = 0; runs < 5 || spent < seconds * 1e9 * READERS; runs++)
        for (int i = 0; i < READERS; i++) {
            double start = now();
            reply[i] = readers[i](rndf, mdf, &l[i].t);
            double took = now() - start;
            spent += took;
            best[i] = took < best[i] ? took : best[i];
        }
    for (int i = 0; i < READERS; i++) {
        if (!reply[i].accepted || memcmp(&reply[i], &reply[C], sizeof *reply) != 0 || !same_tables(&l[i], &l[C], mdf->length ? TABLES : RNDF_TABLES)) {
            printf("%s: REPLIES OR TABLES DIFFER\n", shape->name);
            exit(1);
        }
        ns[i] = best[i] / (double)(rndf->length + mdf->length);
        stack[i] = painted_stack(readers[i], rndf, mdf, &l[i].t) - painted_stack(read_nothing, rndf, mdf, &l[i].t);
    }
    for (int i = 0; i < READERS; i++)
        give_back(&l[i]);
}

__attribute__((noinline)) void measured(int i, struct text *r, struct text *m, cr_tables *t) { volatile cr_reply x = readers[i](r, m, t); (void)x; }
int main(int count, char **w)
{
    struct text rndf = {malloc(64u << 20), 0}, mdf = {malloc(4u << 20), 0};
    uint32_t rows[TABLES]; struct lent l;
    int s = atoi(w[1]), i = atoi(w[2]), n = atoi(w[3]);
    build(&shapes[s], 1048576, &rndf, &mdf);
    rows_for(&rndf, &mdf, rows); lend(&l, rows);
    for (int k = 0; k < n; k++) measured(i, &rndf, &mdf, &l.t);
    if (count > 4) { size_t lines = 0; for (size_t k = 0; k < rndf.length; k++) lines += rndf.bytes[k] == 10; for (size_t k = 0; k < mdf.length; k++) lines += mdf.bytes[k] == 10; printf("%zu %zu\n", lines, rndf.length + mdf.length); }
    return 0;
}

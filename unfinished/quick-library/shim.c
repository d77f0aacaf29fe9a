/* The names of include/kastepuhm.h over the functions as the kit compiles them inside a program: slices by pointers to pointer and length. */
#include "kastepuhm.h"
struct sl { const void *p; size_t n; };
typedef struct sl *S;
extern void ours_read_rndf(kastepuhm_answer *, uint32_t, S, S, S, S, S, S, S, S, S);
extern void ours_read_pair(kastepuhm_answer *, uint32_t, S, S, S, S, S, S, S, S, S, S, S, S);
extern void ours_check_route(kastepuhm_answer *, uint32_t, S, S, S, S, S, S, S, S, S, S, S, S, uint32_t, S);
extern void ours_check_mission(kastepuhm_answer *, uint32_t, S, S, S, S, S, S, S, S, S, S, S, S, uint32_t, S);
extern void ours_write_rndf(kastepuhm_write_answer *, uint32_t, S, S, S, S, S, S, S, S, S, S);
extern void ours_write_map(kastepuhm_write_answer *, uint32_t, S, S, S, S, S, S, S, S, S, S);
extern void ours_write_mdf(kastepuhm_write_answer *, uint32_t, S, S, S, S, S, S, S, S, S, S, S, S, S);
extern uint32_t ours_point_of(S, uint32_t);
extern void ours_points_of(kastepuhm_list_answer *, S, S, S);
#define RNDF_TABLES uint32_t *a, size_t an, uint32_t *b, size_t bn, uint32_t *c, size_t cn, uint32_t *d, size_t dn, int32_t *e, size_t en, uint32_t *f, size_t fn, uint32_t *g, size_t gn, uint32_t *h, size_t hn
#define MDF_TABLES uint32_t *i, size_t in, uint32_t *j, size_t jn
#define PAIR struct sl s[13] = {{t, tn}, {m, mn}, {a, an}, {b, bn}, {c, cn}, {d, dn}, {e, en}, {f, fn}, {g, gn}, {h, hn}, {i, in}, {j, jn}}
#define TWELVE s, s + 1, s + 2, s + 3, s + 4, s + 5, s + 6, s + 7, s + 8, s + 9, s + 10, s + 11
kastepuhm_answer kastepuhm_read_rndf(uint32_t ed, const uint8_t *t, size_t tn, RNDF_TABLES)
{
    kastepuhm_answer r;
    struct sl s[9] = {{t, tn}, {a, an}, {b, bn}, {c, cn}, {d, dn}, {e, en}, {f, fn}, {g, gn}, {h, hn}};
    ours_read_rndf(&r, ed, s, s + 1, s + 2, s + 3, s + 4, s + 5, s + 6, s + 7, s + 8);
    return r;
}
kastepuhm_answer kastepuhm_read_pair(uint32_t ed, const uint8_t *t, size_t tn, const uint8_t *m, size_t mn, RNDF_TABLES, MDF_TABLES)
{
    kastepuhm_answer r;
    PAIR;
    ours_read_pair(&r, ed, TWELVE);
    return r;
}
kastepuhm_answer kastepuhm_check_route(uint32_t ed, const uint8_t *t, size_t tn, const uint8_t *m, size_t mn, RNDF_TABLES, MDF_TABLES, uint32_t start, const uint32_t *k, size_t kn)
{
    kastepuhm_answer r;
    PAIR;
    s[12].p = k, s[12].n = kn;
    ours_check_route(&r, ed, TWELVE, start, s + 12);
    return r;
}
kastepuhm_answer kastepuhm_check_mission(uint32_t ed, const uint8_t *t, size_t tn, const uint8_t *m, size_t mn, RNDF_TABLES, MDF_TABLES, uint32_t start, uint32_t *k, size_t kn)
{
    kastepuhm_answer r;
    PAIR;
    s[12].p = k, s[12].n = kn;
    ours_check_mission(&r, ed, TWELVE, start, s + 12);
    return r;
}
kastepuhm_write_answer kastepuhm_write_rndf(uint32_t ed, const uint8_t *t, size_t tn, RNDF_TABLES, uint8_t *k, size_t kn)
{
    kastepuhm_write_answer r;
    struct sl s[10] = {{t, tn}, {a, an}, {b, bn}, {c, cn}, {d, dn}, {e, en}, {f, fn}, {g, gn}, {h, hn}, {k, kn}};
    ours_write_rndf(&r, ed, s, s + 1, s + 2, s + 3, s + 4, s + 5, s + 6, s + 7, s + 8, s + 9);
    return r;
}
kastepuhm_write_answer kastepuhm_write_map(uint32_t ed, const uint8_t *t, size_t tn, RNDF_TABLES, uint8_t *k, size_t kn)
{
    kastepuhm_write_answer r;
    struct sl s[10] = {{t, tn}, {a, an}, {b, bn}, {c, cn}, {d, dn}, {e, en}, {f, fn}, {g, gn}, {h, hn}, {k, kn}};
    ours_write_map(&r, ed, s, s + 1, s + 2, s + 3, s + 4, s + 5, s + 6, s + 7, s + 8, s + 9);
    return r;
}
kastepuhm_write_answer kastepuhm_write_mdf(uint32_t ed, const uint8_t *t, size_t tn, const uint8_t *m, size_t mn, RNDF_TABLES, MDF_TABLES, uint8_t *k, size_t kn)
{
    kastepuhm_write_answer r;
    PAIR;
    s[12].p = k, s[12].n = kn;
    ours_write_mdf(&r, ed, TWELVE, s + 12);
    return r;
}
uint32_t kastepuhm_point_of(const uint32_t *a, size_t an, uint32_t number)
{
    struct sl s = {a, an};
    return ours_point_of(&s, number);
}
kastepuhm_list_answer kastepuhm_points_of(const uint32_t *a, size_t an, const uint32_t *b, size_t bn, uint32_t *c, size_t cn)
{
    kastepuhm_list_answer r;
    struct sl s[3] = {{a, an}, {b, bn}, {c, cn}};
    ours_points_of(&r, s, s + 1, s + 2);
    return r;
}

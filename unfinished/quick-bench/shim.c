#include <stdint.h>
#include <stddef.h>
#include "kastepuhm.h"
struct sl { const void *p; size_t n; };
extern void ours_read_rndf(kastepuhm_answer *, uint32_t, struct sl *, struct sl *, struct sl *, struct sl *, struct sl *, struct sl *, struct sl *, struct sl *, struct sl *);
extern void ours_read_pair(kastepuhm_answer *, uint32_t, struct sl *, struct sl *, struct sl *, struct sl *, struct sl *, struct sl *, struct sl *, struct sl *, struct sl *, struct sl *, struct sl *, struct sl *);
kastepuhm_answer kastepuhm_read_rndf(uint32_t ed, const uint8_t *t, size_t tn, uint32_t *a, size_t an, uint32_t *b, size_t bn, uint32_t *c, size_t cn, uint32_t *d, size_t dn, int32_t *e, size_t en, uint32_t *f, size_t fn, uint32_t *g, size_t gn, uint32_t *h, size_t hn)
{
 kastepuhm_answer r; struct sl s[9]={{t,tn},{a,an},{b,bn},{c,cn},{d,dn},{e,en},{f,fn},{g,gn},{h,hn}};
 ours_read_rndf(&r,ed,s,s+1,s+2,s+3,s+4,s+5,s+6,s+7,s+8); return r;
}
kastepuhm_answer kastepuhm_read_pair(uint32_t ed, const uint8_t *t, size_t tn, const uint8_t *m, size_t mn, uint32_t *a, size_t an, uint32_t *b, size_t bn, uint32_t *c, size_t cn, uint32_t *d, size_t dn, int32_t *e, size_t en, uint32_t *f, size_t fn, uint32_t *g, size_t gn, uint32_t *h, size_t hn, uint32_t *i, size_t in, uint32_t *j, size_t jn)
{
 kastepuhm_answer r; struct sl s[12]={{t,tn},{m,mn},{a,an},{b,bn},{c,cn},{d,dn},{e,en},{f,fn},{g,gn},{h,hn},{i,in},{j,jn}};
 ours_read_pair(&r,ed,s,s+1,s+2,s+3,s+4,s+5,s+6,s+7,s+8,s+9,s+10,s+11); return r;
}

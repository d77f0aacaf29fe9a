#include "kastepuhm.h"
struct sl { const void *p; size_t n; };
extern void ours_mend(kastepuhm_mend_answer *, uint32_t, struct sl *, struct sl *, struct sl *);
kastepuhm_mend_answer kastepuhm_mend(uint32_t ed, const uint8_t *t, size_t tn, uint32_t *l, size_t ln, uint8_t *o, size_t on)
{ kastepuhm_mend_answer r; struct sl s[3]={{t,tn},{l,ln},{o,on}}; ours_mend(&r,ed,s,s+1,s+2); return r; }

#include "kastepuhm.h"
struct sl { const void *p; size_t n; };
extern void ours_expected(kastepuhm_expected_answer *, uint32_t, struct sl *, struct sl *, uint32_t, uint32_t, uint8_t, struct sl *);
kastepuhm_expected_answer kastepuhm_expected(uint32_t e, const uint8_t *r, size_t rn, const uint8_t *m, size_t mn, uint32_t file, uint32_t line, uint8_t number, uint8_t *o, size_t on)
{
    kastepuhm_expected_answer a;
    struct sl s[3] = {{r, rn}, {m, mn}, {o, on}};
    ours_expected(&a, e, s, s + 1, file, line, number, s + 2);
    return a;
}

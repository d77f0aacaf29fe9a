/* Times the reader on texts of one shape and several sizes: lanes of 1,000 waypoints with a checkpoint and an exit each.
 * Prints size, milliseconds (the best of five) and nanoseconds to a byte: the last must not grow with the size. */
#define _POSIX_C_SOURCE 199309L
#include <stdint.h>
#include <stdio.h>
#include <stdlib.h>
#include <time.h>

extern uint32_t timed_read(const uint8_t *, size_t, uint32_t *, size_t, uint32_t *, size_t, uint32_t *, size_t, uint32_t *,
                           size_t, int32_t *, size_t, uint32_t *, size_t, uint32_t *, size_t, uint32_t *, size_t);

static size_t build(char *p, int lanes)
{
    char *start = p;
    p += sprintf(p, "RNDF_name\tyard\nnum_segments\t1\nnum_zones\t0\nsegment\t1\nnum_lanes\t%d\n", lanes);
    for (int n = 1; n <= lanes; n++) {
        p += sprintf(p, "lane\t1.%d\nnum_waypoints\t1000\ncheckpoint\t1.%d.7\t%d\nexit\t1.%d.1000\t1.%d.1\n", n, n, n, n, n % lanes + 1);
        for (int z = 1; z <= 1000; z++)
            p += sprintf(p, "1.%d.%d\t45.%06d\t-93.%06d\n", n, z, z, n);
        p += sprintf(p, "end_lane\n");
    }
    p += sprintf(p, "end_segment\nend_file\n");
    return (size_t)(p - start);
}

static double now(void)
{
    struct timespec t;
    clock_gettime(CLOCK_MONOTONIC, &t);
    return (double)t.tv_sec * 1e3 + (double)t.tv_nsec / 1e6;
}

int main(void)
{
    static uint32_t a[4], b[5 * 600], c[6], d[2], e[2 * 600], f[1], g[2 * 600];
    int32_t *points = malloc(sizeof(int32_t) * 2 * 600000);
    char *text = malloc(40u << 20);
    static const int lanes[] = {34, 68, 136, 272, 544};
    for (int i = 0; i < 5; i++) {
        size_t n = build(text, lanes[i]);
        double best = 1e30;
        uint32_t got = 0;
        for (int k = 0; k < 5; k++) {
            double t = now();
            got = timed_read((uint8_t *)text, n, a, 4, b, 5 * 600, c, 6, d, 2, points, 2 * 600000, e, 2 * 600, f, 1, g, 2 * 600);
            t = now() - t;
            best = t < best ? t : best;
        }
        printf("%10zu bytes %8u points %10.2f ms %8.3f ns to a byte\n", n, got, best, best * 1e6 / (double)n);
    }
    return 0;
}

/*
 * The texts that bench.c times, from the C reader's own bench: points; segments with names and boundaries; checkpoints, stops and exits (`marks`); comments, blank lines and CRs;
 * zones, spots and a mission. All are well-formed and always the same.
 */
#include "texts.h"

#include <stdio.h>
#include <stdlib.h>

static uint32_t seed;
static uint32_t draw(uint32_t below)
{
    seed = seed * 1664525u + 1013904223u;
    return (uint32_t)((uint64_t)seed * below >> 32);
}

/* As printf, but with %u only: the texts are built in the emulator too. */
static void put(struct text *t, const char *format, const uint32_t *numbers)
{
    char *p = t->bytes + t->length;
    for (; *format; format++) {
        if (*format != '%') {
            *p++ = *format;
            continue;
        }
        char digits[10];
        int n = 0;
        uint32_t v = *numbers++;
        do
            digits[n++] = (char)('0' + v % 10);
        while (v /= 10);
        while (n)
            *p++ = digits[--n];
    }
    t->length = (size_t)(p - t->bytes);
}
#define PUT(t, ...) PUT_(t, __VA_ARGS__, 0)
#define PUT_(t, format, ...) put(t, format, (const uint32_t[]){__VA_ARGS__})

static void point(struct text *t, uint32_t x, uint32_t y, uint32_t z, const char *tab, const char *eol)
{
    PUT(t, "%.%.%", x, y, z);
    PUT(t, tab);
    PUT(t, "%.%", 34 + (x & 1), 100000 + draw(900000));    /* one region, as in a real file */
    PUT(t, tab);
    PUT(t, "-%.%", 117 + (y & 1), 100000 + draw(900000));
    PUT(t, eol);
}

static uint32_t least(uint32_t a, uint32_t b) { return a < b ? a : b; }

/* Each builds an RNDF (and the last an MDF) of size growing with k. */

static void many_points(struct text *t, struct text *mdf, uint32_t k)
{
    (void)mdf;
    uint32_t lanes = k / 30000 + 1;
    PUT(t, "RNDF_name\tmany_points\nnum_segments\t1\nnum_zones\t0\nsegment\t1\nnum_lanes\t%\n", lanes);
    for (uint32_t n = 1; n <= lanes; n++) {
        PUT(t, "lane\t1.%\nnum_waypoints\t%\nlane_width\t12\n", n, k / lanes);
        for (uint32_t z = 1; z <= k / lanes; z++)
            point(t, 1, n, z, "\t", "\n");
        PUT(t, "end_lane\n");
    }
    PUT(t, "end_segment\nend_file\n");
}

static void many_segments(struct text *t, struct text *mdf, uint32_t k)
{
    (void)mdf;
    uint32_t segments = least(k / 2, 32768);
    PUT(t, "RNDF_name\tmany_segments\nnum_segments\t%\nnum_zones\t0\n", segments);
    for (uint32_t m = 1; m <= segments; m++) {
        uint32_t points = k / segments + (m <= k % segments);
        PUT(t, "segment\t%\nnum_lanes\t1\nsegment_name\tStreet_%\nlane\t%.1\nnum_waypoints\t%\n", m, m, m, points);
        PUT(t, "lane_width\t%\nleft_boundary\tdouble_yellow\nright_boundary\tsolid_white\n", 10 + draw(6));
        for (uint32_t z = 1; z <= points; z++)
            point(t, m, 1, z, "\t", "\n");
        PUT(t, "end_lane\nend_segment\n");
    }
    PUT(t, "end_file\n");
}

static void many_marks(struct text *t, struct text *mdf, uint32_t k)
{
    (void)mdf;
    uint32_t segments = k / 8 + 1, number = 0;           /* of 8 lanes with 3 points */
    PUT(t, "RNDF_name\tmany_marks\nnum_segments\t%\nnum_zones\t1\n", segments);
    for (uint32_t m = 1; m <= segments; m++) {
        PUT(t, "segment\t%\nnum_lanes\t8\n", m);
        for (uint32_t n = 1; n <= 8; n++) {
            PUT(t, "lane\t%.%\nnum_waypoints\t3\n", m, n);
            for (uint32_t i = 0; i < 6; i++) {
                if (number < 32768)
                    PUT(t, "checkpoint\t%.%.%\t%\n", m, n, 1 + draw(3), ++number);
                PUT(t, "stop\t%.%.%\n", m, n, 1 + draw(3));
                PUT(t, "exit\t%.%.%\t", m, n, 1 + draw(3));
                uint32_t x = 1 + draw(segments), y = 1 + draw(8), z = 1 + draw(3);
                if (draw(8))
                    PUT(t, "%.%.%\n", x, y, z);
                else
                    PUT(t, "%.0.%\n", segments + 1, z);
            }
            for (uint32_t z = 1; z <= 3; z++)
                point(t, m, n, z, "\t", "\n");
            PUT(t, "end_lane\n");
        }
        PUT(t, "end_segment\n");
    }
    uint32_t m = segments + 1;
    PUT(t, "zone\t%\nnum_spots\t0\nperimeter\t%.0\nnum_perimeterpoints\t4\n", m, m);
    for (uint32_t z = 1; z <= 4; z++)
        point(t, m, 0, z, "\t", "\n");
    PUT(t, "end_perimeter\nend_zone\nend_file\n");
}

static void many_comments(struct text *t, struct text *mdf, uint32_t k)
{
    (void)mdf;
    static const char *const ends[] = {
        "\r\n", "\t\r\n", "\t/* surveyed on foot, twice */\r\n", "/*x*/\n", "\t\t/* see the note on ** page 12 */\t\n",
        "\n\n\t\n", "\n/* a line of its own, as long as a remark usually is in such files */\n", "\t/**/\r\n\r\n"
    };
    uint32_t lanes = k / 200 + 1;
    PUT(t, "/* a yard with many remarks */\r\n\nRNDF_name\t\tmany_comments\t/* name */\r\nnum_segments\t1\r\n"
           "num_zones\t0\r\nsegment\t1\r\nnum_lanes\t\t%\r\n", lanes);
    for (uint32_t n = 1; n <= lanes; n++) {
        PUT(t, "\tlane\t1.%\t/* lane % */\r\n\t\tnum_waypoints\t%\r\n\r\n", n, n, k / lanes);
        PUT(t, "\t\tlane_width\t\t12\t\t/* feet */\r\n\t\tstop\t1.%.1\r\n", n);
        for (uint32_t z = 1; z <= k / lanes; z++) {
            PUT(t, "\t\t\t");
            const char *tab = draw(2) ? "\t\t" : "\t", *eol = ends[draw(8)];
            point(t, 1, n, z, tab, eol);
        }
        PUT(t, "\tend_lane\r\n\r\n");
    }
    PUT(t, "end_segment\r\nend_file\r\n/* nothing more */\r\n");
}

static void many_spots(struct text *t, struct text *mdf, uint32_t k)
{
    /* of 8 spots each, for as many as have a checkpoint number (L8); a longer text has longer perimeters */
    uint32_t wanted = k / 8 + 1, most = 32767 / 8, zones = wanted < most ? wanted : most, border = 4 + (wanted - zones) / 64, number = 0;
    PUT(t, "RNDF_name\tmany_spots\nnum_segments\t1\nnum_zones\t%\nsegment\t1\nnum_lanes\t1\nlane\t1.1\n", zones);
    PUT(t, "num_waypoints\t1\ncheckpoint\t1.1.1\t%\n1.1.1\t45.000000\t-93.000000\nend_lane\nend_segment\n", ++number);
    for (uint32_t m = 2; m <= zones + 1; m++) {
        PUT(t, "zone\t%\nnum_spots\t%\nzone_name\tLot_%\nperimeter\t%.0\nnum_perimeterpoints\t%\n", m, 8, m, m, border);
        PUT(t, "exit\t%.0.1\t1.1.1\n", m);
        for (uint32_t z = 1; z <= border; z++)
            point(t, m, 0, z, "\t", "\n");
        PUT(t, "end_perimeter\n");
        for (uint32_t n = 1; n <= 8; n++) {
            PUT(t, "spot\t%.%\nspot_width\t%\n", m, n, 8 + draw(5));
            PUT(t, "checkpoint\t%.%.2\t%\n", m, n, ++number);
            point(t, m, n, 1, "\t", "\n");
            point(t, m, n, 2, "\t", "\n");
            PUT(t, "end_spot\n");
        }
        PUT(t, "end_zone\n");
    }
    PUT(t, "end_file\n");
    uint32_t goals = number;
    PUT(mdf, "MDF_name\tmission\nRNDF\tmany_spots\ncheckpoints\nnum_checkpoints\t%\n", goals);
    for (uint32_t i = 0; i < goals; i++)
        PUT(mdf, "%\n", 1 + draw(number));
    PUT(mdf, "end_checkpoints\nspeed_limits\nnum_speed_limits\t%\n", zones + 1);
    for (uint32_t m = zones + 1; m >= 1; m--)
        PUT(mdf, "%\t%\t%\n", m, 5, 10 + draw(30));
    PUT(mdf, "end_speed_limits\nend_file\n");
}

const struct shape shapes[SHAPES] = {
    {"points", many_points}, {"segments", many_segments}, {"marks", many_marks}, {"comments", many_comments}, {"spots+mdf", many_spots}
};

/* The RNDF as near below `size` as the shape goes. */
void build(const struct shape *s, size_t size, struct text *rndf, struct text *mdf)
{
    uint32_t k = 200;
    for (int tries = 0; tries < 40; tries++) {
        seed = 7;
        rndf->length = mdf->length = 0;
        s->build(rndf, mdf, k);
        if (rndf->length <= size && rndf->length > size - (size < 100000 ? size / 16 : size / 100))
            return;
        double next = (double)k * (double)size * 0.995 / (double)rndf->length;
        k = next > k * 12.0 ? k * 12 : (uint32_t)next;
    }
    if (rndf->length > size) {
        printf("no text of this size: %s %zu\n", s->name, size);
        exit(1);
    }
}

/*
 * The look-up of lists (request L4), for tests/lists.py: cases from standard input, answers to standard output, all in 32-bit words of this machine. A case is how many words the table
 * has, how many numbers there are and how many points are lent, then the table and the numbers; its answer the five fields and every lent point, which are 9 before the call.
 * With the word `time` it prints instead how long 32,768 numbers over 32,768 rows take, and fifty over as many, the longest way (no row has the number).
 */
#include "kastepuhm.h"

#include <stdio.h>
#include <stdlib.h>
#include <time.h>

enum { MOST = 65536 };

static uint32_t table[MOST], numbers[MOST], points[MOST];

static int take(uint32_t *words, size_t count)
{
    return count <= MOST && fread(words, sizeof *words, count, stdin) == count;
}

static double seconds(size_t count)
{
    struct timespec before, after;
    double best = 1e9;
    for (int i = 0; i < 5; i++) {
        double took;
        timespec_get(&before, TIME_UTC);
        if (!kastepuhm_points_of(table, MOST, numbers, count, points, count).accepted || points[count - 1] != KASTEPUHM_NO_POINT)
            exit(1);
        timespec_get(&after, TIME_UTC);
        took = (double)(after.tv_sec - before.tv_sec) + 1e-9 * (double)(after.tv_nsec - before.tv_nsec);
        if (took < best)
            best = took;
    }
    return best;
}

int main(int count, char **words)
{
    uint32_t head[3];
    (void)words;
    if (count == 2) {
        for (uint32_t i = 0; i < MOST / 2; i++) {
            table[2 * i] = i + 1;
            table[2 * i + 1] = i;
            numbers[i] = 40000;
        }
        printf("32,768 numbers over 32,768 rows: %.2f s; fifty: %.2f ms\n", seconds(MOST / 2), 1e3 * seconds(50));
        return 0;
    }
    while (fread(head, sizeof *head, 3, stdin) == 3) {
        kastepuhm_list_answer a;
        if (!take(table, head[0]) || !take(numbers, head[1]) || head[2] > MOST)
            return 1;
        for (uint32_t i = 0; i < head[2]; i++)
            points[i] = 9;
        a = kastepuhm_points_of(table, head[0], numbers, head[1], points, head[2]);
        fwrite(&a, sizeof a, 1, stdout);
        fwrite(points, sizeof *points, head[2], stdout);
    }
    return 0;
}

/*
 * Runs pairs of texts through the library, as many as stand on standard input, and writes what it answered and left in the lent tables (tests/damage/compare.py has the formats).
 *
 * Each text, each table, the output and the route is lent with nothing behind it: the memory ends there, so that a reader that goes one byte too far is stopped at once. Tables and
 * output are lent full of other numbers, with one before them that must stay; texts and route must stay too. Of a mission the route is the work space, which must be zero afterwards. A text may be lent longer than it is given here, up to MOST_BYTES, which
 * costs no memory.
 */
#define _GNU_SOURCE
#include "kastepuhm.h"

#include <stdio.h>
#include <stdlib.h>
#include <string.h>
#include <sys/mman.h>

enum { RNDF_ALONE = 1, PAIR, MAP, ROUTE, MISSION, WRITE_RNDF, WRITE_MDF, PACKING, UNPACKING, MEND, EXPECTED };
enum { SEGMENTS, LANES, ZONES, SPOTS, POINTS, CHECKPOINTS, STOPS, EXITS, GOALS, LIMITS, TABLES };

#define MOST_BYTES ((size_t)1 << 33)
#define MOST_NUMBERS ((size_t)1 << 22)
#define MOST_OUTPUT ((size_t)1 << 25)
#define MOST_STEPS ((size_t)1 << 20)
#define OTHER 0x5A5A5A5Au

static uint8_t *text_ends[2], *table_ends[TABLES], *output_end, *route_end, *given[2];
static size_t text_lengths[2], given_lengths[2], lengths[TABLES], output_length, route_length;
static uint32_t edition, start, given_route[MOST_STEPS];

/* Where `size` bytes of memory end; behind them nothing may be read or written. */
static uint8_t *end_of_memory(size_t size)
{
    uint8_t *start = mmap(NULL, size + 4096, PROT_READ | PROT_WRITE, MAP_PRIVATE | MAP_ANONYMOUS | MAP_NORESERVE, -1, 0);
    if (start == MAP_FAILED || mprotect(start + size, 4096, PROT_NONE) != 0) {
        perror("reader: no memory to lend");
        exit(2);
    }
    return start + size;
}

static size_t number(int bytes)
{
    size_t n = 0;
    for (int i = 0; i < bytes; i++)
        n |= (size_t)getchar() << 8 * i;
    return n;
}

static void take_text(int file)
{
    given[file] = malloc(given_lengths[file] + 1);
    if (given[file] == NULL || given_lengths[file] > text_lengths[file] || text_lengths[file] > MOST_BYTES
        || fread(given[file], 1, given_lengths[file], stdin) != given_lengths[file])
        exit(2);
    memcpy(text_ends[file] - text_lengths[file], given[file], given_lengths[file]);
}

static uint32_t *route(void)
{
    return (uint32_t *)(void *)route_end - route_length;
}

static void take_route(void)
{
    if (route_length > MOST_STEPS || fread(given_route, sizeof *given_route, route_length, stdin) != route_length)
        exit(2);
    memcpy(route(), given_route, route_length * sizeof *given_route);
}

static uint32_t *table(int i)
{
    return (uint32_t *)(void *)table_ends[i] - lengths[i];
}

static void soil_table(int i)
{
    if (lengths[i] >= MOST_NUMBERS)
        exit(2);
    for (uint32_t *p = table(i) - 1; p != (void *)table_ends[i]; p++)
        *p = OTHER;
}

static void soil_output(void)
{
    if (output_length >= MOST_OUTPUT)
        exit(2);
    memset(output_end - output_length - 1, (int)(OTHER & 0xFF), output_length + 1);
}

#define TEXT(i) text_ends[i] - text_lengths[i], text_lengths[i]
#define LENT(i) table(i), lengths[i]
#define NETWORK LENT(SEGMENTS), LENT(LANES), LENT(ZONES), LENT(SPOTS), (int32_t *)table(POINTS), lengths[POINTS], LENT(CHECKPOINTS), LENT(STOPS), LENT(EXITS)

static kastepuhm_write_answer answer(int mode)
{
    kastepuhm_write_answer read = {0};
    switch (mode) {
    case RNDF_ALONE:
        read.answer = kastepuhm_read_rndf(edition, TEXT(0), NETWORK);
        return read;
    case PAIR:
        read.answer = kastepuhm_read_pair(edition, TEXT(0), TEXT(1), NETWORK, LENT(GOALS), LENT(LIMITS));
        return read;
    case MAP:
        return kastepuhm_write_map(edition, TEXT(0), NETWORK, output_end - output_length, output_length);
    case ROUTE:
        read.answer = kastepuhm_check_route(edition, TEXT(0), TEXT(1), NETWORK, LENT(GOALS), LENT(LIMITS), start, route(), route_length);
        return read;
    case MISSION:
        read.answer = kastepuhm_check_mission(edition, TEXT(0), TEXT(1), NETWORK, LENT(GOALS), LENT(LIMITS), start, route(), route_length);
        memset(given_route, 0, route_length * sizeof *given_route);
        return read;
    case WRITE_RNDF:
        return kastepuhm_write_rndf(edition, TEXT(0), NETWORK, output_end - output_length, output_length);
    case WRITE_MDF:
        return kastepuhm_write_mdf(edition, TEXT(0), TEXT(1), NETWORK, LENT(GOALS), LENT(LIMITS), output_end - output_length, output_length);
    case PACKING:
        return kastepuhm_write_packed(edition, TEXT(0), NETWORK, output_end - output_length, output_length);
    case UNPACKING:                                         /* the packed bytes stand in place of the RNDF */
        read.answer = kastepuhm_read_packed(TEXT(0), NETWORK);
        return read;
    case MEND: {                                            /* the list stands in place of the segments, the answer's seven words in place of the first */
        kastepuhm_mend_answer mended = kastepuhm_mend(edition, TEXT(0), LENT(SEGMENTS), output_end - output_length, output_length);
        _Static_assert(sizeof mended == 7 * sizeof(uint32_t) && sizeof mended <= sizeof read, "accepted, file, line, number, column, rows, length");
        memcpy(&read, &mended, sizeof mended);
        return read;
    }
#ifdef HAS_EXPECTED
    case EXPECTED: {                                        /* the line stands in place of the start, file and number in place of the route */
        if (route_length != 2)
            exit(2);
        kastepuhm_expected_answer told = kastepuhm_expected(edition, TEXT(0), TEXT(1), route()[0], start, (uint8_t)route()[1], output_end - output_length, output_length);
        read.answer.accepted = told.accepted;
        read.answer.file = told.file;
        read.answer.line = told.line;
        read.answer.number = told.number;
        read.answer.column = told.column;
        read.length = told.length;
        return read;
    }
#endif
    default:
        exit(2);
    }
}

/* Runs the case with an output of this length, and writes the answer, the tables, the output and whether anything else was written. */
static kastepuhm_write_answer run(int mode, size_t output)
{
    uint32_t elsewhere = 0;
    kastepuhm_write_answer a;
    output_length = output;
    for (int i = 0; i < TABLES; i++)
        soil_table(i);
    soil_output();
    a = answer(mode);
    fwrite(&a, sizeof a, 1, stdout);
    for (int i = 0; i < TABLES; i++) {
        fwrite(table(i), sizeof(uint32_t), lengths[i], stdout);
        elsewhere |= table(i)[-1] != OTHER;
    }
    fwrite(output_end - output_length, 1, output_length, stdout);
    elsewhere |= *(output_end - output_length - 1) != (OTHER & 0xFF);
    elsewhere |= memcmp(route(), given_route, route_length * sizeof *given_route) != 0;
    for (int i = 0; i < 2; i++)
        elsewhere |= memcmp(text_ends[i] - text_lengths[i], given[i], given_lengths[i]) != 0;
    fwrite(&elsewhere, sizeof elsewhere, 1, stdout);
    return a;
}

int main(void)
{
    int mode;
    for (int i = 0; i < 2; i++)
        text_ends[i] = end_of_memory(MOST_BYTES);
    for (int i = 0; i < TABLES; i++)
        table_ends[i] = end_of_memory(MOST_NUMBERS * sizeof(uint32_t));
    output_end = end_of_memory(MOST_OUTPUT);
    route_end = end_of_memory(MOST_STEPS * sizeof(uint32_t));
    while ((mode = getchar()) != EOF) {
        kastepuhm_write_answer a;
        edition = (uint32_t)number(4);
        for (int i = 0; i < 2; i++)
            text_lengths[i] = number(8);
        for (int i = 0; i < 2; i++)
            given_lengths[i] = number(4);
        for (int i = 0; i < TABLES; i++)
            lengths[i] = number(4);
        output_length = number(4);
        start = (uint32_t)number(4);
        route_length = number(4);
        for (int i = 0; i < 2; i++)
            take_text(i);
        take_route();
        a = run(mode, output_length);
        if (mode == EXPECTED) {                             /* also with just as many bytes as there are words, and with one less */
            run(mode, a.length);
            if (a.length > 0)
                run(mode, a.length - 1);
        }
        for (int i = 0; i < 2; i++)
            free(given[i]);
        fflush(stdout);
    }
    return 0;
}

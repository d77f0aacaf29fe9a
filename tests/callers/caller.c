/*
 * A worked caller in C: caller NETWORK [MISSION] reads an RNDF, alone or with its MDF, and prints the summary program's line, what stands in the tables, and then the
 * length and first line of the house writing, and the network's map; caller NETWORK MISSION START [POINT ..] prints whether the route of these points is drivable from there (request L5);
 * caller NETWORK MISSION drive START ROWS whether the mission can be driven from there at all, with so many rows of work space (request L13);
 * caller NETWORK pack the bytes of the packed network, and caller FILE unpack [ROWS ..] what stands in the tables of such bytes, with so many rows lent of the first tables (request L11);
 * caller NETWORK mend [ROWS [BYTES]] the lines that were mended, and the mended text, with so many rows of the list and so many bytes of the output lent (request L9);
 * caller NETWORK [MISSION] tell [BYTES] "accepted" or the refusal in words, and below them what may stand there (with BYTES: how many bytes the words have, and the first BYTES of them, and nothing below
 * them); caller NETWORK [MISSION] expect [BYTES] what may stand there alone, with so many bytes lent: how many bytes were put and these, or the refusal; caller FILE kind whether it begins as an MDF does.
 * With --2006 before all these words the texts are read in the edition of December 6, 2006 (request L10), else in the present one.
 * Texts up to 8,192 bytes, 256 points and 128 rows of every other table, as the summary program has them; all of it lies in this program's own memory. `tell` and `expect` take texts of any length and lend what
 * they need. Most calls are those that take the tables in a struct; read_rndf and write_mdf are called plainly, so that both ways are tried.
 */
#include "kastepuhm.h"

#include <inttypes.h>
#include <stdio.h>
#include <stdlib.h>
#include <string.h>

#if defined(__STDC_VERSION__) && __STDC_VERSION__ >= 201112L
_Static_assert(sizeof(kastepuhm_answer) == 29 * sizeof(uint32_t), "the library's answer has 29 words");
_Static_assert(sizeof(kastepuhm_list_answer) == 5 * sizeof(uint32_t), "a list's answer has 5 words");
_Static_assert(KASTEPUHM_GOAL_STRIDE == 1, "a goal's row is its number");
_Static_assert(sizeof(kastepuhm_write_answer) == 30 * sizeof(uint32_t), "a writer's answer has one word more");
_Static_assert(sizeof(kastepuhm_mend_answer) == 7 * sizeof(uint32_t), "the mending tool's answer has 7 words");
_Static_assert(sizeof(kastepuhm_expected_answer) == 6 * sizeof(uint32_t), "what may stand there is answered in 6 words");
_Static_assert(KASTEPUHM_TABLES_WORDS(1) == KASTEPUHM_SEGMENT_STRIDE + KASTEPUHM_LANE_STRIDE + KASTEPUHM_ZONE_STRIDE + KASTEPUHM_SPOT_STRIDE + KASTEPUHM_POINT_STRIDE + KASTEPUHM_CHECKPOINT_STRIDE
               + KASTEPUHM_STOP_STRIDE + KASTEPUHM_EXIT_STRIDE, "eight rows, one of each table");
_Static_assert(KASTEPUHM_MISSION_TABLES_WORDS(1) == KASTEPUHM_GOAL_STRIDE + KASTEPUHM_LIMIT_STRIDE, "two rows, one of each table");
#endif

#define LENGTH(table) (sizeof(table) / sizeof((table)[0]))

enum { MOST_BYTES = 8192, POINTS = 256, ROWS = 128, STEPS = 256 };

static uint32_t edition = KASTEPUHM_MARCH_2007;
/* One byte more than a text may have: if it is filled, the file is too big. */
static uint8_t rndf[MOST_BYTES + 1];
static uint8_t mdf[MOST_BYTES + 1];
static uint32_t segments[ROWS * KASTEPUHM_SEGMENT_STRIDE];
static uint32_t lanes[ROWS * KASTEPUHM_LANE_STRIDE];
static uint32_t zones[ROWS * KASTEPUHM_ZONE_STRIDE];
static uint32_t spots[ROWS * KASTEPUHM_SPOT_STRIDE];
static int32_t points[POINTS * KASTEPUHM_POINT_STRIDE];
static uint32_t checkpoints[ROWS * KASTEPUHM_CHECKPOINT_STRIDE];
static uint32_t stops[ROWS * KASTEPUHM_STOP_STRIDE];
static uint32_t exits[ROWS * KASTEPUHM_EXIT_STRIDE];
static uint32_t goals[ROWS * KASTEPUHM_GOAL_STRIDE];
static uint32_t limits[ROWS * KASTEPUHM_LIMIT_STRIDE];
static const kastepuhm_tables tables = {segments, LENGTH(segments), lanes, LENGTH(lanes), zones, LENGTH(zones), spots, LENGTH(spots), points, LENGTH(points),
                                        checkpoints, LENGTH(checkpoints), stops, LENGTH(stops), exits, LENGTH(exits)};
static const kastepuhm_mission_tables mission_tables = {goals, LENGTH(goals), limits, LENGTH(limits)};
static uint32_t goal_points[ROWS];
static uint32_t route[STEPS];
static uint32_t work[POINTS * KASTEPUHM_WORK_STRIDE];
/* One byte more than a text may have: its last line may come without a line feed. */
static uint8_t house[MOST_BYTES + 1];
/* A map may have about seven times its text's bytes; if this is too short, refusal 19 says so. */
static uint8_t map[8 * MOST_BYTES];
/* A packed network is shorter than its text. */
static uint8_t packed[MOST_BYTES];
/* A text has at most a line to each byte, and comes out of the mending tool with at most 4 bytes to 3. */
static uint32_t list[MOST_BYTES * KASTEPUHM_MEND_STRIDE];
static uint8_t mended[MOST_BYTES * 4 / 3 + 1];

/* Whether the file could be taken; if not, why is printed. */
static int load(const char *path, uint8_t *text, size_t *length)
{
    FILE *file = fopen(path, "rb");
    int bad;
    if (file == NULL) {
        puts("no file");
        return 0;
    }
    *length = fread(text, 1, MOST_BYTES + 1, file);
    bad = ferror(file);
    fclose(file);
    if (bad || *length > MOST_BYTES) {
        puts(bad ? "no file" : "file too big");
        return 0;
    }
    return 1;
}

static void print_name(const uint8_t *text, uint32_t start, uint32_t length)
{
    if (length == 0)
        printf(" -");
    else
        printf(" %.*s", (int)length, (const char *)text + start);
}

static void print_width(uint32_t width)
{
    if (width == KASTEPUHM_NO_WIDTH)
        printf(" no width");
    else
        printf(" width %" PRIu32, width);
}

/* Millionths of a degree. The sign is the whole number's: -500000 is -0.500000. */
static void print_degrees(int32_t millionths)
{
    int64_t size = millionths < 0 ? -(int64_t)millionths : millionths;
    printf(" %s%" PRId64 ".%06" PRId64, millionths < 0 ? "-" : "", size / 1000000, size % 1000000);
}

static void print_point(uint32_t point)
{
    const int32_t *row;
    if (point == KASTEPUHM_NO_POINT) {
        printf(" none");
        return;
    }
    row = points + (size_t)point * KASTEPUHM_POINT_STRIDE;
    printf(" %" PRIu32 " at", point);
    print_degrees(row[KASTEPUHM_POINT_LATITUDE]);
    print_degrees(row[KASTEPUHM_POINT_LONGITUDE]);
}

static void print_summary(const kastepuhm_answer *a)
{
    printf("ok %" PRIu32 " %" PRIu32 " %" PRIu32 " %" PRIu32 " %" PRIu32, a->segments, a->zones, a->lanes, a->points, a->spots);
    printf(" %" PRIu32 " %" PRIu32 " %" PRIu32 " %" PRIu32 " %" PRIu32 "\n", a->checkpoints, a->stops, a->exits, a->goals, a->limits);
}

static void print_file(const char *what, const uint8_t *text, kastepuhm_name name, kastepuhm_name version, kastepuhm_name date)
{
    printf("%s", what);
    print_name(text, name.start, name.length);
    printf(" version");
    print_name(text, version.start, version.length);
    printf(" date");
    print_name(text, date.start, date.length);
}

static void print_lanes(uint32_t segment, const uint32_t *row)
{
    for (uint32_t n = 0; n < row[KASTEPUHM_SEGMENT_LANES]; n++) {
        const uint32_t *lane = lanes + (size_t)(row[KASTEPUHM_SEGMENT_FIRST_LANE] + n) * KASTEPUHM_LANE_STRIDE;
        printf("lane %" PRIu32 ".%" PRIu32 " points %" PRIu32, segment, n + 1, lane[KASTEPUHM_LANE_POINTS]);
        print_width(lane[KASTEPUHM_LANE_WIDTH]);
        printf(" boundaries %" PRIu32 " %" PRIu32 " first", lane[KASTEPUHM_LANE_LEFT], lane[KASTEPUHM_LANE_RIGHT]);
        print_point(lane[KASTEPUHM_LANE_FIRST_POINT]);
        printf("\n");
    }
}

static void print_spots(uint32_t zone, const uint32_t *row)
{
    for (uint32_t n = 0; n < row[KASTEPUHM_ZONE_SPOTS]; n++) {
        const uint32_t *spot = spots + (size_t)(row[KASTEPUHM_ZONE_FIRST_SPOT] + n) * KASTEPUHM_SPOT_STRIDE;
        printf("spot %" PRIu32 ".%" PRIu32, zone, n + 1);
        print_width(spot[KASTEPUHM_SPOT_WIDTH]);
        printf(" first");
        print_point(spot[KASTEPUHM_SPOT_FIRST_POINT]);
        printf("\n");
    }
}

/* Names lie in the text, or in the packed bytes. */
static void print_network(const kastepuhm_answer *a, const uint8_t *text)
{
    print_file("network", text, a->rndf_name, a->rndf_version, a->rndf_date);
    printf("\n");
    for (uint32_t i = 0; i < a->segments; i++) {
        const uint32_t *row = segments + (size_t)i * KASTEPUHM_SEGMENT_STRIDE;
        printf("segment %" PRIu32, i + 1);
        print_name(text, row[KASTEPUHM_SEGMENT_NAME_START], row[KASTEPUHM_SEGMENT_NAME_LENGTH]);
        printf("\n");
        print_lanes(i + 1, row);
    }
    for (uint32_t i = 0; i < a->zones; i++) {
        const uint32_t *row = zones + (size_t)i * KASTEPUHM_ZONE_STRIDE;
        printf("zone %" PRIu32, a->segments + i + 1);
        print_name(text, row[KASTEPUHM_ZONE_NAME_START], row[KASTEPUHM_ZONE_NAME_LENGTH]);
        printf(" points %" PRIu32 " first", row[KASTEPUHM_ZONE_POINTS]);
        print_point(row[KASTEPUHM_ZONE_FIRST_POINT]);
        printf("\n");
        print_spots(a->segments + i + 1, row);
    }
    for (uint32_t i = 0; i < a->stops; i++) {
        printf("stop");
        print_point(stops[(size_t)i * KASTEPUHM_STOP_STRIDE + KASTEPUHM_STOP_POINT]);
        printf("\n");
    }
    for (uint32_t i = 0; i < a->exits; i++) {
        const uint32_t *row = exits + (size_t)i * KASTEPUHM_EXIT_STRIDE;
        printf("exit %" PRIu32 " to %" PRIu32 "\n", row[KASTEPUHM_EXIT_POINT], row[KASTEPUHM_EXIT_ENTRY]);
    }
}

static void print_mission(const kastepuhm_answer *a)
{
    print_file("mission", mdf, a->mdf_name, a->mdf_version, a->mdf_date);
    printf(" for");
    print_name(mdf, a->mdf_rndf.start, a->mdf_rndf.length);
    printf("\n");
    /* A goal's row is its number, so the rows used are a list of numbers: all of them are asked at one go. */
    if (!kastepuhm_points_of(checkpoints, LENGTH(checkpoints), goals, a->goals, goal_points, a->goals).accepted)
        printf("two lists of one length differ in length\n");
    for (uint32_t i = 0; i < a->goals; i++) {
        printf("goal %" PRIu32 " point", goals[i]);
        print_point(goal_points[i]);
        printf("\n");
        if (goal_points[i] != kastepuhm_point_of(checkpoints, LENGTH(checkpoints), goals[i]))
            printf("asked alone it is another\n");
    }
    for (uint32_t i = 0; i < a->limits; i++) {
        const uint32_t *row = limits + (size_t)i * KASTEPUHM_LIMIT_STRIDE;
        printf("limit %" PRIu32 " minimum %" PRIu32 " maximum %" PRIu32 "\n", row[KASTEPUHM_LIMIT_ID], row[KASTEPUHM_LIMIT_MINIMUM], row[KASTEPUHM_LIMIT_MAXIMUM]);
    }
}

static void print_house(const char *what, const kastepuhm_write_answer *w)
{
    int end = 0;
    if (!w->answer.accepted) {
        printf("house writing of the %s refused %" PRIu32 " %" PRIu32 " %" PRIu32 " %" PRIu32 "\n", what, w->answer.file, w->answer.line, w->answer.number, w->answer.column);
        return;
    }
    while ((uint32_t)end < w->length && house[end] != '\n')
        end++;
    printf("house writing of the %s %" PRIu32 " bytes: %.*s\n", what, w->length, end, (const char *)house);
}

static void print_map(const kastepuhm_write_answer *w)
{
    if (w->answer.accepted)
        printf("map of the network %" PRIu32 " bytes: %.*s\n", w->length, (int)w->length, (const char *)map);
    else
        printf("map of the network refused %" PRIu32 " %" PRIu32 " %" PRIu32 " %" PRIu32 "\n", w->answer.file, w->answer.line, w->answer.number, w->answer.column);
}

/* Where every number of the tables is 0, as after a refusal. */
static int all_zero(const uint32_t *table, size_t length)
{
    while (length > 0 && table[length - 1] == 0)
        length--;
    return length == 0;
}

/* The words are the start and the points of the route. */
static void print_route(size_t rndf_length, size_t mdf_length, char **words, int count)
{
    uint32_t start = (uint32_t)strtoul(words[0], NULL, 10);
    kastepuhm_answer a;
    for (int i = 1; i < count; i++)
        route[i - 1] = (uint32_t)strtoul(words[i], NULL, 10);
    a = kastepuhm_check_route_into(edition, rndf, rndf_length, mdf, mdf_length, &tables, &mission_tables, start, route, (size_t)count - 1);
    if (a.accepted)
        print_summary(&a);
    else
        printf("refused %" PRIu32 " %" PRIu32 " %" PRIu32 " %" PRIu32 "\n", a.file, a.line, a.number, a.column);
    if ((a.accepted != 0) == (all_zero(lanes, LENGTH(lanes)) && all_zero(goals, LENGTH(goals))))
        printf("and the tables are not as they should be\n");
}

/* The words are the start and how many rows of the work space are lent. */
static void print_drive(size_t rndf_length, size_t mdf_length, char **words)
{
    uint32_t start = (uint32_t)strtoul(words[0], NULL, 10);
    size_t rows = (size_t)strtoul(words[1], NULL, 10);
    kastepuhm_answer a;
    if (rows > POINTS)
        rows = POINTS;
    memset(work, 0xAA, sizeof work);
    a = kastepuhm_check_mission_into(edition, rndf, rndf_length, mdf, mdf_length, &tables, &mission_tables, start, work, rows * KASTEPUHM_WORK_STRIDE);
    if (a.accepted)
        print_summary(&a);
    else
        printf("refused %" PRIu32 " %" PRIu32 " %" PRIu32 " %" PRIu32 "\n", a.file, a.line, a.number, a.column);
    if ((a.accepted != 0) == (all_zero(lanes, LENGTH(lanes)) && all_zero(goals, LENGTH(goals))))
        printf("and the tables are not as they should be\n");
    if (!all_zero(work, rows * KASTEPUHM_WORK_STRIDE))
        printf("and the work space is not zero\n");
}

static void print_packed(size_t rndf_length)
{
    kastepuhm_write_answer w = kastepuhm_write_packed_into(edition, rndf, rndf_length, &tables, packed, LENGTH(packed));
    if (!w.answer.accepted) {
        printf("refused %" PRIu32 " %" PRIu32 " %" PRIu32 " %" PRIu32 "\n", w.answer.file, w.answer.line, w.answer.number, w.answer.column);
        return;
    }
    for (uint32_t i = 0; i < w.length; i++)
        printf(i + 1 < w.length ? "%02x " : "%02x\n", (unsigned)packed[i]);
}

/* The words are how many rows are lent of the first tables, in the order of the call; of the others all. The packed bytes stand where a text would. */
static void print_unpacked(size_t length, char **words, int count)
{
    size_t rows[8] = {ROWS, ROWS, ROWS, ROWS, POINTS, ROWS, ROWS, ROWS};
    kastepuhm_tables lent = tables;
    kastepuhm_answer a;
    for (int i = 0; i < count && i < 8; i++) {
        size_t asked = (size_t)strtoul(words[i], NULL, 10);
        if (asked < rows[i])
            rows[i] = asked;
    }
    memset(lanes, 0xAA, sizeof lanes);
    lent.segments_length = rows[0] * KASTEPUHM_SEGMENT_STRIDE;
    lent.lanes_length = rows[1] * KASTEPUHM_LANE_STRIDE;
    lent.zones_length = rows[2] * KASTEPUHM_ZONE_STRIDE;
    lent.spots_length = rows[3] * KASTEPUHM_SPOT_STRIDE;
    lent.points_length = rows[4] * KASTEPUHM_POINT_STRIDE;
    lent.checkpoints_length = rows[5] * KASTEPUHM_CHECKPOINT_STRIDE;
    lent.stops_length = rows[6] * KASTEPUHM_STOP_STRIDE;
    lent.exits_length = rows[7] * KASTEPUHM_EXIT_STRIDE;
    a = kastepuhm_read_packed_into(rndf, length, &lent);
    if (a.accepted) {
        print_summary(&a);
        print_network(&a, rndf);
    } else {
        printf("refused %" PRIu32 " %" PRIu32 " %" PRIu32 " %" PRIu32 "\n", a.file, a.line, a.number, a.column);
    }
    if ((a.accepted != 0) == all_zero(lanes, rows[1] * KASTEPUHM_LANE_STRIDE))
        printf("and the tables are not as they should be\n");
}

/* The words are how many rows of the list and how many bytes of the output are lent; without them all. */
static void print_mended(size_t rndf_length, char **words, int count)
{
    size_t rows = count > 0 ? (size_t)strtoul(words[0], NULL, 10) : MOST_BYTES;
    size_t bytes = count > 1 ? (size_t)strtoul(words[1], NULL, 10) : LENGTH(mended);
    size_t at = 0;
    kastepuhm_mend_answer a;
    if (rows > MOST_BYTES)
        rows = MOST_BYTES;
    if (bytes > LENGTH(mended))
        bytes = LENGTH(mended);
    memset(list, 0xAA, sizeof list);
    memset(mended, 0xAA, sizeof mended);
    a = kastepuhm_mend(edition, rndf, rndf_length, list, rows * KASTEPUHM_MEND_STRIDE, mended, bytes);
    if (a.accepted) {
        printf("mended %" PRIu32 " %" PRIu32 "\n", a.rows, a.length);
        for (uint32_t i = 0; i < a.rows; i++)
            printf("line %" PRIu32 " %" PRIu32 "\n", list[i * KASTEPUHM_MEND_STRIDE + KASTEPUHM_MEND_LINE], list[i * KASTEPUHM_MEND_STRIDE + KASTEPUHM_MEND_WHICH]);
        fwrite(mended, 1, a.length, stdout);
    } else {
        printf("refused %" PRIu32 " %" PRIu32 " %" PRIu32 " %" PRIu32 "\n", a.file, a.line, a.number, a.column);
    }
    if (!all_zero(list + a.rows * KASTEPUHM_MEND_STRIDE, (rows - a.rows) * KASTEPUHM_MEND_STRIDE))
        printf("and the list is not zero behind its rows\n");
    for (at = a.length; at < bytes; at++)
        if (mended[at] != 0) {
            printf("and the output is not zero behind the text\n");
            break;
        }
}

/* A file of any length, in memory of its own; NULL where there is none. */
static uint8_t *load_whole(const char *path, size_t *length)
{
    FILE *file = fopen(path, "rb");
    size_t room = 1 << 16;
    uint8_t *text = file != NULL ? malloc(room) : NULL;
    *length = 0;
    while (text != NULL) {
        uint8_t *larger;
        *length += fread(text + *length, 1, room - *length, file);
        if (*length < room)
            break;
        room *= 2;
        larger = realloc(text, room);
        if (larger == NULL)
            free(text);
        text = larger;
    }
    if (file != NULL)
        fclose(file);
    return text;
}

/* Whether the output ends where it was lent, and is zero behind what was put; if not, that is printed. */
static void print_behind(const uint8_t *out, size_t put, size_t room)
{
    if (out[room] != 0xAA)
        printf("and the byte behind the output was written\n");
    for (; put < room; put++)
        if (out[put] != 0) {
            printf("and the output is not zero behind it\n");
            break;
        }
}

/* What may stand where these texts were refused. With as many bytes lent as are enough (-1): a line of its own, or none where nothing is told; with others: the answer too. */
static void print_expected(uint8_t *const text[2], const size_t length[2], const kastepuhm_answer *why, long bytes)
{
    static const uint8_t none = 0;
    size_t room = bytes < 0 ? KASTEPUHM_EXPECTED_BYTES : (size_t)bytes;
    uint8_t *out = malloc(room + 1);
    kastepuhm_expected_answer e;
    if (out == NULL) {
        puts("no memory");
        return;
    }
    memset(out, 0xAA, room + 1);
    e = kastepuhm_expected(edition, text[0], length[0], text[1] != NULL ? text[1] : &none, length[1], why->file, why->line, (uint8_t)why->number, out, room);
    if (!e.accepted)
        printf("refused %" PRIu32 " %" PRIu32 " %" PRIu32 " %" PRIu32 "\n", e.file, e.line, e.number, e.column);
    else if (bytes >= 0)
        printf("%" PRIu32 "\n", e.length);
    if (e.length > 0)
        printf("%.*s\n", (int)e.length, (const char *)out);
    print_behind(out, e.length, room);
    free(out);
}

/* The words are the names of one or two files; bytes is how many are lent for the sentence, or with `expect` for what may stand there, -1 for enough. Nothing here is as large as the texts may be: what they
   need is lent. */
static void print_told(char **words, int count, int expect, long bytes)
{
    size_t length[2] = {0, 0}, mission_rows = 0, rows, room, told;
    uint8_t *text[2] = {NULL, NULL}, *sentence;
    uint32_t *block;
    kastepuhm_tables t;
    kastepuhm_mission_tables m;
    kastepuhm_answer a;
    int i;
    for (i = 0; i < count; i++) {
        text[i] = load_whole(words[i], &length[i]);
        if (text[i] == NULL) {
            puts("no file");
            return;
        }
    }
    rows = kastepuhm_rows_for(text[0], length[0]);
    if (count == 2)
        mission_rows = kastepuhm_rows_for(text[1], length[1]);
    block = malloc((KASTEPUHM_TABLES_WORDS(rows) + KASTEPUHM_MISSION_TABLES_WORDS(mission_rows)) * sizeof *block);
    if (block == NULL) {
        puts("no memory");
        return;
    }
    t = kastepuhm_tables_in(block, rows);
    m = kastepuhm_mission_tables_in(block + KASTEPUHM_TABLES_WORDS(rows), mission_rows);
    if (count == 2)
        a = kastepuhm_read_pair_into(edition, text[0], length[0], text[1], length[1], &t, &m);
    else
        a = kastepuhm_read_rndf_into(edition, text[0], length[0], &t);
    free(block);
    if (a.accepted) {
        puts("accepted");
        return;
    }
    if (expect) {
        print_expected(text, length, &a, bytes);
        free(text[0]);
        free(text[1]);
        return;
    }
    i = a.file == 2;
    room = bytes < 0 ? strlen(words[i]) + KASTEPUHM_SENTENCE_BYTES : (size_t)bytes;
    sentence = malloc(room + 1);
    if (sentence == NULL) {
        puts("no memory");
        return;
    }
    memset(sentence, 0xAA, room + 1);
    told = kastepuhm_sentence((const uint8_t *)words[i], strlen(words[i]), text[i], length[i], a.line, (uint8_t)a.number, a.column, sentence, room);
    if (bytes >= 0)
        printf("%lu\n", (unsigned long)told);
    fwrite(sentence, 1, told, stdout);
    print_behind(sentence, told, room);
    if (bytes < 0)
        print_expected(text, length, &a, -1);
    free(sentence);
    free(text[0]);
    free(text[1]);
}

int main(int count, char **words)
{
    size_t rndf_length, mdf_length;
    int drive;
    kastepuhm_answer a;
    kastepuhm_write_answer w;
    if (count > 1 && strcmp(words[1], "--2006") == 0) {
        edition = KASTEPUHM_DECEMBER_2006;
        words++;
        count--;
    }
    for (int files = 1; files <= 2; files++)
        if ((count == files + 2 || count == files + 3) && (strcmp(words[files + 1], "tell") == 0 || strcmp(words[files + 1], "expect") == 0)) {
            print_told(words + 1, files, strcmp(words[files + 1], "expect") == 0, count == files + 3 ? atol(words[files + 2]) : -1);
            return 0;
        }
    drive = count > 3 && strcmp(words[3], "drive") == 0;
    if (count < 2 || count > 4 + STEPS || (drive && count != 6)) {
        fputs("usage: caller [--2006] NETWORK [MISSION [START [POINT ..] | drive START ROWS | tell [BYTES] | expect [BYTES]] | tell [BYTES] | expect [BYTES] | kind | pack | unpack [ROWS ..] | mend [ROWS [BYTES]]]\n", stderr);
        return 2;
    }
    if (!load(words[1], rndf, &rndf_length))
        return 0;
    if (count == 3 && strcmp(words[2], "kind") == 0) {
        puts(kastepuhm_is_mission(rndf, rndf_length) ? "a mission" : "no mission");
        return 0;
    }
    if (count == 3 && strcmp(words[2], "pack") == 0) {
        print_packed(rndf_length);
        return 0;
    }
    if (count >= 3 && strcmp(words[2], "unpack") == 0) {
        print_unpacked(rndf_length, words + 3, count - 3);
        return 0;
    }
    if (count >= 3 && strcmp(words[2], "mend") == 0) {
        print_mended(rndf_length, words + 3, count - 3);
        return 0;
    }
    if (count >= 3 && !load(words[2], mdf, &mdf_length))
        return 0;
    if (drive) {
        print_drive(rndf_length, mdf_length, words + 4);
        return 0;
    }
    if (count > 3) {
        print_route(rndf_length, mdf_length, words + 3, count - 3);
        return 0;
    }
    if (count == 2)
        a = kastepuhm_read_rndf(edition, rndf, rndf_length, segments, LENGTH(segments), lanes, LENGTH(lanes), zones, LENGTH(zones), spots, LENGTH(spots), points, LENGTH(points),
                                checkpoints, LENGTH(checkpoints), stops, LENGTH(stops), exits, LENGTH(exits));
    else
        a = kastepuhm_read_pair_into(edition, rndf, rndf_length, mdf, mdf_length, &tables, &mission_tables);
    if (!a.accepted) {
        printf("refused %" PRIu32 " %" PRIu32 " %" PRIu32 " %" PRIu32 "\n", a.file, a.line, a.number, a.column);
        return 0;
    }
    print_summary(&a);
    print_network(&a, rndf);
    if (count == 3)
        print_mission(&a);
    w = kastepuhm_write_rndf_into(edition, rndf, rndf_length, &tables, house, LENGTH(house));
    print_house("network", &w);
    if (count == 3) {
        w = kastepuhm_write_mdf(edition, rndf, rndf_length, mdf, mdf_length, segments, LENGTH(segments), lanes, LENGTH(lanes), zones, LENGTH(zones), spots, LENGTH(spots), points, LENGTH(points),
                                checkpoints, LENGTH(checkpoints), stops, LENGTH(stops), exits, LENGTH(exits), goals, LENGTH(goals), limits, LENGTH(limits), house, LENGTH(house));
        print_house("mission", &w);
    }
    w = kastepuhm_write_map_into(edition, rndf, rndf_length, &tables, map, LENGTH(map));
    print_map(&w);
    return 0;
}

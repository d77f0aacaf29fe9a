/*
 * kastepuhm.h: the yard reader for C and C++. `tools/library.sh` proves the library and writes target/lib/x86-64/libyard.a and target/lib/aarch64/libyard.a, for Linux programs:
 *
 *     tools/library.sh
 *     cc -std=c11 -Iinclude yours.c target/lib/x86-64/libyard.a
 *
 * or, behind `tools/install.sh PREFIX`, `cc yours.c $(pkg-config --cflags --libs kastepuhm)`. In short, with what stands at the end of this file:
 *
 *     size_t rows = kastepuhm_rows_for(text, length);
 *     uint32_t *words = malloc(KASTEPUHM_TABLES_WORDS(rows) * sizeof *words);
 *     kastepuhm_tables tables = kastepuhm_tables_in(words, rows);
 *     kastepuhm_answer answer = kastepuhm_read_rndf_into(KASTEPUHM_MARCH_2007, text, length, &tables);
 *
 * The library needs nothing else but memset and memcpy of the C library, which any C program links anyway (`nm -u target/lib/x86-64/libyard.a` lists what it leaves open);
 * a program without a C library has to bring its own. tests/callers/caller.c is a whole caller, caller.cpp one in C++, caller.rs one in Rust over the crate in bindings/rust; tests/callers.sh builds and runs them.
 * The header and the library belong together: take both from the same commit, or the same release.
 *
 * What it does
 *   It reads the text of a route network (RNDF) and of a mission (MDF) in the format of March 14, 2007, or in its edition of December 6, 2006, as document 01 narrows it, and either fills
 *   the tables that you lend and accepts, or refuses with file, line, one number and the column in that line. It also puts the house writing of either file, a map of the network, or the network packed for a radio, into an output
 *   that you lend, and fills the tables from a packed network; and it tells whether a route is drivable, and whether a mission can be driven at all; and it mends three kinds of trouble in an RNDF; and of a refusal it tells what may stand there. That it does so for all texts, all packed bytes, all tables, all outputs, all
 *   routes and all work spaces is proved of its source (crates/yard, crates/replies/specs/Replies.antt, crates/writings/specs/Writes.antt, crates/unpackings/specs/Unpacks.antt, crates/mend_law/specs/Mends.antt, crates/pair_checks/specs/Checks.antt,
 *   crates/reach_checks/specs/Checks.antt, crates/expected_law/specs/Tells.antt); the compiler, the declarations below and your calls are not part of that proof.
 *
 * What you hand over
 *   Every slice is a pointer and then its length: how many elements it has, not how many rows or bytes. Nothing is asked of what a slice holds, and no length is too short:
 *   a table, a list or a work space with too few rows is refusal 11, an output that is too short refusal 19. But a pointer must be what C says it is:
 *   - it is never NULL, also where the length is 0 (any address that fits the type will do then), and it is aligned for its type;
 *   - that many elements can be read there, and written where the pointer is not const;
 *   - a slice that is written overlaps no other slice of the same call. The two texts may overlap: they are only read.
 *
 * Who owns what
 *   Everything is yours before, during and after the call. The library keeps no pointer, allocates nothing, has no state of its own, prints nothing, reads no file and always
 *   returns. Calls in several threads at once do not disturb each other as long as no two of them write the same tables, work space or output; texts and packed bytes may be shared.
 *
 * Machines
 *   x86-64 and 64-bit Arm (aarch64: any armv8-a, little endian), both with the C calling conventions of Linux and both position independent; all that is said here holds for both. The x86-64 library is
 *   what the kit makes of the proved source; the other is made by the same compiler of the same code, with no more changed than how an answer is handed back (tools/library.sh). Tested are both alike
 *   (tests/callers.sh, tests/damage.sh, each with --target). On other machines, 32-bit Arm among them, this header declares nothing that exists. The page's module (WebAssembly) is called in another way: see page/reader.js.
 *
 * Stack, as the kit's compiler builds it, on either machine (tests/stack.py [--target ..] measures it)
 *   kastepuhm_read_rndf, kastepuhm_write_rndf, kastepuhm_write_map, kastepuhm_write_packed and kastepuhm_read_packed take less than 8 KiB, kastepuhm_mend, kastepuhm_read_pair, kastepuhm_write_mdf, kastepuhm_check_route and
 *   kastepuhm_check_mission less than 12 KiB: 4,096 bytes of marks for each file, or for the packed bytes, are in it.
 *   kastepuhm_expected takes less than 8 KiB, marks included, kastepuhm_sentence less than 2 KiB, kastepuhm_point_of, kastepuhm_points_of and kastepuhm_is_mission a few words. Give a thread that calls them a stack to match.
 *
 * Time
 *   Linear in the length of the texts, of the lent tables and of the lent output; of kastepuhm_points_of, kastepuhm_check_route, kastepuhm_check_mission and kastepuhm_read_packed, see there.
 */
#ifndef KASTEPUHM_H
#define KASTEPUHM_H

#include <stdbool.h>
#include <stddef.h>
#include <stdint.h>

#ifdef __cplusplus
extern "C" {
#endif

/* Of this header and the library that belongs to it; the same as in the file VERSION. */
#define KASTEPUHM_VERSION "1.1.0"

/* A longer text is refusal 1, and so are longer packed bytes. */
#define KASTEPUHM_LONGEST_TEXT 16777215u

/*
 * The edition of the format, the first argument of every function that reads a text by it (kastepuhm_sentence and kastepuhm_is_mission do not). In that of December 6, 2006 `solid_yellow` is no boundary (refusal 8 there) and a zone has at least
 * one spot (refusal 9 for num_spots 0); all else is read by the present rules, and what it accepts, the present one accepts with the same tables. Any number but
 * KASTEPUHM_DECEMBER_2006 is the present edition. An MDF reads alike in both.
 */
enum {
    KASTEPUHM_MARCH_2007 = 0,          /* the present one */
    KASTEPUHM_DECEMBER_2006 = 1
};

/*
 * The tables. A table is a slice of numbers, so many to a row (its stride), rows one behind the other in file order: column c of row i is table[i * STRIDE + c]. Rows are counted
 * from 0, and so are the first lanes, points and spots that rows speak of. A slice has length / STRIDE rows; what is left over behind the last whole row is lent too.
 *
 * After an acceptance the rows used (they are in the answer) hold what the text says, and every number behind them is 0. After a refusal every number of every lent table is 0.
 *
 * A table never needs more rows than its text has lines: lend that many, and refusal 11 never comes. (That is counted by hand from the format and not proved; that 11 comes just
 * where a table has fewer rows than needed is.)
 *
 * Each list below ends with its stride.
 */

/* Segments. A segment's identifier is its row + 1. Its lanes are rows first_lane to first_lane + lanes - 1 of the lane table. */
enum {
    KASTEPUHM_SEGMENT_FIRST_LANE,
    KASTEPUHM_SEGMENT_LANES,
    KASTEPUHM_SEGMENT_NAME_START,  /* a name: see kastepuhm_name */
    KASTEPUHM_SEGMENT_NAME_LENGTH,
    KASTEPUHM_SEGMENT_STRIDE
};

/* Lanes. Lane m.n is row first_lane + n - 1, by segment m's row; its waypoints are rows first_point to first_point + points - 1 of the point table. */
enum {
    KASTEPUHM_LANE_FIRST_POINT,
    KASTEPUHM_LANE_POINTS,
    KASTEPUHM_LANE_WIDTH,          /* feet; KASTEPUHM_NO_WIDTH where none is given, since 0 is a lane width */
    KASTEPUHM_LANE_LEFT,           /* a boundary: see KASTEPUHM_NO_BOUNDARY and the others */
    KASTEPUHM_LANE_RIGHT,
    KASTEPUHM_LANE_STRIDE
};

/* Zones. A zone's identifier is the number of segments + its row + 1. */
enum {
    KASTEPUHM_ZONE_FIRST_POINT,    /* of its perimeter */
    KASTEPUHM_ZONE_POINTS,         /* of its perimeter */
    KASTEPUHM_ZONE_FIRST_SPOT,     /* 0 without spots */
    KASTEPUHM_ZONE_SPOTS,
    KASTEPUHM_ZONE_NAME_START,
    KASTEPUHM_ZONE_NAME_LENGTH,
    KASTEPUHM_ZONE_STRIDE
};

/* Spots. A spot has two points: first_point and the one behind it. */
enum {
    KASTEPUHM_SPOT_FIRST_POINT,
    KASTEPUHM_SPOT_WIDTH,          /* feet; KASTEPUHM_NO_WIDTH where none is given */
    KASTEPUHM_SPOT_STRIDE
};

/* Points: waypoints of lanes, perimeter points and waypoints of spots, in file order. The one table of signed numbers (int32_t): millionths of a degree. */
enum {
    KASTEPUHM_POINT_LATITUDE,      /* -90,000,000 to 90,000,000 */
    KASTEPUHM_POINT_LONGITUDE,     /* -180,000,000 to 180,000,000 */
    KASTEPUHM_POINT_STRIDE
};

/* Checkpoints. Numbers are 1 to 32,768 and differ; one point may have several. */
enum {
    KASTEPUHM_CHECKPOINT_NUMBER,
    KASTEPUHM_CHECKPOINT_POINT,
    KASTEPUHM_CHECKPOINT_STRIDE
};

/* Stops. */
enum {
    KASTEPUHM_STOP_POINT,
    KASTEPUHM_STOP_STRIDE
};

/* Exits, of lanes and perimeters. */
enum {
    KASTEPUHM_EXIT_POINT,
    KASTEPUHM_EXIT_ENTRY,          /* the point that it leads to */
    KASTEPUHM_EXIT_STRIDE
};

/* Goals of a mission, in the order in which they are to be met; one may come again. Each is a checkpoint number of the RNDF. */
enum {
    KASTEPUHM_GOAL_NUMBER,
    KASTEPUHM_GOAL_STRIDE
};

/* Speed limits of a mission, one for each segment and zone, in file order. Miles per hour; 0 means undefined. */
enum {
    KASTEPUHM_LIMIT_ID,            /* of a segment or zone */
    KASTEPUHM_LIMIT_MINIMUM,
    KASTEPUHM_LIMIT_MAXIMUM,
    KASTEPUHM_LIMIT_STRIDE
};

/* The work space of kastepuhm_check_mission, so many words to a row, and a row for each point: work_length / KASTEPUHM_WORK_STRIDE rows. */
#define KASTEPUHM_WORK_STRIDE 1

#define KASTEPUHM_NO_WIDTH 65535u

enum {
    KASTEPUHM_NO_BOUNDARY,
    KASTEPUHM_DOUBLE_YELLOW,
    KASTEPUHM_SOLID_YELLOW,
    KASTEPUHM_SOLID_WHITE,
    KASTEPUHM_BROKEN_WHITE
};

/*
 * A name: its bytes are text[start] to text[start + length - 1] of the text that you lent (an accepted name lies wholly inside it; no 0 byte ends it), 1 to 128 of them.
 * A missing name is 0, 0. Print one by printf("%.*s", (int)name.length, (const char *)text + name.start). Names last as long as you keep that text. There is no function to ask for
 * a name, since the library cannot return a part of your text. Of a network that kastepuhm_read_packed gave back, the packed bytes take the text's place: a name is bytes + start.
 */
typedef struct kastepuhm_name {
    uint32_t start;
    uint32_t length;
} kastepuhm_name;

/* What a reader answers. Of an RNDF alone the fields of the MDF are 0; of a refusal every field is 0 but for file, line, number and column. */
typedef struct kastepuhm_answer {
    uint32_t accepted;             /* 1: accepted, 0: refused */
    uint32_t file;                 /* of a refusal: 1 the RNDF (1 and 11 of a packed one too), 2 the MDF, 0 neither (20 to 24, 27 to 31, and 11 for the work space); 0 where accepted */
    uint32_t line;                 /* of a refusal: counted from 1; 0 where there is none, and where accepted; of 22 and 23 see kastepuhm_check_route, of 31 kastepuhm_check_mission */
    uint32_t number;               /* of a refusal: see below; 0 where accepted */
    uint32_t column;               /* of a refusal: where in its line, counted in bytes from 1 (a tab is one byte); 0 where the line is 0, for 10, 20 to 24 and 31, and where accepted */
    uint32_t segments;             /* from here on: the rows used of each table */
    uint32_t lanes;
    uint32_t zones;
    uint32_t spots;
    uint32_t points;
    uint32_t checkpoints;
    uint32_t stops;
    uint32_t exits;
    uint32_t goals;
    uint32_t limits;
    kastepuhm_name rndf_name;      /* in the RNDF's text, or in the packed bytes */
    kastepuhm_name rndf_version;   /* format_version; may be missing */
    kastepuhm_name rndf_date;      /* creation_date; may be missing, and always is of packed bytes */
    kastepuhm_name mdf_name;       /* in the MDF's text */
    kastepuhm_name mdf_rndf;       /* the RNDF that the MDF names: the same bytes as rndf_name */
    kastepuhm_name mdf_version;
    kastepuhm_name mdf_date;
} kastepuhm_answer;

/*
 * Refusal numbers. The RNDF is judged before the MDF; in one file 1, then the first line with a fault of 2 to 9 or 25, then 10, 11, then the first line with 12 to 18.
 * In one line the lowest number is given. The column is 513 for 2; the place of the comment's first byte for 3; that of the first byte that is not allowed for 4; for the others
 * where a field begins: the first one for 5, 6, 7, 18 and 25, the one at fault, leftmost first, for 8, 9 and 12 to 17 (the maximum where it is below the minimum).
 */
enum {
    KASTEPUHM_TEXT_TOO_LONG = 1,       /* the text, or the packed bytes, are over 16,777,215 bytes (line 0) */
    KASTEPUHM_LINE_TOO_LONG = 2,       /* the line is over 512 bytes */
    KASTEPUHM_BAD_COMMENT = 3,         /* the comment is not closed, or something other than tabs and spaces follows it */
    KASTEPUHM_BAD_BYTE = 4,            /* a byte that is not allowed */
    KASTEPUHM_NOT_HERE = 5,            /* the statement is unknown, or may not stand here (also too few or too many items) */
    KASTEPUHM_GIVEN_AGAIN = 6,         /* a single option is given again */
    KASTEPUHM_FIELD_COUNT = 7,         /* a wrong number of fields */
    KASTEPUHM_BAD_FIELD = 8,           /* a field is not of its kind: spelling, length of a name, boundary word */
    KASTEPUHM_NOT_PERMITTED = 9,       /* a value is not permitted here: range, not the due identifier, a point of another part, minimum above maximum */
    KASTEPUHM_UNENDED = 10,            /* the text ends before end_file (line: its lines + 1) */
    KASTEPUHM_NO_ROOM = 11,            /* a lent table of that file has fewer rows than needed (line 0); with file 0, after all that the reader refuses: the work space has (kastepuhm_check_mission only) */
    KASTEPUHM_NO_SUCH_ENTRY = 12,      /* an exit's entry is no declared lane waypoint or perimeter point */
    KASTEPUHM_NUMBER_AGAIN = 13,       /* the checkpoint number is already declared */
    KASTEPUHM_OTHER_RNDF = 14,         /* the MDF names another RNDF */
    KASTEPUHM_NO_SUCH_GOAL = 15,       /* the goal is no checkpoint of the RNDF */
    KASTEPUHM_NO_SUCH_ID = 16,         /* the limit's id is not in the RNDF */
    KASTEPUHM_LIMIT_AGAIN = 17,        /* the limit's id was already given */
    KASTEPUHM_LIMIT_MISSING = 18,      /* some segment or zone has no limit (line: that of end_speed_limits) */
    KASTEPUHM_OUTPUT_TOO_LONG = 19,    /* writers, kastepuhm_mend and kastepuhm_expected only, after all others: the writing is over 16,777,215 bytes, or longer than the lent output (file: the one written, of kastepuhm_expected 0; line 0) */
    KASTEPUHM_LISTS_DIFFER = 20,       /* kastepuhm_points_of only: the two lists differ in length (file 0, line 0) */
    KASTEPUHM_NO_BEGINNING = 21,       /* 21 to 24: kastepuhm_check_route only, after all others, file 0: the route is empty, or does not begin at a declared start (line 0) */
    KASTEPUHM_NO_MOVE = 22,            /* a step of the route is no move, the first (line: the place in the route that it leads to, from 0) */
    KASTEPUHM_GOAL_NOT_MET = 23,       /* a goal is not met in order, the first (line: the goal's row, from 0) */
    KASTEPUHM_WRONG_END = 24,          /* the route does not end at the last goal's point (line 0) */
    KASTEPUHM_BARE_SPOT = 25,          /* the spot has no checkpoint (line: its first waypoint's, where that has no fault of 2 to 9) */
    KASTEPUHM_PAST_MENDING = 26,       /* kastepuhm_mend only, behind 1 and 11 and before 19: with the three changes the text would still be refused (file 0, line 0) */
    KASTEPUHM_OTHER_VERSION = 27,      /* 27 to 29: kastepuhm_read_packed only, behind 1 and before 11, in this order, file 0, line 0: there are no bytes, or they are of another version than 2 */
    KASTEPUHM_WRONG_LENGTH = 28,       /* the first length is cut short or is not the count of bytes behind it, or a record runs past the end */
    KASTEPUHM_NO_NETWORK = 29,         /* the records are not the packed form of a network */
    KASTEPUHM_NO_START = 30,           /* 30 and 31: kastepuhm_check_mission only, after all others, in this order, file 0: the start is no declared point (line 0) */
    KASTEPUHM_NO_WAY = 31              /* a goal can't be reached, from the start or from the goal before, the first (line: the goal's row, from 0) */
};

/* An RNDF alone. */
kastepuhm_answer kastepuhm_read_rndf(
    uint32_t edition,
    const uint8_t *text, size_t text_length,
    uint32_t *segments, size_t segments_length,
    uint32_t *lanes, size_t lanes_length,
    uint32_t *zones, size_t zones_length,
    uint32_t *spots, size_t spots_length,
    int32_t *points, size_t points_length,
    uint32_t *checkpoints, size_t checkpoints_length,
    uint32_t *stops, size_t stops_length,
    uint32_t *exits, size_t exits_length);

/* An RNDF with its MDF. */
kastepuhm_answer kastepuhm_read_pair(
    uint32_t edition,
    const uint8_t *rndf, size_t rndf_length,
    const uint8_t *mdf, size_t mdf_length,
    uint32_t *segments, size_t segments_length,
    uint32_t *lanes, size_t lanes_length,
    uint32_t *zones, size_t zones_length,
    uint32_t *spots, size_t spots_length,
    int32_t *points, size_t points_length,
    uint32_t *checkpoints, size_t checkpoints_length,
    uint32_t *stops, size_t stops_length,
    uint32_t *exits, size_t exits_length,
    uint32_t *goals, size_t goals_length,
    uint32_t *limits, size_t limits_length);

/*
 * Is this route drivable? `route` is a list of rows of the point table, as the planner proposes it, and `start` the row where the tractor stands. A move goes from a waypoint to the next
 * in its lane; along an exit, from its point to its entry; or, in one zone, between any two different points of its perimeter and spots. A route is good if it begins at the start, each
 * step is a move, the mission's goals are met in order, each at a strictly later place than the one before, and it ends at the last goal's point. The start itself may meet the first goal.
 * Good routes are all accepted and no others.
 *
 * The texts are read first, as kastepuhm_read_pair does, and refused as it refuses. Where the route is good, the answer and the tables are those of kastepuhm_read_pair; where it is not, the
 * refusal is 21, 22, 23 or 24, tried in this order, and every number of every lent table is 0. In place of the line, 22 gives the place in the route that the step leads to and 23 the
 * goal's row (each goal taken at the earliest place), both from 0, so a line 0 is a goal's row there; a place above 4,294,967,295 is given as 4,294,967,295.
 *
 * The route is only read: it may be any list, with points that the network has not, and may overlap the texts, but no table. Beside reading the texts it takes time in proportion to the
 * goals times the checkpoints, and for each step to the logarithm of the lanes, zones and exits and to the exits of the part (lane or zone) that the step begins in.
 */
kastepuhm_answer kastepuhm_check_route(
    uint32_t edition,
    const uint8_t *rndf, size_t rndf_length,
    const uint8_t *mdf, size_t mdf_length,
    uint32_t *segments, size_t segments_length,
    uint32_t *lanes, size_t lanes_length,
    uint32_t *zones, size_t zones_length,
    uint32_t *spots, size_t spots_length,
    int32_t *points, size_t points_length,
    uint32_t *checkpoints, size_t checkpoints_length,
    uint32_t *stops, size_t stops_length,
    uint32_t *exits, size_t exits_length,
    uint32_t *goals, size_t goals_length,
    uint32_t *limits, size_t limits_length,
    uint32_t start,
    const uint32_t *route, size_t route_length);

/*
 * Can the mission be driven at all? With the moves of kastepuhm_check_route: the first goal must be reachable from `start`, the row where the tractor stands, by no move or more, each later goal
 * from the one before by one move or more, so that a goal like the one before needs a round. Given the work space, it is accepted exactly if such chains of moves exist, that is, if
 * kastepuhm_check_route would accept some route from `start`.
 *
 * `work` is work space, a row of KASTEPUHM_WORK_STRIDE words for each row of the point table that is used. It need not be zero before, and is zero afterwards over its whole length, whatever is
 * answered. It may not overlap a text or a table. As many rows as the lent point table has (points_length / KASTEPUHM_POINT_STRIDE) are always enough.
 *
 * The texts are read first, as kastepuhm_read_pair does, and refused as it refuses, 11 with file 1 or 2 among them. Its own refusals come then, with file 0 and column 0, tried in this order: 11
 * where the work space has fewer rows than the network has points and 30 where the start is no point of the network, both with line 0, and 31 where a goal can't be reached, with the row of the
 * first such goal, from 0, in place of the line, so a line 0 is the first goal there. After a refusal every number of every lent table is 0. Otherwise the answer and the tables are those of
 * kastepuhm_read_pair.
 *
 * Beside reading the texts and clearing the work space it takes, for each goal, a look through the checkpoints and through the goals before it, and one search for each different goal that is
 * started from: time in proportion to the points and the exits, to the exits of a lane once for each place where the search enters it, and to the logarithm of the lanes, zones and exits for each
 * point that an exit leads to.
 */
kastepuhm_answer kastepuhm_check_mission(
    uint32_t edition,
    const uint8_t *rndf, size_t rndf_length,
    const uint8_t *mdf, size_t mdf_length,
    uint32_t *segments, size_t segments_length,
    uint32_t *lanes, size_t lanes_length,
    uint32_t *zones, size_t zones_length,
    uint32_t *spots, size_t spots_length,
    int32_t *points, size_t points_length,
    uint32_t *checkpoints, size_t checkpoints_length,
    uint32_t *stops, size_t stops_length,
    uint32_t *exits, size_t exits_length,
    uint32_t *goals, size_t goals_length,
    uint32_t *limits, size_t limits_length,
    uint32_t start,
    uint32_t *work, size_t work_length);

/*
 * The writers. Two put the house writing of a file into `out`: one tab between fields, a line feed after every line, no comment, blank line or carriage return, options in their
 * listed order, no sign before 0.000000; the creation date is left out. What was written is read again as the same network or mission, but for a missing date. One puts the map of a network there, as GeoJSON: see kastepuhm_write_map. One puts the packed network there: see
 * kastepuhm_write_packed.
 *
 * A writer reads the texts first, as the reader of the same texts does, and refuses as it does. Where it accepts, the tables hold what that reader leaves, and the answer has its
 * counts and names; these names are still places in the text that you lent, not in `out`.
 *
 * The output is yours, as the tables are, and may not overlap a text or a table. out_length is how many bytes it has. After an acceptance its first `length` bytes are the writing,
 * and every byte behind them is 0; no 0 byte is put where there is no room for one, so take `length` and not strlen. After a refusal, 19 too, every byte of it and every number of
 * every lent table is 0.
 *
 * How long it has to be: a house writing has at most one byte more than its text (the line feed of an unfinished last line; all else only becomes shorter). Lend
 * text_length + 1 bytes and refusal 19 only comes where the writing itself has over 16,777,215. This bound is not part of what is proved. A map is longer than its text, often
 * several times: lend 16,777,215 bytes, and refusal 19 only comes where it has more. A packed network is shorter than its text: lend text_length bytes, and refusal 19 never comes. That is
 * counted by hand from the format and not proved.
 */
typedef struct kastepuhm_write_answer {
    kastepuhm_answer answer;       /* as the reader of these texts answers, or refusal 19 */
    uint32_t length;               /* bytes written to out; 0 where refused */
} kastepuhm_write_answer;

/* The house writing of an RNDF. */
kastepuhm_write_answer kastepuhm_write_rndf(
    uint32_t edition,
    const uint8_t *text, size_t text_length,
    uint32_t *segments, size_t segments_length,
    uint32_t *lanes, size_t lanes_length,
    uint32_t *zones, size_t zones_length,
    uint32_t *spots, size_t spots_length,
    int32_t *points, size_t points_length,
    uint32_t *checkpoints, size_t checkpoints_length,
    uint32_t *stops, size_t stops_length,
    uint32_t *exits, size_t exits_length,
    uint8_t *out, size_t out_length);

/*
 * The map of an RNDF's network, one GeoJSON FeatureCollection (RFC 7946), for web maps: lanes as lines, perimeters as polygons, checkpoints as points, with identifiers and names
 * as properties. docs/GEOJSON.md lays its bytes down. It has no line feed and no space, and ends with `}`.
 */
kastepuhm_write_answer kastepuhm_write_map(
    uint32_t edition,
    const uint8_t *text, size_t text_length,
    uint32_t *segments, size_t segments_length,
    uint32_t *lanes, size_t lanes_length,
    uint32_t *zones, size_t zones_length,
    uint32_t *spots, size_t spots_length,
    int32_t *points, size_t points_length,
    uint32_t *checkpoints, size_t checkpoints_length,
    uint32_t *stops, size_t stops_length,
    uint32_t *exits, size_t exits_length,
    uint8_t *out, size_t out_length);

/*
 * The network of an RNDF, packed for a radio: a version byte, 2, the length of all that follows, and then a record for the file and for each row of each table. docs/PACKED.md lays its bytes
 * down. One network has one packed form: how its text is written, in which edition it is read, and its creation date leave no trace. kastepuhm_read_packed gives the network back but for the date.
 */
kastepuhm_write_answer kastepuhm_write_packed(
    uint32_t edition,
    const uint8_t *text, size_t text_length,
    uint32_t *segments, size_t segments_length,
    uint32_t *lanes, size_t lanes_length,
    uint32_t *zones, size_t zones_length,
    uint32_t *spots, size_t spots_length,
    int32_t *points, size_t points_length,
    uint32_t *checkpoints, size_t checkpoints_length,
    uint32_t *stops, size_t stops_length,
    uint32_t *exits, size_t exits_length,
    uint8_t *out, size_t out_length);

/* The house writing of the MDF of a pair. The RNDF is read too, and not written. */
kastepuhm_write_answer kastepuhm_write_mdf(
    uint32_t edition,
    const uint8_t *rndf, size_t rndf_length,
    const uint8_t *mdf, size_t mdf_length,
    uint32_t *segments, size_t segments_length,
    uint32_t *lanes, size_t lanes_length,
    uint32_t *zones, size_t zones_length,
    uint32_t *spots, size_t spots_length,
    int32_t *points, size_t points_length,
    uint32_t *checkpoints, size_t checkpoints_length,
    uint32_t *stops, size_t stops_length,
    uint32_t *exits, size_t exits_length,
    uint32_t *goals, size_t goals_length,
    uint32_t *limits, size_t limits_length,
    uint8_t *out, size_t out_length);

/*
 * A packed network, as kastepuhm_write_packed makes it (docs/PACKED.md). It answers and fills the tables as kastepuhm_read_rndf does for the text that was packed, but the names lie in the packed
 * bytes: a name is bytes + start; and the creation date is missing, whether or not the text had one. The fields of the MDF are 0. There is no edition: what the older one accepts, the present one accepts too, so the present rules serve both.
 *
 * Refusals, tried in this order: 1 (file 1) for over 16,777,215 bytes; then, with file 0, 27 for no bytes or another version, 28 for a length that is not right, so also for bytes that are missing
 * or left over at the end, 29 for records that are not the packed form of a network; then 11 (file 1) where a table has fewer rows than needed. Line and column are 0, and every number of
 * every lent table is 0 then. What is accepted is the packed form of a network that some text spells, all ranges and references right; the text itself may be too long for a reader. But a form
 * carries no check sum: bytes that a radio changed into the form of another network are accepted as that network.
 *
 * No table needs more rows than bytes_length / 6: each row has a record, and the shortest has six bytes. (That too is counted by hand and not proved.)
 *
 * Time is linear in the length of the bytes and of the lent tables, but for the exits: each takes the logarithm of the number of spots besides.
 */
kastepuhm_answer kastepuhm_read_packed(
    const uint8_t *bytes, size_t bytes_length,
    uint32_t *segments, size_t segments_length,
    uint32_t *lanes, size_t lanes_length,
    uint32_t *zones, size_t zones_length,
    uint32_t *spots, size_t spots_length,
    int32_t *points, size_t points_length,
    uint32_t *checkpoints, size_t checkpoints_length,
    uint32_t *stops, size_t stops_length,
    uint32_t *exits, size_t exits_length);

/* The list of what was mended: a row for each changed line, in order. */
enum {
    KASTEPUHM_MEND_LINE,           /* the line's number in the given text, from 1 */
    KASTEPUHM_MEND_WHICH,          /* one of the three below */
    KASTEPUHM_MEND_STRIDE
};

enum {
    KASTEPUHM_MENDED_COUNT = 1,    /* a count that disagreed with its items: the number was replaced */
    KASTEPUHM_MENDED_AGAIN = 2,    /* a single option given again: the line was taken out */
    KASTEPUHM_MENDED_BEHIND = 3    /* a line with fields behind end_file: it was taken out */
};

/* What mending answers. */
typedef struct kastepuhm_mend_answer {
    uint32_t accepted;             /* 1: the output has the mended text, 0: refused */
    uint32_t file;                 /* the refusal's file, line (0), number and column (0); 0 where accepted */
    uint32_t line;
    uint32_t number;
    uint32_t column;
    uint32_t rows;                 /* rows of the list used, 0 of a refusal and where nothing was to mend */
    uint32_t length;               /* bytes written, 0 of a refusal */
} kastepuhm_mend_answer;

/*
 * Mends an RNDF: counts that disagree with their items, single options given again and lines behind the first end_file, and nothing else. The mended text is put into `out`, which is zero behind it, and
 * every changed line is listed; lines that are not listed come out byte for byte and in order. A text that kastepuhm_read_rndf accepts comes out the same with an empty list; what comes out is accepted by
 * it, in the same edition and given room enough, and mending it again changes nothing.
 *
 * Refusals, tried in this order: 1 (file 1) for a text over 16,777,215 bytes; 11 (file 1) where the list has fewer rows than the text has lines; 26 (file 0) exactly if a reader with room enough would
 * still refuse the mended text; 19 (file 1) where that text is longer than the output. Line and column are 0, and every number of the list and every byte of the output is 0 then.
 *
 * The list is the work space too: what it held before does not matter, and its rows that are not used are 0 afterwards. An output of the text's length and 4 bytes for each line is always long enough:
 * a count grows from one digit to five at the most. (That is counted by hand and not proved.)
 */
kastepuhm_mend_answer kastepuhm_mend(
    uint32_t edition,
    const uint8_t *text, size_t text_length,
    uint32_t *list, size_t list_length,
    uint8_t *out, size_t out_length);

/* Where no row has the number. */
#define KASTEPUHM_NO_POINT 4294967295u

/* The point of the first row with that checkpoint number, or KASTEPUHM_NO_POINT if there is none or the number is 0. Any slice will do as a checkpoint table: it need not come from a reader. */
uint32_t kastepuhm_point_of(const uint32_t *checkpoints, size_t checkpoints_length, uint32_t number);

/* What the look-up of a list answers. */
typedef struct kastepuhm_list_answer {
    uint32_t accepted;             /* 1: every number has its answer, 0: refused */
    uint32_t file;                 /* 0 */
    uint32_t line;                 /* 0 */
    uint32_t number;               /* KASTEPUHM_LISTS_DIFFER where refused; 0 where accepted */
    uint32_t column;               /* 0 */
} kastepuhm_list_answer;

/*
 * A whole list of checkpoint numbers at one go, over any checkpoint table. points[i] becomes what kastepuhm_point_of answers for numbers[i]: an unknown number gives
 * KASTEPUHM_NO_POINT in its place and does not stop the rest. Where the two lists differ in length, which is tested first, it is refused and every number of `points` is 0.
 * `points` may not overlap the table or the numbers. The numbers are plain words: a list of goals as a reader leaves them can be handed over as it is.
 *
 * It takes time in proportion to numbers times rows, and no memory: fifty numbers over 32,768 rows took 0.75 ms, 32,768 numbers over as many rows 0.5 s, where no row has the number
 * (Arm Neoverse-N1, the library's code compiled for it).
 */
kastepuhm_list_answer kastepuhm_points_of(
    const uint32_t *checkpoints, size_t checkpoints_length,
    const uint32_t *numbers, size_t numbers_length,
    uint32_t *points, size_t points_length);

/*
 * A refusal in words, as planners are told it: what `run-check` prints.
 *
 *     network.rndf:9:12: the entry is no declared lane waypoint or perimeter point (12)
 *     exit	1.1.2	1.1.3
 *         	     	^
 *
 * `name` is what the text is to be called, `text` the one of the refusal's file (1 the RNDF, 2 the MDF), and line, number and column are the answer's. Every line ends with a line feed. A line or column that
 * is 0 is not named, and without a column no line is shown. Tabs are shown as they stand, other bytes outside 32 to 126 as \xNN, of a line over 512 bytes the first 513. Of a refusal with file 0, and of
 * kastepuhm_mend and kastepuhm_read_packed, hand over 0 for line and column: what the answer has for a line there is no line of a text. (11 of the work space is told as that of a table.)
 * kastepuhm_expected has the line that `run-check` prints below it.
 *
 * It returns how many bytes the sentence has, and every byte of the output behind them is 0; or 0 where it does not fit (or has over 16,777,215 bytes), and then every byte of the output is 0. For a refusal
 * that this library gave, name_length + KASTEPUHM_SENTENCE_BYTES are enough (counted by hand, not proved).
 */
#define KASTEPUHM_SENTENCE_BYTES 4608
uint32_t kastepuhm_sentence(
    const uint8_t *name, size_t name_length,
    const uint8_t *text, size_t text_length,
    uint32_t line,
    uint8_t number,
    uint32_t column,
    uint8_t *out, size_t out_length);

/* What kastepuhm_expected answers. */
typedef struct kastepuhm_expected_answer {
    uint32_t accepted;             /* 1: the words are in the output, or there are none; 0: refused */
    uint32_t file;                 /* 0 */
    uint32_t line;                 /* 0 */
    uint32_t number;               /* KASTEPUHM_OUTPUT_TOO_LONG where refused; 0 where accepted */
    uint32_t column;               /* 0 */
    uint32_t length;               /* bytes put; 0 where nothing is told, and where refused */
} kastepuhm_expected_answer;

/*
 * What may stand where a text was refused, in the words that `run-check` prints below the line with the caret:
 *
 *     may stand here: 1.1.1 to 1.1.2
 *
 * Hand over the edition and the texts that were refused, and file, line and number of the refusal as the reader answered it; of an RNDF alone an empty MDF (length 0). No table is needed: they are zero
 * after a refusal. What is told is exactly what would have been right there, by the lines and fields before it (5 to 10 and 25) or by the network (12 to 18), and never what the line may have meant:
 *   5, 6, 10, 25   every statement that would be taken there, the due one first: `lane 1.1, segment_name NAME`; where it is nothing but points, goals or limits, how many lines of them are still owed
 *   7              the fields of that statement: `exit POINT ENTRY (3 fields)`
 *   8, 9           the field at fault: `a number from 1 to 32768`, `1.1.1`, `double_yellow, solid_white, broken_white`, `0, or a number from 10 to 32768`
 *   12, 13         the points that may be entries, part by part: `1.1.1 to 1.1.2`; for a checkpoint's number a sentence
 *   14, 15         the RNDF's name; its checkpoint numbers
 *   16, 17, 18     the ids that have no limit yet (18 begins `without a limit: ` and not `may stand here: `)
 *   2, 3, 4        nothing, and nothing for a refusal without a line or with any other number: `length` is 0
 * Small letters, digits and points are typed as they stand; capitals stand for a field. Of a list of parts, numbers or ids the first six are told, and how many more there are. docs/REFUSALS.md has
 * examples. Of a file, line or number that these texts do not get, what is told may be about a line that is good, or nothing is told.
 *
 * Of a refusal that the reader gave the words are printable ASCII, and KASTEPUHM_EXPECTED_BYTES are enough for them (counted by hand, not proved). No line feed and no 0 byte ends them: take `length`; every
 * byte of the output behind them is 0. Where they are longer than the output, the answer is refusal 19 with file 0, and every byte of the output is 0. The output may not overlap a text.
 */
#define KASTEPUHM_EXPECTED_BYTES 512
kastepuhm_expected_answer kastepuhm_expected(
    uint32_t edition,
    const uint8_t *rndf, size_t rndf_length,
    const uint8_t *mdf, size_t mdf_length,
    uint32_t file,
    uint32_t line,
    uint8_t number,
    uint8_t *out, size_t out_length);

/* Does the text begin as an MDF does? Its first field, behind blank lines and comments, is MDF_name. Nothing else is asked of it: it may be refused all the same. */
bool kastepuhm_is_mission(const uint8_t *text, size_t text_length);

/*
 * The tables in one struct, so that a call is one line. Each function that takes tables has one of the same name with _into behind it, which takes these in their place and does nothing else than hand
 * them over, each pointer with its length: all that is said above holds for them. The struct is only read; it may be kept from call to call, and tables may be of different lengths.
 */
typedef struct kastepuhm_tables {
    uint32_t *segments;
    size_t segments_length;        /* in elements, not rows: as many rows as wanted times KASTEPUHM_SEGMENT_STRIDE */
    uint32_t *lanes;
    size_t lanes_length;
    uint32_t *zones;
    size_t zones_length;
    uint32_t *spots;
    size_t spots_length;
    int32_t *points;
    size_t points_length;
    uint32_t *checkpoints;
    size_t checkpoints_length;
    uint32_t *stops;
    size_t stops_length;
    uint32_t *exits;
    size_t exits_length;
} kastepuhm_tables;

typedef struct kastepuhm_mission_tables {
    uint32_t *goals;
    size_t goals_length;
    uint32_t *limits;
    size_t limits_length;
} kastepuhm_mission_tables;

/*
 * How many rows are enough in every table for a text: its lines, and at least 1. With so many refusal 11 never comes of it, since every row has a line of its own (counted by hand from the format and not
 * proved). The list of kastepuhm_mend takes as many. A text over KASTEPUHM_LONGEST_TEXT is refused before any row is needed.
 * It is more than needed: eight tables of so many rows take some 4 times the bytes of an ordinary text, and 96 bytes for a line that is blank; where this matters, count by the bytes of the shortest rows as
 * crates/yard_check/src/main.rt does. Of packed bytes, bytes_length / 6 rows are enough.
 */
static inline size_t kastepuhm_rows_for(const uint8_t *text, size_t text_length)
{
    size_t lines = 0, i;
    if (text_length > 0 && text_length <= KASTEPUHM_LONGEST_TEXT) {
        for (i = 0; i < text_length; i++)
            if (text[i] == 10)
                lines++;
        if (text[text_length - 1] != 10)
            lines++;
    }
    return lines > 0 ? lines : 1;
}

/* The words that the eight tables of an RNDF take, and the two of an MDF, with so many rows in each. */
#define KASTEPUHM_TABLES_WORDS(rows) ((size_t)24 * (rows))
#define KASTEPUHM_MISSION_TABLES_WORDS(rows) ((size_t)4 * (rows))

/* Eight tables of so many rows each, one behind the other in KASTEPUHM_TABLES_WORDS(rows) words of yours. What the words hold before does not matter. */
static inline kastepuhm_tables kastepuhm_tables_in(uint32_t *words, size_t rows)
{
    kastepuhm_tables t;
    t.segments = words;
    t.segments_length = rows * KASTEPUHM_SEGMENT_STRIDE;
    t.lanes = t.segments + t.segments_length;
    t.lanes_length = rows * KASTEPUHM_LANE_STRIDE;
    t.zones = t.lanes + t.lanes_length;
    t.zones_length = rows * KASTEPUHM_ZONE_STRIDE;
    t.spots = t.zones + t.zones_length;
    t.spots_length = rows * KASTEPUHM_SPOT_STRIDE;
    t.points = (int32_t *)(t.spots + t.spots_length);
    t.points_length = rows * KASTEPUHM_POINT_STRIDE;
    t.checkpoints = t.spots + t.spots_length + t.points_length;
    t.checkpoints_length = rows * KASTEPUHM_CHECKPOINT_STRIDE;
    t.stops = t.checkpoints + t.checkpoints_length;
    t.stops_length = rows * KASTEPUHM_STOP_STRIDE;
    t.exits = t.stops + t.stops_length;
    t.exits_length = rows * KASTEPUHM_EXIT_STRIDE;
    return t;
}

/* The two tables of an MDF likewise, in KASTEPUHM_MISSION_TABLES_WORDS(rows) words: of the same block, they begin at words + KASTEPUHM_TABLES_WORDS(the rows of the others). */
static inline kastepuhm_mission_tables kastepuhm_mission_tables_in(uint32_t *words, size_t rows)
{
    kastepuhm_mission_tables m;
    m.goals = words;
    m.goals_length = rows * KASTEPUHM_GOAL_STRIDE;
    m.limits = m.goals + m.goals_length;
    m.limits_length = rows * KASTEPUHM_LIMIT_STRIDE;
    return m;
}

#define KASTEPUHM_LENT_(t) \
    (t)->segments, (t)->segments_length, (t)->lanes, (t)->lanes_length, (t)->zones, (t)->zones_length, (t)->spots, (t)->spots_length, \
    (t)->points, (t)->points_length, (t)->checkpoints, (t)->checkpoints_length, (t)->stops, (t)->stops_length, (t)->exits, (t)->exits_length
#define KASTEPUHM_MISSION_LENT_(m) (m)->goals, (m)->goals_length, (m)->limits, (m)->limits_length

static inline kastepuhm_answer kastepuhm_read_rndf_into(uint32_t edition, const uint8_t *text, size_t text_length, const kastepuhm_tables *t)
{
    return kastepuhm_read_rndf(edition, text, text_length, KASTEPUHM_LENT_(t));
}

static inline kastepuhm_answer kastepuhm_read_pair_into(uint32_t edition, const uint8_t *rndf, size_t rndf_length, const uint8_t *mdf, size_t mdf_length,
                                                        const kastepuhm_tables *t, const kastepuhm_mission_tables *m)
{
    return kastepuhm_read_pair(edition, rndf, rndf_length, mdf, mdf_length, KASTEPUHM_LENT_(t), KASTEPUHM_MISSION_LENT_(m));
}

static inline kastepuhm_answer kastepuhm_check_route_into(uint32_t edition, const uint8_t *rndf, size_t rndf_length, const uint8_t *mdf, size_t mdf_length,
                                                          const kastepuhm_tables *t, const kastepuhm_mission_tables *m, uint32_t start, const uint32_t *route, size_t route_length)
{
    return kastepuhm_check_route(edition, rndf, rndf_length, mdf, mdf_length, KASTEPUHM_LENT_(t), KASTEPUHM_MISSION_LENT_(m), start, route, route_length);
}

static inline kastepuhm_answer kastepuhm_check_mission_into(uint32_t edition, const uint8_t *rndf, size_t rndf_length, const uint8_t *mdf, size_t mdf_length,
                                                            const kastepuhm_tables *t, const kastepuhm_mission_tables *m, uint32_t start, uint32_t *work, size_t work_length)
{
    return kastepuhm_check_mission(edition, rndf, rndf_length, mdf, mdf_length, KASTEPUHM_LENT_(t), KASTEPUHM_MISSION_LENT_(m), start, work, work_length);
}

static inline kastepuhm_write_answer kastepuhm_write_rndf_into(uint32_t edition, const uint8_t *text, size_t text_length, const kastepuhm_tables *t, uint8_t *out, size_t out_length)
{
    return kastepuhm_write_rndf(edition, text, text_length, KASTEPUHM_LENT_(t), out, out_length);
}

static inline kastepuhm_write_answer kastepuhm_write_map_into(uint32_t edition, const uint8_t *text, size_t text_length, const kastepuhm_tables *t, uint8_t *out, size_t out_length)
{
    return kastepuhm_write_map(edition, text, text_length, KASTEPUHM_LENT_(t), out, out_length);
}

static inline kastepuhm_write_answer kastepuhm_write_packed_into(uint32_t edition, const uint8_t *text, size_t text_length, const kastepuhm_tables *t, uint8_t *out, size_t out_length)
{
    return kastepuhm_write_packed(edition, text, text_length, KASTEPUHM_LENT_(t), out, out_length);
}

static inline kastepuhm_write_answer kastepuhm_write_mdf_into(uint32_t edition, const uint8_t *rndf, size_t rndf_length, const uint8_t *mdf, size_t mdf_length,
                                                              const kastepuhm_tables *t, const kastepuhm_mission_tables *m, uint8_t *out, size_t out_length)
{
    return kastepuhm_write_mdf(edition, rndf, rndf_length, mdf, mdf_length, KASTEPUHM_LENT_(t), KASTEPUHM_MISSION_LENT_(m), out, out_length);
}

static inline kastepuhm_answer kastepuhm_read_packed_into(const uint8_t *bytes, size_t bytes_length, const kastepuhm_tables *t)
{
    return kastepuhm_read_packed(bytes, bytes_length, KASTEPUHM_LENT_(t));
}

#undef KASTEPUHM_LENT_
#undef KASTEPUHM_MISSION_LENT_

#ifdef __cplusplus
}
#endif

#endif

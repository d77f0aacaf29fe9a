//! The yard reader for Rust: route networks (RNDF) and missions (MDF) are read by a proved library into tables that you lend, and either accepted or refused with file, line, one number and the column.
//! It also writes them in the house writing, as a map (GeoJSON) and packed for a radio, unpacks, mends three kinds of trouble, tells whether a route or a mission can be driven, and of a refusal what may stand there.
//!
//! The library is `libyard.a`, which `tools/library.sh` proves and builds for x86-64 and aarch64 Linux. `include/kastepuhm.h` says what every column and every number means; the constants here have
//! its names without `KASTEPUHM_`. What is proved is the library's source; that the declarations here fit it is not (tests/header.py holds them to the header, tests/callers.sh runs them).
//!
//! Nothing is allocated and nothing kept: all memory is the caller's, and the crate needs neither `std` nor `alloc`. Nothing is asked of what a slice holds or how long it is: a table with too few rows is
//! refusal 11, an output that is too short refusal 19. Of the C library, `memset` and `memcpy` are needed.
//!
//! ```
//! use kastepuhm::{expected, read_rndf, rows_for, sentence, Edition, Tables};
//!
//! let text = b"RNDF_name\tYard\nnum_segments\t1\nnum_zones\t0\nsegment\t1\nnum_lanes\t1\nlane\t1.1\nnum_waypoints\t1\n1.1.1\t58.377983\t26.729038\nend_lane\nend_segment\nend_file\n";
//! let rows = rows_for(text);
//! let mut words = vec![0; Tables::words(rows)];
//! let mut tables = Tables::within(&mut words, rows).unwrap();
//!
//! let answer = read_rndf(Edition::March2007, text, &mut tables);
//! assert!(answer.is_accepted());
//! assert_eq!(answer.rndf_name.of(text), b"Yard");
//! assert_eq!(tables.points[..2], [58_377_983, 26_729_038]);
//!
//! let damaged = &text[..text.len() - 9];
//! let why = read_rndf(Edition::March2007, damaged, &mut tables).refusal().unwrap();
//! let mut out = [0; 200];
//! let length = sentence(b"yard.rndf", damaged, why, &mut out);
//! assert_eq!(&out[..length], b"yard.rndf:11: the text ends before `end_file` (10)\n");
//! let told = expected(Edition::March2007, damaged, b"", why, &mut out);
//! assert_eq!(&out[..told.length as usize], b"may stand here: end_file");
//! ```
#![no_std]
#![warn(missing_docs)]

/// The version of this crate and of the library that belongs to it.
pub const VERSION: &str = "1.1.0";

/// The edition of the format. What the older one accepts, the present one accepts with the same tables.
#[derive(Clone, Copy, Debug, PartialEq, Eq)]
pub enum Edition {
    /// Of March 14, 2007: the present one.
    March2007 = 0,
    /// Of December 6, 2006: `solid_yellow` is no boundary there (8), and a zone has at least one spot (9).
    December2006 = 1,
}

/// Of a segment: the row of its first lane.
pub const SEGMENT_FIRST_LANE: usize = 0;
/// Of a segment: how many lanes it has.
pub const SEGMENT_LANES: usize = 1;
/// Of a segment: where its name begins in the text.
pub const SEGMENT_NAME_START: usize = 2;
/// Of a segment: how many bytes that has, 0 where there is none.
pub const SEGMENT_NAME_LENGTH: usize = 3;
/// Numbers to a row of segments.
pub const SEGMENT_STRIDE: usize = 4;

/// Of a lane: the row of its first waypoint.
pub const LANE_FIRST_POINT: usize = 0;
/// Of a lane: how many waypoints it has.
pub const LANE_POINTS: usize = 1;
/// Of a lane: feet, or [`NO_WIDTH`].
pub const LANE_WIDTH: usize = 2;
/// Of a lane: its left boundary, from [`NO_BOUNDARY`] to [`BROKEN_WHITE`].
pub const LANE_LEFT: usize = 3;
/// Of a lane: its right boundary.
pub const LANE_RIGHT: usize = 4;
/// Numbers to a row of lanes.
pub const LANE_STRIDE: usize = 5;

/// Of a zone: the row of the first point of its perimeter.
pub const ZONE_FIRST_POINT: usize = 0;
/// Of a zone: how many points that has.
pub const ZONE_POINTS: usize = 1;
/// Of a zone: the row of its first spot, 0 without spots.
pub const ZONE_FIRST_SPOT: usize = 2;
/// Of a zone: how many spots it has.
pub const ZONE_SPOTS: usize = 3;
/// Of a zone: where its name begins in the text.
pub const ZONE_NAME_START: usize = 4;
/// Of a zone: how many bytes that has, 0 where there is none.
pub const ZONE_NAME_LENGTH: usize = 5;
/// Numbers to a row of zones.
pub const ZONE_STRIDE: usize = 6;

/// Of a spot: the row of its first point; the second is behind it.
pub const SPOT_FIRST_POINT: usize = 0;
/// Of a spot: feet, or [`NO_WIDTH`].
pub const SPOT_WIDTH: usize = 1;
/// Numbers to a row of spots.
pub const SPOT_STRIDE: usize = 2;

/// Of a point: millionths of a degree, -90,000,000 to 90,000,000.
pub const POINT_LATITUDE: usize = 0;
/// Of a point: millionths of a degree, -180,000,000 to 180,000,000.
pub const POINT_LONGITUDE: usize = 1;
/// Numbers to a row of points.
pub const POINT_STRIDE: usize = 2;

/// Of a checkpoint: 1 to 32,768.
pub const CHECKPOINT_NUMBER: usize = 0;
/// Of a checkpoint: the row of its point.
pub const CHECKPOINT_POINT: usize = 1;
/// Numbers to a row of checkpoints.
pub const CHECKPOINT_STRIDE: usize = 2;

/// Of a stop: the row of its point.
pub const STOP_POINT: usize = 0;
/// Numbers to a row of stops.
pub const STOP_STRIDE: usize = 1;

/// Of an exit: the row of its point.
pub const EXIT_POINT: usize = 0;
/// Of an exit: the row of the point that it leads to.
pub const EXIT_ENTRY: usize = 1;
/// Numbers to a row of exits.
pub const EXIT_STRIDE: usize = 2;

/// Of a goal: a checkpoint number.
pub const GOAL_NUMBER: usize = 0;
/// Numbers to a row of goals.
pub const GOAL_STRIDE: usize = 1;

/// Of a speed limit: of a segment or zone.
pub const LIMIT_ID: usize = 0;
/// Of a speed limit: miles per hour, 0 undefined.
pub const LIMIT_MINIMUM: usize = 1;
/// Of a speed limit: miles per hour, 0 undefined.
pub const LIMIT_MAXIMUM: usize = 2;
/// Numbers to a row of speed limits.
pub const LIMIT_STRIDE: usize = 3;

/// A lane has no boundary given.
pub const NO_BOUNDARY: u32 = 0;
/// A boundary: `double_yellow`.
pub const DOUBLE_YELLOW: u32 = 1;
/// A boundary: `solid_yellow`.
pub const SOLID_YELLOW: u32 = 2;
/// A boundary: `solid_white`.
pub const SOLID_WHITE: u32 = 3;
/// A boundary: `broken_white`.
pub const BROKEN_WHITE: u32 = 4;

/// A refusal: the text, or the packed bytes, are over 16,777,215 bytes (line 0).
pub const TEXT_TOO_LONG: u32 = 1;
/// A refusal: the line is over 512 bytes.
pub const LINE_TOO_LONG: u32 = 2;
/// A refusal: the comment is not closed, or something other than tabs and spaces follows it.
pub const BAD_COMMENT: u32 = 3;
/// A refusal: a byte that is not allowed.
pub const BAD_BYTE: u32 = 4;
/// A refusal: the statement is unknown, or may not stand here (also too few or too many items).
pub const NOT_HERE: u32 = 5;
/// A refusal: a single option is given again.
pub const GIVEN_AGAIN: u32 = 6;
/// A refusal: a wrong number of fields.
pub const FIELD_COUNT: u32 = 7;
/// A refusal: a field is not of its kind: spelling, length of a name, boundary word.
pub const BAD_FIELD: u32 = 8;
/// A refusal: a value is not permitted here: range, not the due identifier, a point of another part, minimum above maximum.
pub const NOT_PERMITTED: u32 = 9;
/// A refusal: the text ends before end_file (line: its lines + 1).
pub const UNENDED: u32 = 10;
/// A refusal: a lent table of that file has fewer rows than needed (line 0); with file 0, after all that the reader refuses: the work space has (check_mission only).
pub const NO_ROOM: u32 = 11;
/// A refusal: an exit's entry is no declared lane waypoint or perimeter point.
pub const NO_SUCH_ENTRY: u32 = 12;
/// A refusal: the checkpoint number is already declared.
pub const NUMBER_AGAIN: u32 = 13;
/// A refusal: the MDF names another RNDF.
pub const OTHER_RNDF: u32 = 14;
/// A refusal: the goal is no checkpoint of the RNDF.
pub const NO_SUCH_GOAL: u32 = 15;
/// A refusal: the limit's id is not in the RNDF.
pub const NO_SUCH_ID: u32 = 16;
/// A refusal: the limit's id was already given.
pub const LIMIT_AGAIN: u32 = 17;
/// A refusal: some segment or zone has no limit (line: that of end_speed_limits).
pub const LIMIT_MISSING: u32 = 18;
/// A refusal: writers, `mend` and `expected` only, after all others: the writing is over 16,777,215 bytes, or longer than the lent output (file: the one written, of expected 0; line 0).
pub const OUTPUT_TOO_LONG: u32 = 19;
/// A refusal: points_of only: the two lists differ in length (file 0, line 0).
pub const LISTS_DIFFER: u32 = 20;
/// A refusal: 21 to 24: check_route only, after all others, file 0: the route is empty, or does not begin at a declared start (line 0).
pub const NO_BEGINNING: u32 = 21;
/// A refusal: a step of the route is no move, the first (line: the place in the route that it leads to, from 0).
pub const NO_MOVE: u32 = 22;
/// A refusal: a goal is not met in order, the first (line: the goal's row, from 0).
pub const GOAL_NOT_MET: u32 = 23;
/// A refusal: the route does not end at the last goal's point (line 0).
pub const WRONG_END: u32 = 24;
/// A refusal: the spot has no checkpoint (line: its first waypoint's, where that has no fault of 2 to 9).
pub const BARE_SPOT: u32 = 25;
/// A refusal: mend only, behind 1 and 11 and before 19: with the three changes the text would still be refused (file 0, line 0).
pub const PAST_MENDING: u32 = 26;
/// A refusal: 27 to 29: read_packed only, behind 1 and before 11, in this order, file 0, line 0: there are no bytes, or they are of another version than 2.
pub const OTHER_VERSION: u32 = 27;
/// A refusal: the first length is cut short or is not the count of bytes behind it, or a record runs past the end.
pub const WRONG_LENGTH: u32 = 28;
/// A refusal: the records are not the packed form of a network.
pub const NO_NETWORK: u32 = 29;
/// A refusal: 30 and 31: check_mission only, after all others, in this order, file 0: the start is no declared point (line 0).
pub const NO_START: u32 = 30;
/// A refusal: a goal can't be reached, from the start or from the goal before, the first (line: the goal's row, from 0).
pub const NO_WAY: u32 = 31;

/// Of the list of what was mended: the line's number in the given text, from 1.
pub const MEND_LINE: usize = 0;
/// Of the list of what was mended: what was mended, from [`MENDED_COUNT`] to [`MENDED_BEHIND`].
pub const MEND_WHICH: usize = 1;
/// Numbers to a row of the list of what was mended.
pub const MEND_STRIDE: usize = 2;

/// Of the list of what was mended: a count that disagreed with its items: the number was replaced.
pub const MENDED_COUNT: u32 = 1;
/// Of the list of what was mended: a single option given again: the line was taken out.
pub const MENDED_AGAIN: u32 = 2;
/// Of the list of what was mended: a line with fields behind end_file: it was taken out.
pub const MENDED_BEHIND: u32 = 3;

/// Words to a row of the work space of [`check_mission`].
pub const WORK_STRIDE: usize = 1;
/// A longer text is refusal 1, and so are longer packed bytes.
pub const LONGEST_TEXT: usize = 16_777_215;
/// Where a lane or a spot has no width.
pub const NO_WIDTH: u32 = 65_535;
/// Where no row has the checkpoint number.
pub const NO_POINT: u32 = 4_294_967_295;
/// So many bytes and those of the name are enough for the [`sentence`] of a refusal that this library gave (counted by hand, not proved).
pub const SENTENCE_BYTES: usize = 4_608;
/// So many bytes are enough for what is [`expected`] in place of what this library refused (counted by hand, not proved).
pub const EXPECTED_BYTES: usize = 512;

/// A name: its start and length in the text, or the packed bytes, that were lent; a missing one is 0, 0.
#[repr(C)]
#[derive(Clone, Copy, Debug, PartialEq, Eq)]
pub struct Name {
    /// Its first byte, counted from 0.
    pub start: u32,
    /// How many bytes it has.
    pub length: u32,
}

impl Name {
    /// Its bytes; empty where start and length do not fit in the text, or the name is missing.
    pub fn of(self, text: &[u8]) -> &[u8] {
        let start = self.start as usize;
        text.get(start..start + self.length as usize).unwrap_or(&[])
    }
}

/// Why something was refused.
#[derive(Clone, Copy, Debug, PartialEq, Eq)]
pub struct Refusal {
    /// 1 the RNDF, 2 the MDF, 0 neither.
    pub file: u32,
    /// The line, from 1; 0 where there is none. Of 22, 23 and 31 a place in the route or a goal's row, from 0.
    pub line: u32,
    /// What is wrong: the constants from [`TEXT_TOO_LONG`] to [`NO_WAY`].
    pub number: u32,
    /// Where in the line, in bytes from 1; 0 where there is none.
    pub column: u32,
}

/// What a reader answers. Of a refusal every field is 0 but for file, line, number and column.
#[repr(C)]
#[derive(Clone, Copy, Debug, PartialEq, Eq)]
pub struct Answer {
    /// 1: accepted, 0: refused.
    pub accepted: u32,
    /// Of a refusal: 1 the RNDF, 2 the MDF, 0 neither.
    pub file: u32,
    /// Of a refusal: the line, from 1; 0 where there is none.
    pub line: u32,
    /// Of a refusal: what is wrong.
    pub number: u32,
    /// Of a refusal: where in its line, in bytes from 1; 0 where there is none.
    pub column: u32,
    /// Rows used of that table.
    pub segments: u32,
    /// Rows used of that table.
    pub lanes: u32,
    /// Rows used of that table.
    pub zones: u32,
    /// Rows used of that table.
    pub spots: u32,
    /// Rows used of that table.
    pub points: u32,
    /// Rows used of that table.
    pub checkpoints: u32,
    /// Rows used of that table.
    pub stops: u32,
    /// Rows used of that table.
    pub exits: u32,
    /// Rows used of that table.
    pub goals: u32,
    /// Rows used of that table.
    pub limits: u32,
    /// In the RNDF's text, or in the packed bytes.
    pub rndf_name: Name,
    /// `format_version`; may be missing.
    pub rndf_version: Name,
    /// `creation_date`; may be missing, and always is of packed bytes.
    pub rndf_date: Name,
    /// In the MDF's text.
    pub mdf_name: Name,
    /// The RNDF that the MDF names.
    pub mdf_rndf: Name,
    /// `format_version`; may be missing.
    pub mdf_version: Name,
    /// `creation_date`; may be missing.
    pub mdf_date: Name,
}

impl Answer {
    /// Whether it was accepted.
    pub fn is_accepted(&self) -> bool {
        self.accepted != 0
    }

    /// Why it was refused, if it was.
    pub fn refusal(&self) -> Option<Refusal> {
        refusal(self.accepted, self.file, self.line, self.number, self.column)
    }
}

/// What a writer answers: `answer.accepted`, and then the first `length` bytes of the output are the writing.
#[repr(C)]
#[derive(Clone, Copy, Debug, PartialEq, Eq)]
pub struct WriteAnswer {
    /// As the reader of these texts answers, or refusal 19.
    pub answer: Answer,
    /// Bytes written; 0 where refused.
    pub length: u32,
}

impl WriteAnswer {
    /// Whether it was written.
    pub fn is_accepted(&self) -> bool {
        self.answer.is_accepted()
    }

    /// Why it was refused, if it was.
    pub fn refusal(&self) -> Option<Refusal> {
        self.answer.refusal()
    }
}

/// What the mending tool answers.
#[repr(C)]
#[derive(Clone, Copy, Debug, PartialEq, Eq)]
pub struct MendAnswer {
    /// 1: accepted, 0: refused.
    pub accepted: u32,
    /// Of a refusal: 1 the RNDF, 2 the MDF, 0 neither.
    pub file: u32,
    /// Of a refusal: the line, from 1; 0 where there is none.
    pub line: u32,
    /// Of a refusal: what is wrong.
    pub number: u32,
    /// Of a refusal: where in its line, in bytes from 1; 0 where there is none.
    pub column: u32,
    /// Rows of the list used.
    pub rows: u32,
    /// Bytes written; 0 where refused.
    pub length: u32,
}

impl MendAnswer {
    /// Whether it was accepted.
    pub fn is_accepted(&self) -> bool {
        self.accepted != 0
    }

    /// Why it was refused, if it was.
    pub fn refusal(&self) -> Option<Refusal> {
        refusal(self.accepted, self.file, self.line, self.number, self.column)
    }
}

/// What the look-up of a list answers.
#[repr(C)]
#[derive(Clone, Copy, Debug, PartialEq, Eq)]
pub struct ListAnswer {
    /// 1: accepted, 0: refused.
    pub accepted: u32,
    /// Of a refusal: 1 the RNDF, 2 the MDF, 0 neither.
    pub file: u32,
    /// Of a refusal: the line, from 1; 0 where there is none.
    pub line: u32,
    /// Of a refusal: what is wrong.
    pub number: u32,
    /// Of a refusal: where in its line, in bytes from 1; 0 where there is none.
    pub column: u32,
}

impl ListAnswer {
    /// Whether it was accepted.
    pub fn is_accepted(&self) -> bool {
        self.accepted != 0
    }

    /// Why it was refused, if it was.
    pub fn refusal(&self) -> Option<Refusal> {
        refusal(self.accepted, self.file, self.line, self.number, self.column)
    }
}

/// What is answered to the question what may stand where a text was refused.
#[repr(C)]
#[derive(Clone, Copy, Debug, PartialEq, Eq)]
pub struct ExpectedAnswer {
    /// 1: accepted, 0: refused.
    pub accepted: u32,
    /// 0.
    pub file: u32,
    /// 0.
    pub line: u32,
    /// Of a refusal: [`OUTPUT_TOO_LONG`].
    pub number: u32,
    /// 0.
    pub column: u32,
    /// Bytes put; 0 where nothing is told, and where refused.
    pub length: u32,
}

impl ExpectedAnswer {
    /// Whether it was accepted.
    pub fn is_accepted(&self) -> bool {
        self.accepted != 0
    }

    /// Why it was refused, if it was.
    pub fn refusal(&self) -> Option<Refusal> {
        refusal(self.accepted, self.file, self.line, self.number, self.column)
    }
}

fn refusal(accepted: u32, file: u32, line: u32, number: u32, column: u32) -> Option<Refusal> {
    (accepted == 0).then_some(Refusal { file, line, number, column })
}

/// The tables of an RNDF to lend. Each is so many numbers to a row (`SEGMENT_STRIDE`, ..), rows one behind the other; lengths may be any. After an acceptance the rows used hold what the text says and the
/// rest is 0; after a refusal all is 0.
#[derive(Debug, PartialEq, Eq)]
pub struct Tables<'a> {
    /// `SEGMENT_STRIDE` to a row.
    pub segments: &'a mut [u32],
    /// `LANE_STRIDE` to a row.
    pub lanes: &'a mut [u32],
    /// `ZONE_STRIDE` to a row.
    pub zones: &'a mut [u32],
    /// `SPOT_STRIDE` to a row.
    pub spots: &'a mut [u32],
    /// `POINT_STRIDE` to a row.
    pub points: &'a mut [i32],
    /// `CHECKPOINT_STRIDE` to a row.
    pub checkpoints: &'a mut [u32],
    /// `STOP_STRIDE` to a row.
    pub stops: &'a mut [u32],
    /// `EXIT_STRIDE` to a row.
    pub exits: &'a mut [u32],
}

impl<'a> Tables<'a> {
    /// The words that the eight tables take with so many rows in each.
    pub const fn words(rows: usize) -> usize {
        24 * rows
    }

    /// Eight tables of so many rows each, one behind the other in a block of words; `None` where it has fewer than `Tables::words(rows)`.
    ///
    /// ```
    /// let mut words = [0; kastepuhm::Tables::words(10)];
    /// assert_eq!(kastepuhm::Tables::within(&mut words, 10).unwrap().lanes.len(), 10 * kastepuhm::LANE_STRIDE);
    /// assert!(kastepuhm::Tables::within(&mut words, 11).is_none());
    /// ```
    pub fn within(words: &'a mut [u32], rows: usize) -> Option<Tables<'a>> {
        if rows > words.len() / Tables::words(1) {
            return None;
        }
        let (segments, words) = words.split_at_mut(rows * SEGMENT_STRIDE);
        let (lanes, words) = words.split_at_mut(rows * LANE_STRIDE);
        let (zones, words) = words.split_at_mut(rows * ZONE_STRIDE);
        let (spots, words) = words.split_at_mut(rows * SPOT_STRIDE);
        let (points, words) = words.split_at_mut(rows * POINT_STRIDE);
        let (checkpoints, words) = words.split_at_mut(rows * CHECKPOINT_STRIDE);
        let (stops, words) = words.split_at_mut(rows * STOP_STRIDE);
        let (exits, _) = words.split_at_mut(rows * EXIT_STRIDE);
        // Safe: the same words, lent as long, and every word is an i32.
        let points = unsafe { core::slice::from_raw_parts_mut(points.as_mut_ptr().cast::<i32>(), points.len()) };
        Some(Tables { segments, lanes, zones, spots, points, checkpoints, stops, exits })
    }
}

/// The tables of an MDF to lend.
#[derive(Debug, PartialEq, Eq)]
pub struct MissionTables<'a> {
    /// `GOAL_STRIDE` to a row.
    pub goals: &'a mut [u32],
    /// `LIMIT_STRIDE` to a row.
    pub limits: &'a mut [u32],
}

impl<'a> MissionTables<'a> {
    /// The words that the two tables take with so many rows in each.
    pub const fn words(rows: usize) -> usize {
        4 * rows
    }

    /// Two tables of so many rows each in a block of words; `None` where it has fewer than `MissionTables::words(rows)`.
    pub fn within(words: &'a mut [u32], rows: usize) -> Option<MissionTables<'a>> {
        if rows > words.len() / MissionTables::words(1) {
            return None;
        }
        let (goals, words) = words.split_at_mut(rows * GOAL_STRIDE);
        let (limits, _) = words.split_at_mut(rows * LIMIT_STRIDE);
        Some(MissionTables { goals, limits })
    }
}

/// How many rows are enough in every table for a text: its lines, and at least 1. With so many refusal 11 never comes of it (counted by hand from the format, not proved). The list of [`mend`] takes as many.
///
/// ```
/// assert_eq!(kastepuhm::rows_for(b"num_zones\t0\nend_file"), 2);
/// ```
pub fn rows_for(text: &[u8]) -> usize {
    if text.len() > LONGEST_TEXT {
        return 1;
    }
    let unfinished = text.last().is_some_and(|&last| last != b'\n');
    (text.iter().filter(|&&byte| byte == b'\n').count() + usize::from(unfinished)).max(1)
}

// Each slice crosses as a pointer and then its length in elements.
extern "C" {
    fn kastepuhm_read_rndf(
        edition: u32,
        text: *const u8, text_length: usize,
        segments: *mut u32, segments_length: usize,
        lanes: *mut u32, lanes_length: usize,
        zones: *mut u32, zones_length: usize,
        spots: *mut u32, spots_length: usize,
        points: *mut i32, points_length: usize,
        checkpoints: *mut u32, checkpoints_length: usize,
        stops: *mut u32, stops_length: usize,
        exits: *mut u32, exits_length: usize,
    ) -> Answer;

    fn kastepuhm_read_pair(
        edition: u32,
        rndf: *const u8, rndf_length: usize,
        mdf: *const u8, mdf_length: usize,
        segments: *mut u32, segments_length: usize,
        lanes: *mut u32, lanes_length: usize,
        zones: *mut u32, zones_length: usize,
        spots: *mut u32, spots_length: usize,
        points: *mut i32, points_length: usize,
        checkpoints: *mut u32, checkpoints_length: usize,
        stops: *mut u32, stops_length: usize,
        exits: *mut u32, exits_length: usize,
        goals: *mut u32, goals_length: usize,
        limits: *mut u32, limits_length: usize,
    ) -> Answer;

    fn kastepuhm_check_route(
        edition: u32,
        rndf: *const u8, rndf_length: usize,
        mdf: *const u8, mdf_length: usize,
        segments: *mut u32, segments_length: usize,
        lanes: *mut u32, lanes_length: usize,
        zones: *mut u32, zones_length: usize,
        spots: *mut u32, spots_length: usize,
        points: *mut i32, points_length: usize,
        checkpoints: *mut u32, checkpoints_length: usize,
        stops: *mut u32, stops_length: usize,
        exits: *mut u32, exits_length: usize,
        goals: *mut u32, goals_length: usize,
        limits: *mut u32, limits_length: usize,
        start: u32,
        route: *const u32, route_length: usize,
    ) -> Answer;

    fn kastepuhm_check_mission(
        edition: u32,
        rndf: *const u8, rndf_length: usize,
        mdf: *const u8, mdf_length: usize,
        segments: *mut u32, segments_length: usize,
        lanes: *mut u32, lanes_length: usize,
        zones: *mut u32, zones_length: usize,
        spots: *mut u32, spots_length: usize,
        points: *mut i32, points_length: usize,
        checkpoints: *mut u32, checkpoints_length: usize,
        stops: *mut u32, stops_length: usize,
        exits: *mut u32, exits_length: usize,
        goals: *mut u32, goals_length: usize,
        limits: *mut u32, limits_length: usize,
        start: u32,
        work: *mut u32, work_length: usize,
    ) -> Answer;

    fn kastepuhm_write_rndf(
        edition: u32,
        text: *const u8, text_length: usize,
        segments: *mut u32, segments_length: usize,
        lanes: *mut u32, lanes_length: usize,
        zones: *mut u32, zones_length: usize,
        spots: *mut u32, spots_length: usize,
        points: *mut i32, points_length: usize,
        checkpoints: *mut u32, checkpoints_length: usize,
        stops: *mut u32, stops_length: usize,
        exits: *mut u32, exits_length: usize,
        out: *mut u8, out_length: usize,
    ) -> WriteAnswer;

    fn kastepuhm_write_map(
        edition: u32,
        text: *const u8, text_length: usize,
        segments: *mut u32, segments_length: usize,
        lanes: *mut u32, lanes_length: usize,
        zones: *mut u32, zones_length: usize,
        spots: *mut u32, spots_length: usize,
        points: *mut i32, points_length: usize,
        checkpoints: *mut u32, checkpoints_length: usize,
        stops: *mut u32, stops_length: usize,
        exits: *mut u32, exits_length: usize,
        out: *mut u8, out_length: usize,
    ) -> WriteAnswer;

    fn kastepuhm_write_packed(
        edition: u32,
        text: *const u8, text_length: usize,
        segments: *mut u32, segments_length: usize,
        lanes: *mut u32, lanes_length: usize,
        zones: *mut u32, zones_length: usize,
        spots: *mut u32, spots_length: usize,
        points: *mut i32, points_length: usize,
        checkpoints: *mut u32, checkpoints_length: usize,
        stops: *mut u32, stops_length: usize,
        exits: *mut u32, exits_length: usize,
        out: *mut u8, out_length: usize,
    ) -> WriteAnswer;

    fn kastepuhm_write_mdf(
        edition: u32,
        rndf: *const u8, rndf_length: usize,
        mdf: *const u8, mdf_length: usize,
        segments: *mut u32, segments_length: usize,
        lanes: *mut u32, lanes_length: usize,
        zones: *mut u32, zones_length: usize,
        spots: *mut u32, spots_length: usize,
        points: *mut i32, points_length: usize,
        checkpoints: *mut u32, checkpoints_length: usize,
        stops: *mut u32, stops_length: usize,
        exits: *mut u32, exits_length: usize,
        goals: *mut u32, goals_length: usize,
        limits: *mut u32, limits_length: usize,
        out: *mut u8, out_length: usize,
    ) -> WriteAnswer;

    fn kastepuhm_read_packed(
        bytes: *const u8, bytes_length: usize,
        segments: *mut u32, segments_length: usize,
        lanes: *mut u32, lanes_length: usize,
        zones: *mut u32, zones_length: usize,
        spots: *mut u32, spots_length: usize,
        points: *mut i32, points_length: usize,
        checkpoints: *mut u32, checkpoints_length: usize,
        stops: *mut u32, stops_length: usize,
        exits: *mut u32, exits_length: usize,
    ) -> Answer;

    fn kastepuhm_mend(
        edition: u32,
        text: *const u8, text_length: usize,
        list: *mut u32, list_length: usize,
        out: *mut u8, out_length: usize,
    ) -> MendAnswer;

    fn kastepuhm_point_of(
        checkpoints: *const u32, checkpoints_length: usize,
        number: u32,
    ) -> u32;

    fn kastepuhm_points_of(
        checkpoints: *const u32, checkpoints_length: usize,
        numbers: *const u32, numbers_length: usize,
        points: *mut u32, points_length: usize,
    ) -> ListAnswer;

    fn kastepuhm_sentence(
        name: *const u8, name_length: usize,
        text: *const u8, text_length: usize,
        line: u32,
        number: u8,
        column: u32,
        out: *mut u8, out_length: usize,
    ) -> u32;

    fn kastepuhm_expected(
        edition: u32,
        rndf: *const u8, rndf_length: usize,
        mdf: *const u8, mdf_length: usize,
        file: u32,
        line: u32,
        number: u8,
        out: *mut u8, out_length: usize,
    ) -> ExpectedAnswer;

    fn kastepuhm_is_mission(
        text: *const u8, text_length: usize,
    ) -> bool;
}

// with_tables!(function, tables[, mission tables], [arguments before], [arguments behind])
macro_rules! with_tables {
    ($function:ident, $t:ident, [$($before:expr),*], [$($behind:expr),*]) => {
        $function(
            $($before,)*
            $t.segments.as_mut_ptr(), $t.segments.len(),
            $t.lanes.as_mut_ptr(), $t.lanes.len(),
            $t.zones.as_mut_ptr(), $t.zones.len(),
            $t.spots.as_mut_ptr(), $t.spots.len(),
            $t.points.as_mut_ptr(), $t.points.len(),
            $t.checkpoints.as_mut_ptr(), $t.checkpoints.len(),
            $t.stops.as_mut_ptr(), $t.stops.len(),
            $t.exits.as_mut_ptr(), $t.exits.len(),
            $($behind,)*
        )
    };
    ($function:ident, $t:ident, $m:ident, [$($before:expr),*], [$($behind:expr),*]) => {
        with_tables!($function, $t, [$($before),*], [$m.goals.as_mut_ptr(), $m.goals.len(), $m.limits.as_mut_ptr(), $m.limits.len() $(, $behind)*])
    };
}

/// An RNDF alone.
pub fn read_rndf(edition: Edition, text: &[u8], t: &mut Tables) -> Answer {
    // Safe, here and below: the functions require nothing of what the slices hold or how long they are, and keep no pointer; that slices which are written overlap no other is what `&mut` says.
    unsafe { with_tables!(kastepuhm_read_rndf, t, [edition as u32, text.as_ptr(), text.len()], []) }
}

/// An RNDF with its MDF.
pub fn read_pair(edition: Edition, rndf: &[u8], mdf: &[u8], t: &mut Tables, m: &mut MissionTables) -> Answer {
    unsafe { with_tables!(kastepuhm_read_pair, t, m, [edition as u32, rndf.as_ptr(), rndf.len(), mdf.as_ptr(), mdf.len()], []) }
}

/// Whether a route, by rows of the point table, is drivable from a start: as [`read_pair`], or refused with 21 to 24.
pub fn check_route(edition: Edition, rndf: &[u8], mdf: &[u8], t: &mut Tables, m: &mut MissionTables, start: u32, route: &[u32]) -> Answer {
    unsafe { with_tables!(kastepuhm_check_route, t, m, [edition as u32, rndf.as_ptr(), rndf.len(), mdf.as_ptr(), mdf.len()], [start, route.as_ptr(), route.len()]) }
}

/// Whether the mission can be driven from a start at all: as [`read_pair`], or refused with 11 (file 0), 30 or 31. The work space has a word for each point and is zero afterwards, whatever is answered.
pub fn check_mission(edition: Edition, rndf: &[u8], mdf: &[u8], t: &mut Tables, m: &mut MissionTables, start: u32, work: &mut [u32]) -> Answer {
    unsafe { with_tables!(kastepuhm_check_mission, t, m, [edition as u32, rndf.as_ptr(), rndf.len(), mdf.as_ptr(), mdf.len()], [start, work.as_mut_ptr(), work.len()]) }
}

/// The house writing of an RNDF. One byte more than the text has is enough for the output.
pub fn write_rndf(edition: Edition, text: &[u8], t: &mut Tables, out: &mut [u8]) -> WriteAnswer {
    unsafe { with_tables!(kastepuhm_write_rndf, t, [edition as u32, text.as_ptr(), text.len()], [out.as_mut_ptr(), out.len()]) }
}

/// The map of an RNDF's network, as GeoJSON. It is longer than the text, often several times.
pub fn write_map(edition: Edition, text: &[u8], t: &mut Tables, out: &mut [u8]) -> WriteAnswer {
    unsafe { with_tables!(kastepuhm_write_map, t, [edition as u32, text.as_ptr(), text.len()], [out.as_mut_ptr(), out.len()]) }
}

/// The network of an RNDF, packed for a radio. It is shorter than the text.
pub fn write_packed(edition: Edition, text: &[u8], t: &mut Tables, out: &mut [u8]) -> WriteAnswer {
    unsafe { with_tables!(kastepuhm_write_packed, t, [edition as u32, text.as_ptr(), text.len()], [out.as_mut_ptr(), out.len()]) }
}

/// The house writing of the MDF of a pair.
pub fn write_mdf(edition: Edition, rndf: &[u8], mdf: &[u8], t: &mut Tables, m: &mut MissionTables, out: &mut [u8]) -> WriteAnswer {
    unsafe { with_tables!(kastepuhm_write_mdf, t, m, [edition as u32, rndf.as_ptr(), rndf.len(), mdf.as_ptr(), mdf.len()], [out.as_mut_ptr(), out.len()]) }
}

/// A packed network: as [`read_rndf`] of the text that was packed, names in the packed bytes, or refused with 1, 27, 28, 29 or 11. `bytes.len() / 6` rows are enough in every table.
pub fn read_packed(bytes: &[u8], t: &mut Tables) -> Answer {
    unsafe { with_tables!(kastepuhm_read_packed, t, [bytes.as_ptr(), bytes.len()], []) }
}

/// The text with three kinds of trouble mended, and a row of the list (`MEND_STRIDE`) for each changed line; or refused with 1, 11, 26 or 19. The list needs as many rows as the text has lines.
///
/// ```
/// use kastepuhm::{mend, rows_for, Edition, MENDED_BEHIND, MEND_STRIDE};
///
/// let text = b"RNDF_name\tYard\nnum_segments\t1\nnum_zones\t0\nsegment\t1\nnum_lanes\t1\nlane\t1.1\nnum_waypoints\t1\n1.1.1\t0.000000\t0.000000\nend_lane\nend_segment\nend_file\nleft over\n";
/// let mut list = vec![0; MEND_STRIDE * rows_for(text)];
/// let mut out = vec![0; text.len() + 4 * rows_for(text)];
/// let answer = mend(Edition::March2007, text, &mut list, &mut out);
/// assert_eq!((answer.rows, &list[..2]), (1, &[12, MENDED_BEHIND][..]));
/// assert_eq!(&out[..answer.length as usize], &text[..text.len() - 10]);
/// ```
pub fn mend(edition: Edition, text: &[u8], list: &mut [u32], out: &mut [u8]) -> MendAnswer {
    unsafe { kastepuhm_mend(edition as u32, text.as_ptr(), text.len(), list.as_mut_ptr(), list.len(), out.as_mut_ptr(), out.len()) }
}

/// The point of the first row with that checkpoint number, or [`NO_POINT`].
///
/// ```
/// assert_eq!(kastepuhm::point_of(&[7, 3, 9, 5], 9), 5);
/// assert_eq!(kastepuhm::point_of(&[7, 3, 9, 5], 8), kastepuhm::NO_POINT);
/// ```
pub fn point_of(checkpoints: &[u32], number: u32) -> u32 {
    unsafe { kastepuhm_point_of(checkpoints.as_ptr(), checkpoints.len(), number) }
}

/// The point of each number in its place; refused (20) where the two lists differ in length.
pub fn points_of(checkpoints: &[u32], numbers: &[u32], points: &mut [u32]) -> ListAnswer {
    unsafe { kastepuhm_points_of(checkpoints.as_ptr(), checkpoints.len(), numbers.as_ptr(), numbers.len(), points.as_mut_ptr(), points.len()) }
}

/// A refusal in words, as planners are told it: `network.rndf:9:12: the entry is no declared lane waypoint or perimeter point (12)`, and below it the line with a caret. `name` is what the text is to be
/// called, `text` the one of the refusal's file. How many bytes the sentence has, and the output is zero behind them; 0 where it does not fit, and then the output is zero.
pub fn sentence(name: &[u8], text: &[u8], why: Refusal, out: &mut [u8]) -> usize {
    // Numbers go up to 31; any other is told as `no such refusal`. A refusal of neither file is about no line.
    let number = u8::try_from(why.number).unwrap_or(0);
    let (line, column) = if why.file == 0 { (0, 0) } else { (why.line, why.column) };
    unsafe { kastepuhm_sentence(name.as_ptr(), name.len(), text.as_ptr(), text.len(), line, number, column, out.as_mut_ptr(), out.len()) as usize }
}

/// What may stand where these texts were refused, in the words that `run-check` prints below the line with the caret; of an RNDF alone the MDF is empty. `length` bytes of the output are the words, without a
/// line feed, and the others zero; `length` is 0 where nothing is told (2, 3, 4, a refusal without a line or of anything but a text). Refused with 19, and the output zero, where they do not fit;
/// [`EXPECTED_BYTES`] are enough. Small letters, digits and points are typed as they stand, capitals stand for a field. include/kastepuhm.h says what is told of each number.
///
/// ```
/// use kastepuhm::{expected, Edition, Refusal, EXPECTED_BYTES, OUTPUT_TOO_LONG};
///
/// let text = b"RNDF_name\tYard\nnum_segments\t1\nnum_zones\t0\nsegment\t1\nnum_lanes\t0\n";
/// let why = Refusal { file: 1, line: 5, number: 9, column: 11 };
/// let mut out = [0; EXPECTED_BYTES];
/// let answer = expected(Edition::March2007, text, b"", why, &mut out);
/// assert_eq!(&out[..answer.length as usize], b"may stand here: a number from 1 to 32768");
/// assert_eq!(expected(Edition::March2007, text, b"", why, &mut out[..39]).refusal().unwrap().number, OUTPUT_TOO_LONG);
/// ```
pub fn expected(edition: Edition, rndf: &[u8], mdf: &[u8], why: Refusal, out: &mut [u8]) -> ExpectedAnswer {
    // Numbers go up to 31; of any other nothing is told.
    let number = u8::try_from(why.number).unwrap_or(0);
    unsafe { kastepuhm_expected(edition as u32, rndf.as_ptr(), rndf.len(), mdf.as_ptr(), mdf.len(), why.file, why.line, number, out.as_mut_ptr(), out.len()) }
}

/// Does the text begin as an MDF does? It may be refused all the same.
///
/// ```
/// assert!(kastepuhm::is_mission(b"/* round 1 */\nMDF_name\tRound\n"));
/// assert!(!kastepuhm::is_mission(b"RNDF_name\tYard\n"));
/// ```
pub fn is_mission(text: &[u8]) -> bool {
    unsafe { kastepuhm_is_mission(text.as_ptr(), text.len()) }
}

//! A worked caller in Rust, over the crate in bindings/rust: `caller NETWORK [MISSION]` reads an RNDF, alone or with its MDF, and prints the summary program's line, what stands in the tables, and
//! then the length and first line of the house writing, and the network's map; `caller NETWORK MISSION START [POINT ..]` prints whether the route of these points is drivable from there (request L5), `caller NETWORK MISSION drive START ROWS` whether the mission can be driven from there at all, with so many rows of work space (request L13), `caller NETWORK pack` the bytes of the packed network, and `caller FILE unpack [ROWS ..]` what stands in the tables of such bytes, with so many rows lent of the first tables (request L11), and `caller NETWORK mend [ROWS [BYTES]]` the lines that were mended, and the mended text, with so many rows of the list and so many bytes of the output lent (request L9); `caller NETWORK [MISSION] tell [BYTES]` "accepted" or the refusal in words, and below them what may stand there (with BYTES: how many bytes the words have, and the first BYTES of them, and nothing below them), `caller NETWORK [MISSION] expect [BYTES]` what may stand there alone, with so many bytes lent, `caller FILE kind` whether it begins as an MDF does. With `--2006` before all these words
//! the texts are read in the edition of December 6, 2006 (request L10), else in the present one. include/kastepuhm.h says what every column and number means.
//! Texts up to 8,192 bytes, 256 points and 128 rows of every other table, as the summary program has them; `tell` and `expect` take texts of any length and lend what they need.
use std::io::Read;

use kastepuhm::{Answer, Edition, MissionTables, Name, Refusal, Tables, WriteAnswer};

const MOST_BYTES: usize = 8192;

fn load(path: &str) -> Result<Vec<u8>, &'static str> {
    let mut text = Vec::new();
    let file = std::fs::File::open(path).map_err(|_| "no file")?;
    file.take(MOST_BYTES as u64 + 1).read_to_end(&mut text).map_err(|_| "no file")?;
    if text.len() > MOST_BYTES { Err("file too big") } else { Ok(text) }
}

fn load_whole(path: &str) -> Result<Vec<u8>, &'static str> {
    std::fs::read(path).map_err(|_| "no file")
}

fn name(text: &[u8], n: Name) -> String {
    let bytes = n.of(text);
    if bytes.is_empty() { "-".to_string() } else { String::from_utf8_lossy(bytes).into_owned() }
}

fn width(feet: u32) -> String {
    if feet == kastepuhm::NO_WIDTH { "no width".to_string() } else { format!("width {feet}") }
}

/// Millionths of a degree. The sign is the whole number's: -500000 is -0.500000.
fn degrees(millionths: i32) -> String {
    let size = millionths.unsigned_abs();
    format!("{}{}.{:06}", if millionths < 0 { "-" } else { "" }, size / 1_000_000, size % 1_000_000)
}

fn point(t: &Tables, i: u32) -> String {
    if i == kastepuhm::NO_POINT {
        return "none".to_string();
    }
    let at = i as usize * 2;
    format!("{i} at {} {}", degrees(t.points[at]), degrees(t.points[at + 1]))
}

fn print_network(a: &Answer, t: &Tables, text: &[u8]) {
    println!("network {} version {} date {}", name(text, a.rndf_name), name(text, a.rndf_version), name(text, a.rndf_date));
    for (i, row) in t.segments.chunks_exact(4).take(a.segments as usize).enumerate() {
        println!("segment {} {}", i + 1, name(text, Name { start: row[2], length: row[3] }));
        for (n, lane) in t.lanes.chunks_exact(5).skip(row[0] as usize).take(row[1] as usize).enumerate() {
            println!("lane {}.{} points {} {} boundaries {} {} first {}", i + 1, n + 1, lane[1], width(lane[2]), lane[3], lane[4], point(t, lane[0]));
        }
    }
    for (i, row) in t.zones.chunks_exact(6).take(a.zones as usize).enumerate() {
        let id = a.segments as usize + i + 1;
        println!("zone {id} {} points {} first {}", name(text, Name { start: row[4], length: row[5] }), row[1], point(t, row[0]));
        for (n, spot) in t.spots.chunks_exact(2).skip(row[2] as usize).take(row[3] as usize).enumerate() {
            println!("spot {id}.{} {} first {}", n + 1, width(spot[1]), point(t, spot[0]));
        }
    }
    for &stop in t.stops.iter().take(a.stops as usize) {
        println!("stop {}", point(t, stop));
    }
    for row in t.exits.chunks_exact(2).take(a.exits as usize) {
        println!("exit {} to {}", row[0], row[1]);
    }
}

fn print_mission(a: &Answer, t: &Tables, m: &MissionTables, text: &[u8]) {
    println!("mission {} version {} date {} for {}", name(text, a.mdf_name), name(text, a.mdf_version), name(text, a.mdf_date), name(text, a.mdf_rndf));
    // A goal's row is its number, so the rows used are a list of numbers: all of them are asked at one go.
    let goals = &m.goals[..a.goals as usize];
    let mut points = vec![0; goals.len()];
    if !kastepuhm::points_of(t.checkpoints, goals, &mut points).is_accepted() {
        println!("two lists of one length differ in length");
    }
    for (&goal, &its_point) in goals.iter().zip(&points) {
        println!("goal {goal} point {}", point(t, its_point));
        if its_point != kastepuhm::point_of(t.checkpoints, goal) {
            println!("asked alone it is another");
        }
    }
    for row in m.limits.chunks_exact(3).take(a.limits as usize) {
        println!("limit {} minimum {} maximum {}", row[0], row[1], row[2]);
    }
}

fn print_house(what: &str, w: &WriteAnswer, out: &[u8]) {
    if let Some(why) = w.refusal() {
        print!("house writing of the {what} ");
        return print_refusal(why);
    }
    let first = out[..w.length as usize].split(|&b| b == b'\n').next().unwrap_or(&[]);
    println!("house writing of the {what} {} bytes: {}", w.length, String::from_utf8_lossy(first));
}

fn print_map(w: &WriteAnswer, out: &[u8]) {
    if let Some(why) = w.refusal() {
        print!("map of the network ");
        return print_refusal(why);
    }
    println!("map of the network {} bytes: {}", w.length, String::from_utf8_lossy(&out[..w.length as usize]));
}

/// The words of ten tables, lent as the summary program has them: `rows` are those of the first tables, in the order of the fields; of the others all.
struct Lent {
    words: Vec<u32>,
    mission_words: Vec<u32>,
}

const ROWS: usize = 128;
const POINTS: usize = 256;

impl Lent {
    fn new() -> Lent {
        Lent { words: vec![0xAAAA_AAAA; Tables::words(POINTS)], mission_words: vec![0xAAAA_AAAA; MissionTables::words(ROWS)] }
    }

    fn tables(&mut self, rows: &[usize]) -> (Tables<'_>, MissionTables<'_>) {
        fn first<T>(table: &mut [T], length: usize) -> &mut [T] {
            let length = length.min(table.len());
            &mut table[..length]
        }
        let all = Tables::within(&mut self.words, POINTS).expect("the words of 256 rows");
        let row = |i: usize, most: usize| rows.get(i).map_or(most, |&rows| rows.min(most));
        let tables = Tables {
            segments: first(all.segments, kastepuhm::SEGMENT_STRIDE * row(0, ROWS)),
            lanes: first(all.lanes, kastepuhm::LANE_STRIDE * row(1, ROWS)),
            zones: first(all.zones, kastepuhm::ZONE_STRIDE * row(2, ROWS)),
            spots: first(all.spots, kastepuhm::SPOT_STRIDE * row(3, ROWS)),
            points: first(all.points, kastepuhm::POINT_STRIDE * row(4, POINTS)),
            checkpoints: first(all.checkpoints, kastepuhm::CHECKPOINT_STRIDE * row(5, ROWS)),
            stops: first(all.stops, kastepuhm::STOP_STRIDE * row(6, ROWS)),
            exits: first(all.exits, kastepuhm::EXIT_STRIDE * row(7, ROWS)),
        };
        (tables, MissionTables::within(&mut self.mission_words, ROWS).expect("the words of 128 rows"))
    }
}

fn print_refusal(why: Refusal) {
    println!("refused {} {} {} {}", why.file, why.line, why.number, why.column);
}

fn print_summary(a: &Answer) {
    println!("ok {} {} {} {} {} {} {} {} {} {}", a.segments, a.zones, a.lanes, a.points, a.spots, a.checkpoints, a.stops, a.exits, a.goals, a.limits);
}

fn run_route(edition: Edition, network: &str, mission: &str, start: u32, route: &[u32]) -> Result<(), &'static str> {
    let (rndf, mdf, mut lent) = (load(network)?, load(mission)?, Lent::new());
    let (mut t, mut m) = lent.tables(&[]);
    let a = kastepuhm::check_route(edition, &rndf, &mdf, &mut t, &mut m, start, route);
    if let Some(why) = a.refusal() {
        print_refusal(why);
    } else {
        print_summary(&a);
    }
    if a.is_accepted() == (t.lanes.iter().all(|&word| word == 0) && m.goals.iter().all(|&word| word == 0)) {
        println!("and the tables are not as they should be");
    }
    Ok(())
}

fn run_drive(edition: Edition, network: &str, mission: &str, start: u32, rows: usize) -> Result<(), &'static str> {
    let (rndf, mdf, mut lent) = (load(network)?, load(mission)?, Lent::new());
    let (mut t, mut m) = lent.tables(&[]);
    let mut work = vec![0xAAAA_AAAAu32; rows.min(256)];
    let a = kastepuhm::check_mission(edition, &rndf, &mdf, &mut t, &mut m, start, &mut work);
    if let Some(why) = a.refusal() {
        print_refusal(why);
    } else {
        print_summary(&a);
    }
    if a.is_accepted() == (t.lanes.iter().all(|&word| word == 0) && m.goals.iter().all(|&word| word == 0)) {
        println!("and the tables are not as they should be");
    }
    if work.iter().any(|&word| word != 0) {
        println!("and the work space is not zero");
    }
    Ok(())
}

fn run_pack(edition: Edition, network: &str) -> Result<(), &'static str> {
    let (rndf, mut lent) = (load(network)?, Lent::new());
    let (mut t, _) = lent.tables(&[]);
    // A packed network is shorter than its text.
    let mut out = vec![0; rndf.len()];
    let w = kastepuhm::write_packed(edition, &rndf, &mut t, &mut out);
    if let Some(why) = w.refusal() {
        print_refusal(why);
        return Ok(());
    }
    let bytes: Vec<String> = out[..w.length as usize].iter().map(|byte| format!("{byte:02x}")).collect();
    println!("{}", bytes.join(" "));
    Ok(())
}

/// `rows`: how many are lent of the first tables, in the order of the call; of the others all.
fn run_unpack(file: &str, rows: &[usize]) -> Result<(), &'static str> {
    let (bytes, mut lent) = (load(file)?, Lent::new());
    let (mut t, _) = lent.tables(rows);
    let a = kastepuhm::read_packed(&bytes, &mut t);
    if let Some(why) = a.refusal() {
        print_refusal(why);
    } else {
        print_summary(&a);
        print_network(&a, &t, &bytes);
    }
    if a.is_accepted() == t.lanes.iter().all(|&word| word == 0) {
        println!("and the tables are not as they should be");
    }
    Ok(())
}

/// `lent`: how many rows of the list and how many bytes of the output; without them enough for every text.
fn run_mend(edition: Edition, network: &str, lent: &[usize]) -> Result<(), &'static str> {
    let rndf = load(network)?;
    let mut list = vec![0xAAAA_AAAA; 2 * lent.first().copied().unwrap_or(rndf.len())];
    let mut out = vec![0xAA; lent.get(1).copied().unwrap_or(rndf.len() * 4 / 3 + 1)];
    let a = kastepuhm::mend(edition, &rndf, &mut list, &mut out);
    if let Some(why) = a.refusal() {
        print_refusal(why);
    } else {
        println!("mended {} {}", a.rows, a.length);
        for row in list.chunks(2).take(a.rows as usize) {
            println!("line {} {}", row[0], row[1]);
        }
        print!("{}", String::from_utf8_lossy(&out[..a.length as usize]));
    }
    if list[2 * a.rows as usize..].iter().any(|&word| word != 0) {
        println!("and the list is not zero behind its rows");
    }
    if out[a.length as usize..].iter().any(|&byte| byte != 0) {
        println!("and the output is not zero behind the text");
    }
    Ok(())
}

fn run(edition: Edition, network: &str, mission: Option<&str>) -> Result<(), &'static str> {
    let rndf = load(network)?;
    let mdf = mission.map(load).transpose()?;
    let mut lent = Lent::new();
    let (mut t, mut m) = lent.tables(&[]);
    let a = match &mdf {
        Some(mdf) => kastepuhm::read_pair(edition, &rndf, mdf, &mut t, &mut m),
        None => kastepuhm::read_rndf(edition, &rndf, &mut t),
    };
    if let Some(why) = a.refusal() {
        print_refusal(why);
        return Ok(());
    }
    print_summary(&a);
    print_network(&a, &t, &rndf);
    if let Some(mdf) = &mdf {
        print_mission(&a, &t, &m, mdf);
    }
    let mut house = vec![0; MOST_BYTES + 1];
    let w = kastepuhm::write_rndf(edition, &rndf, &mut t, &mut house);
    print_house("network", &w, &house);
    if let Some(mdf) = &mdf {
        let w = kastepuhm::write_mdf(edition, &rndf, mdf, &mut t, &mut m, &mut house);
        print_house("mission", &w, &house);
    }
    let mut map = vec![0; 8 * MOST_BYTES];
    let w = kastepuhm::write_map(edition, &rndf, &mut t, &mut map);
    print_map(&w, &map);
    Ok(())
}

/// What may stand where these texts were refused: a line of its own, or none where nothing is told; with so many bytes lent, the answer too.
fn print_expected(edition: Edition, texts: &[Vec<u8>], why: Refusal, bytes: Option<usize>) {
    let mdf = texts.get(1).map_or(&[][..], Vec::as_slice);
    let mut out = vec![0xAA; bytes.unwrap_or(kastepuhm::EXPECTED_BYTES)];
    let e = kastepuhm::expected(edition, &texts[0], mdf, why, &mut out);
    if let Some(why) = e.refusal() {
        print_refusal(why);
    } else if bytes.is_some() {
        println!("{}", e.length);
    }
    let (put, behind) = out.split_at(e.length as usize);
    if !put.is_empty() {
        println!("{}", String::from_utf8_lossy(put));
    }
    if behind.iter().any(|&byte| byte != 0) {
        println!("and the output is not zero behind it");
    }
}

/// One or two files of any length; `bytes` is how many are lent for the sentence, or with `expect` for what may stand there.
fn run_tell(edition: Edition, files: &[String], expect: bool, bytes: Option<usize>) -> Result<(), &'static str> {
    let texts = files.iter().map(|file| load_whole(file)).collect::<Result<Vec<_>, _>>()?;
    let rows = kastepuhm::rows_for(&texts[0]);
    let mut words = vec![0; Tables::words(rows)];
    let mut t = Tables::within(&mut words, rows).expect("the words of these rows");
    let a = match texts.get(1) {
        Some(mdf) => {
            let rows = kastepuhm::rows_for(mdf);
            let mut words = vec![0; MissionTables::words(rows)];
            let mut m = MissionTables::within(&mut words, rows).expect("the words of these rows");
            kastepuhm::read_pair(edition, &texts[0], mdf, &mut t, &mut m)
        }
        None => kastepuhm::read_rndf(edition, &texts[0], &mut t),
    };
    let Some(why) = a.refusal() else {
        println!("accepted");
        return Ok(());
    };
    if expect {
        print_expected(edition, &texts, why, bytes);
        return Ok(());
    }
    let i = usize::from(why.file == 2);
    let name = files[i].as_bytes();
    let mut out = vec![0; bytes.unwrap_or(name.len() + kastepuhm::SENTENCE_BYTES)];
    let told = kastepuhm::sentence(name, &texts[i], why, &mut out);
    if bytes.is_some() {
        println!("{told}");
    }
    out.truncate(told);
    print!("{}", String::from_utf8_lossy(&out));
    if bytes.is_none() {
        print_expected(edition, &texts, why, None);
    }
    Ok(())
}

fn run_kind(file: &str) -> Result<(), &'static str> {
    println!("{}", if kastepuhm::is_mission(&load(file)?) { "a mission" } else { "no mission" });
    Ok(())
}

fn main() {
    let mut words: Vec<String> = std::env::args().collect();
    let mut edition = Edition::March2007;
    if words.get(1).is_some_and(|word| word == "--2006") {
        edition = Edition::December2006;
        words.remove(1);
    }
    if let Some(at) = words.iter().position(|word| word == "tell" || word == "expect").filter(|&at| at == 2 || at == 3) {
        let bytes = words.get(at + 1).and_then(|word| word.parse().ok());
        if let Err(why) = run_tell(edition, &words[1..at], words[at] == "expect", bytes) {
            println!("{why}");
        }
        return;
    }
    let kind = words.len() == 3 && words[2] == "kind";
    let drive = words.len() == 6 && words[3] == "drive";
    if drive {
        words.remove(3);
    }
    let pack = words.len() == 3 && words[2] == "pack";
    let unpack = words.len() >= 3 && words[2] == "unpack";
    let mend = words.len() >= 3 && words[2] == "mend";
    let numbers: Vec<u32> = words.iter().skip(3).filter_map(|word| word.parse().ok()).collect();
    if words.len() < 2 || (words.len() > 3 && numbers.len() + 3 != words.len()) {
        eprintln!("usage: caller [--2006] NETWORK [MISSION [START [POINT ..] | drive START ROWS | tell [BYTES] | expect [BYTES]] | tell [BYTES] | expect [BYTES] | kind | pack | unpack [ROWS ..] | mend [ROWS [BYTES]]]");
        std::process::exit(2);
    }
    let done = match numbers.split_first() {
        _ if kind => run_kind(&words[1]),
        _ if pack => run_pack(edition, &words[1]),
        _ if mend => run_mend(edition, &words[1], &numbers.iter().map(|&lent| lent as usize).collect::<Vec<_>>()),
        _ if unpack => run_unpack(&words[1], &numbers.iter().map(|&rows| rows as usize).collect::<Vec<_>>()),
        Some((&start, rows)) if drive => run_drive(edition, &words[1], &words[2], start, rows[0] as usize),
        Some((&start, route)) => run_route(edition, &words[1], &words[2], start, route),
        None => run(edition, &words[1], words.get(2).map(String::as_str)),
    };
    if let Err(why) = done {
        println!("{why}");
    }
}

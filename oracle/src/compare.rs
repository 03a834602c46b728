//! The comparison: records to the replay programs, calls of the C entry, runs of the
//! listing program; every answer against the expected one.

use crate::answers::{Source, answer, chain_of};
use crate::cases::{Reach, case, chain_case, frame_case};
use crate::coverage::Coverage;
use crate::exposures;
use crate::listing;
use crate::picture::Picture;
use crate::rattle;
use crate::record::{CHAIN_FROM_C, FUNCTIONS, Fields, PREVIEW_FROM_C, Record, lent, program_of};
use crate::rng::Rng;
use crate::rules::{Entry, FORM_ONE_MOST, detection_bytes, list_length, written_list};
use std::io::{BufRead, BufReader, Write};
use std::process::{Child, Command, Stdio};
use std::sync::mpsc::{Sender, channel};

/// A row of the table.
#[derive(Default)]
pub struct Row {
    pub name: String,
    pub cases: u64,
    pub mismatches: u64,
    pub unanswered: u64,
    pub panicked: u64,
    pub no_number: u64,
    pub slow: u64,
    pub long: u64,
    pub cut: u64,
}

impl Row {
    pub fn new(name: &str) -> Row {
        Row { name: name.to_string(), ..Row::default() }
    }

    pub fn count(&mut self, source: Source) {
        self.cases += 1;
        match source {
            Source::Rust => (),
            Source::Panicked => self.panicked += 1,
            Source::NoNumber => self.no_number += 1,
            Source::Slow => self.slow += 1,
            Source::Long => self.long += 1,
            Source::Cut => self.cut += 1,
        }
    }
}

/// A running replay program: records go in by a thread of their own, lines come out.
struct Replay {
    child: Child,
    records: Option<Sender<Vec<u8>>>,
    lines: BufReader<std::process::ChildStdout>,
    writer: Option<std::thread::JoinHandle<()>>,
}

impl Replay {
    fn start(command: &str) -> Option<Replay> {
        let mut words = command.split_whitespace();
        let mut call = Command::new(words.next()?);
        call.args(words).stdin(Stdio::piped()).stdout(Stdio::piped());
        let mut child = call.spawn().ok()?;
        let mut stdin = child.stdin.take()?;
        let lines = BufReader::new(child.stdout.take()?);
        let (records, queue) = channel::<Vec<u8>>();
        let writer = std::thread::spawn(move || {
            for bytes in queue {
                if stdin.write_all(&bytes).is_err() {
                    return;
                }
            }
        });
        Some(Replay { child, records: Some(records), lines, writer: Some(writer) })
    }

    fn send(&self, record: &Record) {
        let _ = self.records.as_ref().unwrap().send(record.encoded());
    }

    /// The next line, or none where the program ended.
    fn line(&mut self) -> Option<String> {
        let mut line = String::new();
        let n = self.lines.read_line(&mut line).ok()?;
        (n > 0).then(|| line.trim_end().to_string())
    }
}

impl Drop for Replay {
    fn drop(&mut self) {
        self.records = None;
        if let Some(writer) = self.writer.take() {
            let _ = writer.join();
        }
        let _ = self.child.wait();
    }
}

pub fn hex(bytes: &[u8]) -> String {
    const DIGITS: &[u8; 16] = b"0123456789abcdef";
    let two = |b: &u8| [DIGITS[*b as usize / 16] as char, DIGITS[*b as usize % 16] as char];
    bytes.iter().flat_map(two).collect()
}

/// The command for a group's records: REPLAY, or its program as rt ci leaves it.
fn program(group: &str) -> String {
    std::env::var("REPLAY").unwrap_or_else(|_| format!("crates/{0}/out/{0}", program_of(group)))
}

/// Keeps a record whose answer differs, so that it can be fed again.
fn keep(row: &Row, record: &Record, expected: &str, got: &str) {
    if row.mismatches > 3 {
        return;
    }
    let path = format!("target/oracle/mismatch-{}-{}", record.function, row.mismatches);
    let _ = std::fs::write(&path, record.encoded());
    println!("{}: mismatch, record in {path}\n  expected {expected}\n  got      {got}", row.name);
}

fn replayed(function: u8, name: &str, group: &str, seed: u64, cases: u64, met: &mut Coverage) -> Row {
    let mut row = Row::new(name);
    let Some(mut replay) = Replay::start(&program(group)) else {
        row.unanswered = cases;
        return row;
    };
    let mut rng = Rng::new(seed ^ (function as u64) << 32);
    let mut i = 0;
    while i < cases {
        let batch: Vec<Record> =
            (i..cases.min(i + 64)).map(|k| case(function, k, &mut rng, Reach::Full)).collect();
        batch.iter().for_each(|r| replay.send(r));
        for record in &batch {
            let expected = answer(record);
            let text = hex(&expected.bytes);
            let Some(got) = replay.line() else {
                println!("{name}: the replay program ended at case {i}");
                keep(&row, record, &text, "nothing");
                row.unanswered = cases - i;
                return row;
            };
            i += 1;
            if got == "-" {
                row.unanswered += 1;
                continue;
            }
            row.count(expected.source);
            met.note(record, &expected.bytes);
            if got != text {
                row.mismatches += 1;
                keep(&row, record, &text, &got);
            }
        }
    }
    row
}

/// The whole chain by its C entry, on pictures of every size; the last two have every colour.
fn linked_chain(seed: u64, cases: u64) -> Row {
    let mut row = Row::new(CHAIN_FROM_C);
    let mut rng = Rng::new(seed ^ 97 << 32);
    for i in 0..cases {
        let limit = rng.pick(&[2_304, 40_000, 40_000, 300_000, 1_000_000]);
        let limit = if i % 8 == 0 { limit } else { limit.min(300_000) };
        let c = chain_case(i, &mut rng, limit, limit).whole();
        let room = if i % 5 == 0 { rng.pick(&[0, 366, 367, 368, 400]) } else { 367 };
        compare_entry(&mut row, Entry::Chain, c.lent(), c.slices(), room);
    }
    let colours: Vec<u8> = (0..1u32 << 24).flat_map(|c| [c as u8, (c >> 8) as u8, (c >> 16) as u8]).collect();
    let lengths = [1 << 24, 1 << 21, 1 << 21, 1 << 18, 1 << 18, 1 << 18, 1 << 18, 1 << 18];
    let four_bytes: Vec<u8> = colours.chunks(3).flat_map(|c| [c[0], c[1], c[2], c[0] ^ 85]).collect();
    for (format, bytes) in [(3, &colours), (4, &four_bytes)] {
        let picture = Picture { bytes, sides: (4096, 4096), stride: format as u32 * 4096, format };
        compare_entry(&mut row, Entry::Chain, picture, lengths.map(|n| vec![7; n]), 367);
    }
    row
}

/// The preview by its C entry. Of a frame within its limit the whole chain is to leave the same number and eight slices.
fn linked_preview(seed: u64, cases: u64, met: &mut Coverage) -> Row {
    let mut row = Row::new(PREVIEW_FROM_C);
    let mut rng = Rng::new(seed ^ 101 << 32);
    for i in 0..cases {
        let c = frame_case(i, &mut rng);
        let need = Entry::Preview.room();
        let form_one = list_length(1, FORM_ONE_MOST as u64) as u32;
        let others = [0, 7, 367, form_one, need - 1, need, need + 1, need + 999];
        let room = if i % 5 == 0 { rng.pick(&others) } else { need };
        let Some((number, left)) = compare_entry(&mut row, Entry::Preview, c.lent(), c.slices(), room) else {
            continue;
        };
        let found = if number == 0 { Fields(&left[8][5..]).u16() } else { 0 };
        met.note_preview(c.sides, number, found);
        if number == 10 || room < Entry::Preview.room() {
            continue;
        }
        let mut got = with_last(c.slices(), lent(Entry::Chain.room()));
        let again = rattle::call(Entry::Chain, c.lent(), &mut got);
        let same = again == Some(number) && got[..8] == left[..8];
        row.mismatches += !same as u64;
        if !same && row.mismatches <= 3 {
            let sides = c.sides;
            println!("{}: {number} at {sides:?}, the whole chain {again:?} or other slices", row.name);
        }
    }
    row
}

/// Nine slices of a C entry.
fn with_last(slices: [Vec<u8>; 8], last: Vec<u8>) -> [Vec<u8>; 9] {
    let [g, b, d, m, l, h, e, n] = slices;
    [g, b, d, m, l, h, e, n, last]
}

/// Compares a call of a C entry with the Rust. Gives the number and the nine slices that it left, or nothing where
/// no library is linked.
pub fn compare_entry(
    row: &mut Row,
    entry: Entry,
    picture: Picture,
    slices: [Vec<u8>; 8],
    room: u32,
) -> Option<(u8, [Vec<u8>; 9])> {
    let mut out = lent(room);
    let mut got = with_last(slices.clone(), out.clone());
    let Some(number) = rattle::call(entry, picture, &mut got) else {
        row.unanswered += 1;
        return None;
    };
    let done = chain_of(entry, picture, slices, room >= entry.room());
    let Picture { sides, stride, format, .. } = picture;
    if done.number == 0 {
        let answer = match entry {
            Entry::Chain => detection_bytes(&done.detections),
            Entry::Preview => written_list(sides.0, sides.1, &done.finders),
        };
        out[..answer.len()].copy_from_slice(&answer);
    }
    row.count(done.source);
    let same = number == done.number && got[..8] == done.slices && got[8] == out;
    row.mismatches += !same as u64;
    if !same && row.mismatches <= 3 {
        let differs = |k: usize| if k < 8 { got[k] != done.slices[k] } else { got[8] != out };
        let which: Vec<usize> = (0..9).filter(|k| differs(*k)).collect();
        println!(
            "{}: mismatch at {sides:?}, stride {stride}, format {format}: {} for {}, slices {which:?}",
            row.name, number, done.number
        );
    }
    Some((number, got))
}

/// Runs everything, or one group, and prints the table. True where nothing differs.
pub fn run(seed: u64, share: f64, only: Option<&str>) -> bool {
    println!("seed {seed}");
    let some = |cases: u64| ((cases as f64 * share) as u64).max(1);
    let (mut rows, mut met) = (Vec::new(), Coverage::default());
    let wanted = |group: &str| only.is_none_or(|g| g == group);
    for (function, name, group) in FUNCTIONS.into_iter().filter(|f| wanted(f.2)) {
        let row = replayed(function, name, group, seed, some(Reach::Full.cases(function)), &mut met);
        eprintln!("{name}: {} cases, {} mismatches", row.cases, row.mismatches);
        rows.push(row);
    }
    if wanted("chain") {
        rows.push(linked_chain(seed, some(1000)));
        rows.push(linked_preview(seed, some(4000), &mut met));
        rows.push(listing::compared(seed, some(1000)));
    }
    if wanted("exposures") {
        rows.push(exposures::by_c_entry(seed, some(25_000)));
        rows.push(exposures::listed(seed, some(1000)));
    }
    print_table(&rows);
    met.print();
    rows.iter().all(|r| r.mismatches == 0 && r.unanswered == 0)
}

/// The table. Under `own` stand the cases whose expected answer is not the Rust's: it
/// panics, a score is not a number, it would take too long, runs are longer than a line, or a hit that it confirms
/// has a run ended by the limit.
fn print_table(rows: &[Row]) {
    let head =
        ["function", "cases", "mismatches", "unanswered", "own: panics", "no number", "slow", "long", "cut"];
    println!(
        "{:26}{:>10}{:>12}{:>12}{:>13}{:>11}{:>7}{:>9}{:>7}",
        head[0], head[1], head[2], head[3], head[4], head[5], head[6], head[7], head[8]
    );
    let line = |r: &Row| {
        println!(
            "{:26}{:>10}{:>12}{:>12}{:>13}{:>11}{:>7}{:>9}{:>7}",
            r.name, r.cases, r.mismatches, r.unanswered, r.panicked, r.no_number, r.slow, r.long, r.cut
        )
    };
    rows.iter().for_each(line);
    let sum = |f: fn(&Row) -> u64| rows.iter().map(f).sum();
    line(&Row {
        name: "in all".to_string(),
        cases: sum(|r| r.cases),
        mismatches: sum(|r| r.mismatches),
        unanswered: sum(|r| r.unanswered),
        panicked: sum(|r| r.panicked),
        no_number: sum(|r| r.no_number),
        slow: sum(|r| r.slow),
        long: sum(|r| r.long),
        cut: sum(|r| r.cut),
    });
}

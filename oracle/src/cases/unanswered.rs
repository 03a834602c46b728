//! Records that get the line `-`, by the rules and tables of docs/REPLAY.md.

use crate::record::{FUNCTIONS, LONGEST, Record, program_of};

/// The most finders of record 80.
pub const MOST_LENT: u32 = 1200;

/// A function's payload: how many bytes come before its lists and its rest, and where in them the lengths of lent
/// slices stand.
fn form(function: u8) -> (usize, &'static [usize]) {
    match function {
        1..=3 => (1, &[]),
        4 => (2, &[]),
        5 | 7 | 8 => (3, &[]),
        6 => (4, &[]),
        16 => (17, &[13]),
        17 => (32, &[8, 12, 16, 20, 24, 28]),
        18 => (12, &[8]),
        32 | 81 | 82 => (8, &[]),
        34 => (16, &[8]),
        36 | 37 => (10, &[]),
        48 => (8 * (36 + 6), &[]),
        49 => (8 * (64 + 8), &[]),
        50 => (8 * 8, &[]),
        51 => (6 * 8, &[]),
        52 => (88 + 8, &[]),
        53 | 54 => (88 + 4, &[]),
        55 => (88 + 2, &[]),
        56 | 57 => (3 * 16, &[]),
        58 => (3 * 16 + 9 + 1, &[]),
        59 => (64 + 3 * 4, &[]),
        64 => (8 + 8 + 4, &[]),
        65 => (8 + 88 + 1, &[]),
        66 => (8 + 88 + 1 + 4, &[]),
        67 => (8 + 3 * 16 + 1 + 88 + 4, &[]),
        80 => (12, &[]),
        96 | 97 => (45, &[13, 17, 21, 25, 29, 33, 37, 41]),
        _ => (0, &[]),
    }
}

fn u32_at(payload: &[u8], at: usize) -> u32 {
    u32::from_le_bytes(payload[at..at + 4].try_into().unwrap())
}

/// Whether a program that knows all functions has no answer to a record.
pub fn is_unanswered(record: &Record) -> bool {
    let (fixed, lengths) = form(record.function);
    let payload = &record.payload;
    if FUNCTIONS.iter().all(|f| f.0 != record.function) || payload.len() < fixed {
        return true;
    }
    if record.function == 80 {
        let count = u32_at(payload, 8);
        return count > MOST_LENT || payload.len() < 12 + 16 * count as usize;
    }
    lengths.iter().any(|at| u32_at(payload, *at) as usize > LONGEST)
}

/// The records of the stored sample that a program has no answer to: each payload empty and one byte too short, each
/// length of a lent slice too large, lists of record 80, and every function that the program does not know.
pub fn unanswered(program: &str) -> Vec<Record> {
    let known = |f: u8| FUNCTIONS.iter().any(|g| g.0 == f && program_of(g.2) == program);
    let mut records = Vec::new();
    let mut add = |function: u8, payload: Vec<u8>| records.push(Record { function, payload });
    for function in (0..=255).filter(|f| known(*f)) {
        let (fixed, lengths) = form(function);
        if fixed > 0 {
            add(function, Vec::new());
        }
        if fixed > 1 {
            add(function, vec![1; fixed - 1]);
        }
        for (at, length) in lengths.iter().flat_map(|at| [(*at, LONGEST as u32 + 1), (*at, u32::MAX)]) {
            let mut payload = vec![0; fixed];
            payload[at..at + 4].copy_from_slice(&length.to_le_bytes());
            add(function, payload);
        }
        if function == 80 {
            let list =
                |count: u32, bytes: usize| [&[0; 8], &count.to_le_bytes()[..], &vec![0; bytes]].concat();
            add(80, list(1, 15));
            add(80, list(MOST_LENT, 16 * MOST_LENT as usize - 1));
            add(80, list(MOST_LENT + 1, 16 * (MOST_LENT as usize + 1)));
            add(80, list(u32::MAX, 16));
        }
    }
    for function in (0..=255).filter(|f| !known(*f)) {
        add(function, vec![1; form(function).0]);
    }
    records
}

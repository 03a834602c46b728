//! Compares the detector with the published Rust source. See oracle/README.md.

mod answers;
mod cases;
mod compare;
mod coverage;
mod differences;
mod exposures;
mod lenses;
mod limits;
mod listing;
mod picture;
mod plate;
mod rattle;
mod record;
mod rng;
mod rules;
mod search;

use cases::Reach;
use record::Record;
use std::io::{self, Read, Write};

fn main() {
    differences::quiet_panics();
    let args: Vec<String> = std::env::args().skip(1).collect();
    let word = |i: usize| args.get(i).map(|s| s.as_str());
    let seed = |i: usize| word(i).and_then(|s| s.parse().ok());
    match word(0) {
        Some("compare") => {
            let share = word(2).and_then(|s| s.parse().ok()).unwrap_or(1.0);
            let same = compare::run(seed(1).unwrap_or_else(by_clock), share, word(3));
            std::process::exit(!same as i32);
        }
        Some("vectors") if args.len() > 1 => vectors(&args[1], seed(2).unwrap_or(1)),
        Some("answer") => answer_all(),
        Some("listing") => {
            let mut input = Vec::new();
            io::stdin().read_to_end(&mut input).expect("standard input");
            print!("{}", listing::expected(&input).0);
        }
        _ => {
            eprintln!(
                "oracle compare [SEED [SHARE [GROUP]]] | vectors FOLDER [SEED] | answer < records | listing < picture"
            );
            std::process::exit(2);
        }
    }
}

fn by_clock() -> u64 {
    let now = std::time::SystemTime::now().duration_since(std::time::UNIX_EPOCH);
    now.map_or(1, |t| t.as_nanos() as u64 % 1_000_000_007)
}

/// FOLDER/PROGRAM/stdin has the records of a replay program, FOLDER/PROGRAM/stdout the answers.
fn vectors(folder: &str, seed: u64) {
    println!("seed {seed}");
    let mut met = coverage::Coverage::default();
    for program in ["replay", "replay_image", "replay_candidates", "replay_chain"] {
        let (mut records, mut lines) = (Vec::new(), String::new());
        for (function, name, _) in record::FUNCTIONS.iter().filter(|f| record::program_of(f.2) == program) {
            let (before, mut cut) = (records.len(), 0);
            let mut rng = rng::Rng::new(seed ^ (*function as u64) << 32);
            let cases = Reach::Sample.cases(*function);
            for i in 0..cases {
                let record = cases::case(*function, i, &mut rng, Reach::Sample);
                let answer = answers::answer(&record);
                met.note(&record, &answer.bytes);
                cut += (answer.source == answers::Source::Cut) as u64;
                records.extend(record.encoded());
                lines += &compare::hex(&answer.bytes);
                lines.push('\n');
            }
            let bytes = records.len() - before;
            println!("{program}: {name}, {cases} records, {bytes} bytes, with a cut hit: {cut}");
        }
        let before = records.len();
        let unanswered = cases::unanswered(program);
        for record in &unanswered {
            records.extend(record.encoded());
            lines += "-\n";
        }
        println!(
            "{program}: without an answer, {} records, {} bytes",
            unanswered.len(),
            records.len() - before
        );
        let folder = std::path::Path::new(folder).join(program);
        std::fs::create_dir_all(&folder).expect("the folder");
        std::fs::write(folder.join("stdin"), records).expect("stdin");
        std::fs::write(folder.join("stdout"), lines).expect("stdout");
    }
    met.print();
}

/// Reads records from standard input and prints the answers: a replay program in Rust.
fn answer_all() {
    let mut input = io::stdin().lock();
    let mut out = io::stdout().lock();
    let mut head = [0u8; 5];
    while input.read_exact(&mut head).is_ok() {
        let length = u32::from_le_bytes([head[1], head[2], head[3], head[4]]) as usize;
        let mut payload = vec![0; length];
        input.read_exact(&mut payload).expect("a whole record");
        let record = Record { function: head[0], payload };
        let unanswered = cases::is_unanswered(&record);
        let line = if unanswered { "-".to_string() } else { compare::hex(&answers::answer(&record).bytes) };
        writeln!(out, "{line}").expect("a line written");
    }
}

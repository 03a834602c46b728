//! What the cases reached, by the expected answers and by the hits of the finder searches.

use crate::differences::triples_of;
use crate::lenses::Lenses;
use crate::record::{Fields, Record};
use crate::rules::{End, FORM_ONE_MOST, MAX_FINDERS, Run, graded};
use crate::search::{Hit, answer_of, held, limit_of};
use lcr_decode::detect::{Detection, Finder};
use std::cell::RefCell;
use std::collections::BTreeMap;

#[derive(Default)]
pub struct Coverage {
    refusals: [u64; 11],
    /// Numbers of finders: of lists, and held by searches.
    finders: BTreeMap<&'static str, Numbers>,
    /// Answers 6, and of 33 and 34 answers 8, by function.
    refused: BTreeMap<u8, u64>,
    counts: BTreeMap<u8, BTreeMap<u8, u64>>,
    detections: BTreeMap<u8, u64>,
    markers: u64,
    passed: u64,
    ends: [u64; 3],
    lenses: Lenses,
    previews: Previews,
}

/// Previews, by records and by the C entry.
#[derive(Default)]
struct Previews {
    /// Refused by 10, and those by one pixel.
    over: [u64; 2],
    /// Frames of exactly 640 × 480, and those that were taken.
    whole: [u64; 2],
    /// Finders of the answers.
    found: Numbers,
    /// Answers 6.
    refused: u64,
}

/// How often each number of finders was met.
#[derive(Default)]
struct Numbers(BTreeMap<u32, u64>);

impl Numbers {
    fn note(&mut self, finders: u32) {
        *self.0.entry(finders).or_default() += 1;
    }

    /// By ranges; numbers about a limit stand alone.
    fn text(&self) -> String {
        let (byte, one, most) = (256, FORM_ONE_MOST, MAX_FINDERS);
        let few = [0, 1, 4, 9].into_iter().chain(one - 2..=one + 3);
        let starts: Vec<u32> = few.chain(byte - 1..=byte + 2).chain(most - 2..=most + 3).collect();
        let ends = starts[1..].iter().map(|next| next - 1).chain([u32::MAX]);
        let of = |(from, to): (u32, u32)| match self.0.range(from..=to).map(|(_, n)| n).sum::<u64>() {
            0 => None,
            n if from == to => Some(format!("{from}: {n}")),
            n if to == u32::MAX => Some(format!("{from} and more: {n}")),
            n => Some(format!("{from} to {to}: {n}")),
        };
        starts.iter().copied().zip(ends).filter_map(of).collect::<Vec<_>>().join(", ")
    }
}

impl Coverage {
    pub fn note(&mut self, record: &Record, answer: &[u8]) {
        let function = record.function;
        self.lenses.note(record, answer);
        let numbered = matches!(function, 1..=3 | 16..=18 | 32..=34 | 58 | 64..=67 | 80..=82 | 96 | 97);
        if numbered {
            self.refusals[answer[0] as usize] += 1;
        }
        self.note_finders(record, answer);
        if function == 36 {
            self.passed += answer[0] as u64;
        }
        if function == 37 {
            self.ends[answer[2] as usize] += 1;
        }
        if function == 97 {
            let f = &mut Fields(&record.payload);
            self.note_preview((f.u32(), f.u32()), answer[0], Fields(&answer[1..]).u16());
        }
        if matches!(function, 80..=82 | 96) && answer[0] == 0 {
            *self.counts.entry(function).or_default().entry(answer[1]).or_default() += 1;
            for place in answer[2..].chunks_exact(122).take(answer[1] as usize) {
                *self.detections.entry(place[48]).or_default() += 1;
                self.markers += place[49] as u64;
            }
        }
    }

    fn note_finders(&mut self, record: &Record, answer: &[u8]) {
        let (function, number) = (record.function, answer[0]);
        let refused = match function {
            32 | 81 | 82 | 96 | 97 => number == 6,
            33 | 34 => number == 8,
            _ => false,
        };
        if refused {
            *self.refused.entry(function).or_default() += 1;
        }
        let asked = |at: usize| Fields(&record.payload[at..]).u32();
        let told = |at: usize| Fields(&answer[at..]).u16() as u32;
        let searched = SEARCHES.with_borrow_mut(|s| s.last.take());
        let (which, finders) = match (function, searched) {
            (33, _) if number == 0 && record.payload[0] == 1 => ("lists read in form 1", told(9)),
            (33, _) if number == 0 => ("lists read in form 2", told(9)),
            (34, _) if number == 0 => ("lists written", asked(12)),
            (80, _) if number == 0 => ("lists lent to 80", asked(8)),
            (32, Some(held)) => ("searches of 32", held),
            (81, Some(held)) => ("searches of 81", held),
            (82, Some(held)) => ("searches of 82", held),
            (96, Some(held)) => ("searches of 96", held),
            (97, Some(held)) => ("searches of 97", held),
            _ => return,
        };
        self.finders.entry(which).or_default().note(finders);
    }

    pub fn note_preview(&mut self, sides: (u32, u32), number: u8, finders: u16) {
        let over = sides.0.saturating_sub(640).max(sides.1.saturating_sub(480));
        let (whole, taken) = (sides == (640, 480), number == 0 || number == 6);
        let p = &mut self.previews;
        let count = |counts: &mut [u64], met: &[bool]| {
            counts.iter_mut().zip(met).for_each(|(n, met)| *n += *met as u64);
        };
        count(&mut p.over, &[number == 10, number == 10 && over == 1]);
        count(&mut p.whole, &[whole, whole && taken]);
        p.refused += (number == 6) as u64;
        if number == 0 {
            p.found.note(finders as u32);
        }
    }

    pub fn print(&self) {
        let list = |map: &BTreeMap<u8, u64>| {
            map.iter().map(|(k, n)| format!("{k}: {n}")).collect::<Vec<_>>().join(", ")
        };
        let numbers: Vec<String> = (0..9).chain([10]).map(|k| format!("{k}: {}", self.refusals[k])).collect();
        println!("refusal numbers met: {}", numbers.join(", "));
        for (which, numbers) in &self.finders {
            println!("{which}, by finders: {}", numbers.text());
        }
        println!("refused by 6, and 33 and 34 by 8: {}", list(&self.refused));
        println!("five runs that pass: {}", self.passed);
        let [change, edge, limit] = self.ends;
        println!("runs ended by a colour change: {change}, the picture's edge: {edge}, the limit: {limit}");
        for (function, counts) in &self.counts {
            println!("answers of {function} by detections: {}", list(counts));
        }
        let Previews { over, whole, found, refused } = &self.previews;
        println!(
            "previews refused by 10: {}, by one pixel: {}; of exactly 640 x 480: {}, taken: {}; refused by 6: {refused}; finders: {}",
            over[0],
            over[1],
            whole[0],
            whole[1],
            found.text()
        );
        println!("detections by version: {}; with a marker: {}", list(&self.detections), self.markers);
        self.lenses.print();
        GRADES.with_borrow(|g| g.print());
        SEARCHES.with_borrow(|s| s.print());
    }
}

/// Rules that are wrong: which hits they drop.
const WRONG: [(&str, fn(&Hit) -> bool); 6] = [
    ("no hit is dropped", |_| false),
    ("only the first confirmation counts", |h| h.cut(0)),
    ("only the second counts", |h| h.cut(1)),
    ("a run of the limit is cut, whatever ended it", |h| any_run(h, |length, limit, _| length == limit)),
    ("the edge is taken for the limit", |h| {
        any_run(h, |length, limit, end| length == limit && end != End::Change)
    }),
    ("a run is cut one pixel before the limit", |h| any_run(h, |length, limit, _| length + 1 >= limit)),
];

fn any_run(hit: &Hit, wanted: impl Fn(u32, u32, End) -> bool) -> bool {
    hit.runs.iter().flatten().any(|r| wanted(r.length, limit_of(hit.module), r.end))
}

/// Other limits of the table: whether one with so many finders held, of which so many stay, is refused.
const LIMITS: [(&str, fn(u32, u32) -> bool); 4] = [
    ("one less", |held, _| held >= MAX_FINDERS),
    ("one more", |held, _| held > MAX_FINDERS + 1),
    ("form 1's", |held, _| held > FORM_ONE_MOST),
    ("only finders that stay count", |_, stay| stay > MAX_FINDERS),
];

/// What the finder searches met.
#[derive(Default)]
struct Searches {
    /// Finders held, and those of the last search.
    held: Numbers,
    last: Option<u32>,
    /// The most confirmations of a finder.
    confirmations: u32,
    /// Answers that another limit would change.
    limits: [u64; LIMITS.len()],
    /// Pictures with a cut hit.
    pictures: u64,
    /// Those with other detections than the Rust's.
    other_detections: u64,
    /// Refusals 6 without a cut hit and with one.
    refused: [u64; 2],
    /// Cut hits of rows and of columns: in the first confirmation, and only in the second.
    first: [u64; 2],
    second: [u64; 2],
    /// Hits kept with an outer run of the limit before a colour change, before the edge, with one of a pixel less.
    kept: [u64; 3],
    /// Answers that a wrong rule would change.
    wrong: [u64; WRONG.len()],
}

thread_local! {
    static SEARCHES: RefCell<Searches> = RefCell::default();
    static GRADES: RefCell<Grades> = RefCell::default();
}

/// Counts a search by the hits that the published rule confirms.
pub fn note_search(hits: &[Hit]) {
    SEARCHES.with_borrow_mut(|s| s.note(hits));
}

/// Counts the detections of a picture with a cut hit.
pub fn note_detections(as_in_the_rust: bool) {
    SEARCHES.with_borrow_mut(|s| s.other_detections += !as_in_the_rust as u64);
}

impl Searches {
    fn note(&mut self, hits: &[Hit]) {
        let of = |dropped: fn(&Hit) -> bool| held(hits.iter().filter(|h| !dropped(h)));
        let kept = of(Hit::dropped);
        let numbers = [kept.len(), kept.iter().filter(|f| f.confirmations >= 2).count()].map(|n| n as u32);
        self.held.note(numbers[0]);
        self.last = Some(numbers[0]);
        for (count, (_, refused)) in self.limits.iter_mut().zip(LIMITS) {
            *count += (refused(numbers[0], numbers[1]) != (numbers[0] > MAX_FINDERS)) as u64;
        }
        self.confirmations = kept.iter().fold(self.confirmations, |most, f| most.max(f.confirmations));
        let (right, cut) = (answer_of(kept), hits.iter().any(Hit::dropped));
        self.pictures += cut as u64;
        self.refused[cut as usize] += right.is_none() as u64;
        for hit in hits.iter() {
            let outer: Vec<Run> = hit.runs.iter().flat_map(|six| [six[2], six[5]]).collect();
            let limit = limit_of(hit.module);
            let ended = |end: End| outer.contains(&Run { length: limit, end });
            let below = outer.iter().any(|r| r.length + 1 == limit);
            let kept = [ended(End::Change), ended(End::Edge), below];
            match hit.dropped() {
                true if hit.cut(0) => self.first[!hit.row as usize] += 1,
                true => self.second[!hit.row as usize] += 1,
                false => (0..3).for_each(|k| self.kept[k] += kept[k] as u64),
            }
        }
        for (count, (_, dropped)) in self.wrong.iter_mut().zip(WRONG) {
            let other = hits.iter().any(|h| dropped(h) != h.dropped());
            *count += (other && answer_of(of(dropped)) != right) as u64;
        }
    }

    fn print(&self) {
        println!(
            "finders held by all searches: {}; the most confirmations: {}",
            self.held.text(),
            self.confirmations
        );
        let limits: Vec<String> =
            self.limits.iter().zip(LIMITS).map(|(n, (limit, _))| format!("{limit}: {n}")).collect();
        println!("answers that another limit would change: {}", limits.join("; "));
        println!(
            "searches with a cut hit: {}, with other detections than the Rust's: {}; refusal 6 with one: {}, without: {}",
            self.pictures, self.other_detections, self.refused[1], self.refused[0]
        );
        let [[first_rows, first_columns], [second_rows, second_columns]] = [self.first, self.second];
        println!(
            "hits cut in the first confirmation: {first_rows} on rows, {first_columns} on columns; only in the second: {second_rows}, {second_columns}"
        );
        let [change, edge, below] = self.kept;
        println!(
            "hits kept with an outer run of the limit: {change} before a colour change, {edge} at the edge; of one pixel less: {below}"
        );
        let wrong: Vec<String> =
            self.wrong.iter().zip(WRONG).map(|(n, (rule, _))| format!("{rule}: {n}")).collect();
        println!("answers that a wrong rule would change: {}", wrong.join("; "));
    }
}

/// Scores and mean modules of the records 80, 81, 82 and 96 (document 02, N8).
#[derive(Default)]
struct Grades {
    /// Detections with another mean than the pitch rule's, with one that is not a number, with a score of 0.
    detections: [u64; 3],
    /// Lists of two or three detections, those with two equal scores, lists after a triple that could not be built.
    lists: [u64; 3],
}

/// Counts the detections of a record by the list that they come from.
pub fn note_grades(list: &[Finder], found: &[Detection]) {
    GRADES.with_borrow_mut(|g| g.note(list, found));
}

impl Grades {
    fn note(&mut self, list: &[Finder], found: &[Detection]) {
        let (triples, left_out) = triples_of(list, found);
        let grades: Vec<(f32, f32)> = found.iter().map(graded).collect();
        for ((score, mean), t) in grades.iter().zip(triples) {
            let other = !mean.is_nan() && *mean != t.pitch;
            let met = [other, mean.is_nan(), *score == 0.0];
            (0..3).for_each(|k| self.detections[k] += met[k] as u64);
        }
        let equal = grades.windows(2).any(|w| w[0].0 == w[1].0);
        let met = [found.len() > 1, equal, left_out > 0];
        (0..3).for_each(|k| self.lists[k] += met[k] as u64);
    }

    fn print(&self) {
        let [other, odd, zero] = self.detections;
        println!(
            "detections with another mean module than the pitch rule's: {other}, with one that is not a number: {odd}, with a score of 0: {zero}"
        );
        let [longer, equal, left_out] = self.lists;
        println!(
            "lists of two or three detections: {longer}, with two equal scores: {equal}; lists after a triple that could not be built: {left_out}"
        );
    }
}

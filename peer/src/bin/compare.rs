//! Compares the proved check with this one, byte for byte, on pairs that follow from a seed.
//!
//!     compare SEED COUNT [FIRST]

use peer::files::{File, Reader};
use peer::generate::{Pair, Pairs};
use peer::{check, proved};
use std::collections::BTreeMap;
use std::process::ExitCode;
use std::time::Instant;

/// What the buffers hold before a check, by the pair's number: a byte that no report has.
const PATTERNS: [u8; 4] = [0xa5, 0x00, 0xff, 0x80];
/// After so many pairs the number of the next is shown.
const PROGRESS: u64 = 10_000;
/// The longest buffer of a pair.
const LONGEST: usize = 8_192;

/// A buffer and the length that a check returned.
struct Answer {
    buffer: [u8; LONGEST],
    size: usize,
    length: usize,
}

impl Answer {
    fn of(
        pair: &Pair,
        pattern: u8,
        check: impl Fn(u8, &[u8], &[u8], &mut [u8]) -> usize,
    ) -> Answer {
        let mut answer = Answer { buffer: [pattern; LONGEST], size: pair.buffer, length: 0 };
        let report = &mut answer.buffer[..pair.buffer];
        answer.length = check(pair.theory, &pair.case, &pair.log, report);
        answer
    }

    /// The whole buffer, and what is behind it, which no check may touch.
    fn same(&self, other: &Answer) -> bool {
        self.length == other.length && self.buffer == other.buffer
    }

    fn report(&self) -> &str {
        let text = self.buffer.get(..self.length).unwrap_or_default();
        std::str::from_utf8(text).unwrap_or("not text\n")
    }
}

/// How often each outcome came, and each kind of record that was taken.
#[derive(Default)]
struct Tally {
    outcomes: BTreeMap<String, u64>,
    taken: BTreeMap<String, u64>,
    longest_log: usize,
    accepted_bytes: u64,
}

impl Tally {
    fn count(&mut self, pair: &Pair, report: &str) {
        let words: Vec<&str> = report.split_ascii_whitespace().collect();
        let (outcome, records) = match words.as_slice() {
            [] => ("short buffer".to_string(), 0),
            ["refused", cause, _, file, _, record, _, _, _, layer] => {
                let records: usize = if *file == "2" { record.parse().unwrap_or(1) } else { 1 };
                (format!("refused {cause:>2} file {file} layer {layer}"), records.saturating_sub(1))
            }
            [first, ..] => {
                self.accepted_bytes += pair.log.len() as u64;
                self.longest_log = self.longest_log.max(pair.log.len());
                (first.to_string(), usize::MAX)
            }
        };
        *self.outcomes.entry(outcome).or_default() += 1;
        self.count_records(pair, records);
    }

    /// Counts the first records of the log, which were taken, by their kinds.
    fn count_records(&mut self, pair: &Pair, records: usize) {
        let Ok(reader) = Reader::open(File::Log, &pair.log) else {
            return;
        };
        for record in reader.take(records).flatten() {
            let name = match (record.kind, record.body) {
                (11, [count, rest @ ..]) => {
                    format!("lemma by hint {}", rest.get(usize::from(*count)).unwrap_or(&0))
                }
                (kind, _) => name_of(kind).to_string(),
            };
            *self.taken.entry(name).or_default() += 1;
        }
    }

    fn print(&self, pairs: u64) {
        println!("pairs by outcome:");
        for (outcome, count) in &self.outcomes {
            let share = 100.0 * *count as f64 / pairs.max(1) as f64;
            println!("  {count:>9}  {share:>5.2} %  {outcome}");
        }
        println!("records of logs that were taken:");
        for (name, count) in &self.taken {
            println!("  {count:>9}  {name}");
        }
        println!(
            "logs that were taken in full: {} bytes, the longest {}",
            self.accepted_bytes, self.longest_log
        );
    }
}

fn name_of(kind: u8) -> &'static str {
    match kind {
        3 => "admit",
        10 => "seal",
        12 => "choose",
        13 => "set",
        14 => "propagate",
        15 => "read",
        16 => "conflict",
        17 => "resolve",
        18 => "jump",
        19 => "concede",
        20 => "claim",
        21 => "abandon",
        _ => "other",
    }
}

fn hexadecimal(bytes: &[u8]) -> String {
    bytes.iter().map(|byte| format!("{byte:02x}")).collect()
}

fn print_difference(number: u64, pair: &Pair, proved: &Answer, peer: &Answer) {
    println!("DIFFERENCE at pair {number}");
    println!("theory {} buffer {}", pair.theory, pair.buffer);
    println!("case {}", hexadecimal(&pair.case));
    println!("log {}", hexadecimal(&pair.log));
    for (name, answer) in [("proved", proved), ("peer", peer)] {
        println!("{name}: length {} {:?}", answer.length, answer.report());
    }
    let places = proved.buffer.iter().zip(&peer.buffer);
    if let Some(place) = places.clone().position(|(a, b)| a != b) {
        let (a, b) = (proved.buffer[place], peer.buffer[place]);
        let within = if place < proved.size { "within" } else { "BEHIND" };
        println!("byte {place}, {within} the buffer: proved {a:02x} peer {b:02x}");
    }
}

/// Compares so many pairs, and says whether all came out the same.
fn compare(seed: u64, count: u64, first: u64) -> bool {
    let start = Instant::now();
    let mut tally = Tally::default();
    let mut same = true;
    let mut done = 0;
    for (number, pair) in (first..first + count).zip(Pairs::from(seed, first)) {
        if number % PROGRESS == 0 {
            // Where a check crashes or never ends, this says from where on to look.
            eprint!("\rfrom pair {number} ");
        }
        let pattern = PATTERNS[number as usize % PATTERNS.len()];
        let ours = Answer::of(&pair, pattern, check);
        let theirs = Answer::of(&pair, pattern, proved::check);
        tally.count(&pair, ours.report());
        done += 1;
        if !ours.same(&theirs) {
            print_difference(number, &pair, &theirs, &ours);
            same = false;
            break;
        }
    }
    eprintln!();
    tally.print(done);
    let seconds = start.elapsed().as_secs_f64();
    let rate = 60.0 * done as f64 / seconds;
    println!("{done} pairs in {seconds:.1} s, {rate:.0} a minute");
    same
}

fn main() -> ExitCode {
    let words: Vec<u64> = std::env::args().skip(1).filter_map(|w| w.parse().ok()).collect();
    let (seed, count, first) = match words.as_slice() {
        [seed, count] => (*seed, *count, 0),
        [seed, count, first] => (*seed, *count, *first),
        _ => {
            eprintln!("compare SEED COUNT [FIRST]");
            return ExitCode::from(2);
        }
    };
    println!("seed {seed}, pairs {first} to {}", (first + count).saturating_sub(1));
    if compare(seed, count, first) {
        println!("no difference");
        ExitCode::SUCCESS
    } else {
        ExitCode::FAILURE
    }
}

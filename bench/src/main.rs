//! Times the proved check and its peer in one run, on the same logs, and looks how deep their stacks go.
//!
//!     bench [REPEATS]

mod stack;
mod subjects;
mod timing;

use subjects::{heavy, wall, Subject};
use timing::{medians, Check};

/// The two that are compared.
const CHECKS: [(&str, Check); 2] = [("proved", peer::proved::check), ("peer", peer::check)];

/// The lengths of the logs, from the first to the last of which the growth is looked at.
const LENGTHS: [usize; 5] = [4_000, 8_000, 16_000, 24_000, 40_000];

/// What a subject took, in nanoseconds, for each of the checks.
struct Times {
    whole: [f64; 2],
    /// For each record of the log, without the case.
    record: [f64; 2],
}

/// The times for subjects that have one case.
fn times(mut subjects: Vec<Subject>, repeats: usize) -> Vec<(Subject, Times)> {
    subjects.push(subjects[0].without_log());
    let mut medians = medians(CHECKS.map(|(_, check)| check), &subjects, repeats);
    subjects.pop();
    let case = medians.pop().unwrap_or_default();
    let of_subject = |(subject, whole): (Subject, [f64; 2])| {
        let records = subject.records as f64;
        let record = [0, 1].map(|i| (whole[i] - case[i]).max(0.0) / records);
        (subject, Times { whole, record })
    };
    subjects.into_iter().zip(medians).map(of_subject).collect()
}

fn print_times(subject: &Subject, times: &Times) {
    let [proved, peer] = times.whole;
    println!(
        "{:<10} {:>6} {:>7} {:>12.0} {:>12.0} {:>7.2} {:>11.1} {:>11.1} {:>7.2}",
        subject.name,
        subject.log.len(),
        subject.records,
        proved,
        peer,
        proved / peer,
        times.record[0],
        times.record[1],
        times.record[0] / times.record[1],
    );
}

fn print_all_times(repeats: usize) {
    println!("times in nanoseconds, medians of {repeats}; records are those of the log");
    println!(
        "{:<10} {:>6} {:>7} {:>12} {:>12} {:>7} {:>11} {:>11} {:>7}",
        "log", "bytes", "records", "proved", "peer", "ratio", "proved/rec", "peer/rec", "ratio"
    );
    for (subject, times) in times(vec![wall()], repeats) {
        print_times(&subject, &times);
    }
    for kind in subjects::KINDS {
        let all = times(LENGTHS.map(|bytes| heavy(kind, bytes)).into(), repeats);
        for (subject, times) in &all {
            print_times(subject, times);
        }
        let growth = |i: usize| all[LENGTHS.len() - 1].1.record[i] / all[0].1.record[i];
        let (first, last) = (LENGTHS[0], LENGTHS[LENGTHS.len() - 1]);
        println!(
            "  a record from {first} to {last} bytes: proved times {:.2}, peer times {:.2}",
            growth(0),
            growth(1)
        );
    }
}

fn print_stacks() {
    println!("deepest stack in bytes, without what a thread that does nothing takes");
    println!("{:<10} {:>6} {:>10} {:>10}", "log", "bytes", CHECKS[0].0, CHECKS[1].0);
    let longest = subjects::KINDS.map(|kind| heavy(kind, LENGTHS[LENGTHS.len() - 1]));
    for subject in [wall()].iter().chain(&longest) {
        let [proved, peer] = CHECKS.map(|(_, check)| stack::depth(check, subject));
        println!("{:<10} {:>6} {:>10} {:>10}", subject.name, subject.log.len(), proved, peer);
    }
}

fn main() {
    let repeats = std::env::args().nth(1).and_then(|word| word.parse().ok()).unwrap_or(31);
    subjects::same_answers(CHECKS.map(|(_, check)| check));
    print_all_times(repeats);
    print_stacks();
}

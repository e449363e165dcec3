//! Spoils a case and its log: records, their arguments, or bytes.

use super::random::Random;
use crate::files::File;
use crate::writing::{self, Written};

/// A case with its log, as records, and how a check is asked.
#[derive(Clone, Debug)]
pub struct Draft {
    pub theory: u8,
    pub case: Vec<Written>,
    pub log: Vec<Written>,
}

impl Draft {
    /// Spoils one thing of one file.
    pub fn spoil(&mut self, random: &mut Random) {
        if random.once_in(60) {
            self.theory = [0, 1, 2, 3, 255][random.below(5)];
            return;
        }
        if random.once_in(3) && self.spoil_telling(random) {
            return;
        }
        let file = if random.once_in(4) { File::Case } else { File::Log };
        let records = match file {
            File::Case => &mut self.case,
            File::Log => &mut self.log,
        };
        if records.is_empty() {
            return;
        }
        match random.below(10) {
            0 => drop(records.remove(random.below(records.len()))),
            1 => double(records, random),
            2 => swap(records, random),
            _ => {
                let index = random.below(records.len());
                spoil_record(&mut records[index], random);
            }
        }
    }
}

impl Draft {
    /// Spoils an argument of a lemma, an atom or an application, where there is one.
    fn spoil_telling(&mut self, random: &mut Random) -> bool {
        let kind = [11, 11, 11, 11, 3, 3, 2, 4][random.below(8)];
        let all = self.case.iter_mut().chain(&mut self.log);
        let mut telling: Vec<&mut Written> = all.filter(|record| record.kind == kind).collect();
        if telling.is_empty() {
            return false;
        }
        let index = random.below(telling.len());
        let record = &mut *telling[index];
        match random.below(6) {
            0 | 1 => deny_literal(record, random) || change_word(record, random),
            2 => rename_measure(record, random) || change_small(record, random),
            3 | 4 => resize(record, random),
            _ => change_word(record, random),
        }
    }
}

/// Puts a record in once more, behind itself or anywhere.
fn double(records: &mut Vec<Written>, random: &mut Random) {
    let from = random.below(records.len());
    let to = if random.coin() { from } else { random.below(records.len() + 1) };
    let record = records[from].clone();
    records.insert(to, record);
}

/// Swaps two records that stand side by side, or any two.
fn swap(records: &mut [Written], random: &mut Random) {
    let one = random.below(records.len());
    let other = if random.coin() { one + 1 } else { random.below(records.len()) };
    if other < records.len() {
        records.swap(one, other);
    }
}

/// Changes an argument of a record in a way that suits it, or some byte of it.
fn spoil_record(record: &mut Written, random: &mut Random) {
    let suits = match random.below(8) {
        0..=2 => deny_literal(record, random),
        3 | 4 => change_word(record, random),
        5 => rename_measure(record, random),
        _ => false,
    };
    if !suits && (random.once_in(6) || !change_small(record, random)) {
        change_any(record, random);
    }
}

/// The places of the literals in a record's body.
fn literal_places(record: &Written) -> std::ops::Range<usize> {
    let length = record.body.len();
    match (record.kind, record.body.first()) {
        (4, _) | (12 | 18, _) => 0..length,
        (14, _) if length == 2 => 1..2,
        (11, Some(count)) => 1..(1 + usize::from(*count)).min(length),
        _ => 0..0,
    }
}

fn deny_literal(record: &mut Written, random: &mut Random) -> bool {
    let places = literal_places(record);
    if places.is_empty() {
        return false;
    }
    let place = places.start + random.below(places.len());
    let byte = &mut record.body[place];
    *byte = match random.below(8) {
        0 => [0, 128, 127, 129][random.below(4)],
        1 => byte.wrapping_add(1),
        2 => byte.wrapping_sub(1),
        _ => byte.wrapping_neg(),
    };
    true
}

/// The places at which the words of a record's body start.
fn word_places(record: &Written) -> Vec<usize> {
    let length = record.body.len();
    let words: Vec<usize> = match (record.kind, record.body.as_slice()) {
        (3, [_, pairs, ..]) => {
            let pairs = usize::from(*pairs);
            (0..pairs).map(|pair| 3 + 5 * pair).chain([2 + 5 * pairs]).collect()
        }
        (10, _) => vec![0],
        (11, [count, ..]) => (usize::from(*count) + 2..length).step_by(4).collect(),
        (13, _) => vec![1],
        _ => Vec::new(),
    };
    words.into_iter().filter(|place| place + 4 <= length).collect()
}

/// Changes a multiplier, a coefficient, a constant, a denominator or a numerator.
fn change_word(record: &mut Written, random: &mut Random) -> bool {
    let Some(place) = random.pick(&word_places(record)) else {
        return false;
    };
    let bytes: &mut [u8] = &mut record.body[place..place + 4];
    let word = bytes.iter().fold(0u32, |word, byte| word << 8 | u32::from(*byte)) as i32;
    let changed = match random.below(12) {
        0 => 0,
        1 => word.wrapping_neg(),
        2 => [100_000_000, 100_000_001, -100_000_000, -100_000_001][random.below(4)],
        3 => [1_000_000_000, 1_000_000_001, -1_000_000_000, -1_000_000_001][random.below(4)],
        4 => [i32::MIN, i32::MAX, 1_000_000, 1_000_001][random.below(4)],
        5 => word.wrapping_mul(2),
        _ => word.wrapping_add([-2, -1, -1, 1, 1, 2][random.below(6)]),
    };
    bytes.copy_from_slice(&changed.to_be_bytes());
    true
}

/// Makes a record shorter or longer by one literal, pair or argument, so that its length is right.
fn resize(record: &mut Written, random: &mut Random) -> bool {
    match record.kind {
        2 => resize_application(record, random),
        3 => resize_atom(record, random),
        4 => change_any_literal(&mut record.body, 0, random),
        11 => resize_lemma(record, random),
        _ => false,
    }
}

/// Takes away the byte at a place, if there is one there, or puts one in before it.
fn change_any_literal(bytes: &mut Vec<u8>, place: usize, random: &mut Random) -> bool {
    if place < bytes.len() && random.coin() {
        bytes.remove(place);
    } else {
        bytes.insert(place.min(bytes.len()), random.below(20) as u8);
    }
    true
}

/// An application with one argument less or more.
fn resize_application(record: &mut Written, random: &mut Random) -> bool {
    let before = record.body.len();
    if before < 5 || record.body[2] > 9 {
        return false;
    }
    change_any_literal(&mut record.body, 3, random);
    record.body[2] = (record.body.len() - 4) as u8;
    true
}

/// A linear atom with one measure less or more.
fn resize_atom(record: &mut Written, random: &mut Random) -> bool {
    let pairs = usize::from(record.body.get(1).copied().unwrap_or(0));
    let end = 2 + 5 * pairs;
    if pairs == 0 || pairs > 16 || end > record.body.len() {
        return false;
    }
    if random.once_in(3) {
        record.body[1] -= 1;
        record.body.drain(end - 5..end);
    } else {
        record.body[1] += 1;
        let measure = record.body[end - 5].wrapping_add(1);
        record.body.splice(end..end, [measure, 0, 0, 0, 1 + random.below(2) as u8]);
    }
    true
}

/// A lemma with one literal less, and without its multiplier.
fn resize_lemma(record: &mut Written, random: &mut Random) -> bool {
    let count = usize::from(record.body.first().copied().unwrap_or(0));
    if count == 0 || record.body.len() < 1 + count {
        return false;
    }
    let literal = random.below(count);
    let multiplier = 2 + count + 4 * literal;
    if record.body.get(1 + count) == Some(&1) && multiplier + 4 <= record.body.len() {
        record.body.drain(multiplier..multiplier + 4);
    }
    record.body.remove(1 + literal);
    record.body[0] -= 1;
    true
}

/// Names another measure, in an atom, an application or a value.
fn rename_measure(record: &mut Written, random: &mut Random) -> bool {
    let length = record.body.len();
    let places: Vec<usize> = match (record.kind, record.body.as_slice()) {
        (2, _) => (3..length).collect(),
        (3, [_, pairs, ..]) => (0..usize::from(*pairs)).map(|pair| 2 + 5 * pair).collect(),
        (13, _) => vec![0],
        _ => Vec::new(),
    };
    match random.pick(&places).filter(|place| *place < length) {
        Some(place) => {
            let byte = &mut record.body[place];
            *byte = if random.coin() { byte.wrapping_add(1) } else { random.below(18) as u8 };
            true
        }
        None => false,
    }
}

/// Changes the first byte a little: a count, a relation, a clause or a number; or the hint's kind.
fn change_small(record: &mut Written, random: &mut Random) -> bool {
    let place = match (record.kind, record.body.first()) {
        (11, Some(count)) if random.coin() => usize::from(*count) + 1,
        _ => 0,
    };
    match record.body.get_mut(place) {
        Some(byte) => {
            *byte = byte.wrapping_add([255, 1, 1, 2][random.below(4)]);
            true
        }
        None => false,
    }
}

/// Changes the kind, some byte, or the length of the body.
fn change_any(record: &mut Written, random: &mut Random) {
    let length = record.body.len();
    match random.below(8) {
        0 => record.kind = random.below(24) as u8,
        1 => record.body.push(random.byte()),
        2 => drop(record.body.pop()),
        _ if length > 0 => {
            let place = random.below(length);
            record.body[place] ^= 1 << random.below(8);
        }
        _ => record.kind = 10 + random.below(12) as u8,
    }
}

/// Changes bytes of a file, whatever they stand for, or cuts it, or adds to it.
pub fn spoil_bytes(bytes: &mut Vec<u8>, random: &mut Random) {
    if bytes.is_empty() {
        return;
    }
    let place = random.below(bytes.len());
    match random.below(6) {
        0 => bytes.truncate(place),
        1 => bytes.push(random.byte()),
        2 => drop(bytes.remove(place)),
        3 => bytes.insert(place, random.byte()),
        4 => bytes[place] = random.byte(),
        _ => bytes[place] ^= 1 << random.below(8),
    }
}

/// Gives a file just this many bytes: by one record more that fills it, or by cutting it.
pub fn make_long(bytes: &mut Vec<u8>, length: usize, random: &mut Random) {
    if bytes.len() + 3 <= length {
        let body = length - bytes.len() - 3;
        let kinds = [1, 2, 3, 4, 10, 11, 12, 15, 19, 20, 21];
        let kind = kinds[random.below(kinds.len())];
        let filler = Written::new(kind, vec![random.byte(); body]);
        bytes.extend(&writing::file(&[filler])[1..]);
    }
    bytes.resize(length, 0);
    if random.once_in(5) {
        bytes[0] = 2;
    }
}

//! Cases that were worked by hand.

use peer::check;
use peer::files::File;
use peer::session::trail::Origin;
use peer::session::Session;
use peer::theories::{Congruence, Linear};
use peer::writing::*;

/// The number of congruence over linear arithmetic.
const LINEAR: u8 = 2;

/// What the check reports.
fn report(theory: u8, case: &[Written], log: &[Written]) -> String {
    let mut buffer = [0xa5; 2_048];
    let length = check(theory, &file(case), &file(log), &mut buffer);
    assert!(buffer[length..].iter().all(|byte| *byte == 0xa5));
    String::from_utf8(buffer[..length].to_vec()).unwrap()
}

/// One switch and two measures; m1 + m2 <= 60 must be met, and m1 < 50 must not.
fn wall() -> Vec<Written> {
    vec![
        counts(1, 2),
        admit(atom(AT_MOST, &[(1, 1), (2, 1)], 60)),
        admit(atom(LESS, &[(1, 1)], 50)),
        admit(atom(LESS, &[(2, 1)], 12)),
        rule(&[2]),
        rule(&[-3]),
        rule(&[1, -4]),
        rule(&[-1, -4]),
    ]
}

fn wall_log(last_multiplier: i32) -> Vec<Written> {
    vec![
        seal(1),
        propagate(1, 2),
        propagate(2, -3),
        choose(1),
        propagate(4, -4),
        lemma(&[-2, 3, 4], &multipliers(&[1, 1, last_multiplier])),
        conflict(5),
        resolve(4),
        jump(-1),
        propagate(3, -4),
        conflict(5),
        concede(),
    ]
}

#[test]
fn the_wall_is_impossible() {
    assert_eq!(report(LINEAR, &wall(), &wall_log(1)), "impossible\n");
}

#[test]
fn a_wrong_multiplier_is_not_vouched_for() {
    let expected = "refused 31 file 2 record 6 byte 27 layer 2\n";
    assert_eq!(report(LINEAR, &wall(), &wall_log(0)), expected);
}

#[test]
fn the_wall_without_its_last_rule_is_possible() {
    let mut case = wall();
    case.pop();
    let log = |second: i32| {
        let start = [seal(1), propagate(1, 2), propagate(2, -3), choose(1), set(1, 50)];
        [start.as_slice(), &[set(2, second), claim()]].concat()
    };
    let refused = "refused 26 file 2 record 6 byte 30 layer 0\n";
    assert_eq!(report(LINEAR, &case, &log(11)), refused);
    assert_eq!(report(LINEAR, &case, &log(10)), "possible 1\ns1 yes\nm1 50\nm2 10\n");
}

/// Atoms 1 to 3: m1 = 3, m1 < 3, -m1 < -3.
fn split() -> Vec<Written> {
    vec![
        counts(0, 1),
        admit(atom(EQUAL, &[(1, 1)], 3)),
        admit(atom(LESS, &[(1, 1)], 3)),
        admit(atom(LESS, &[(1, -1)], -3)),
    ]
}

#[test]
fn an_equality_is_split() {
    let whole = [seal(1), lemma(&[1, 2, 3], &[2])];
    assert_eq!(report(LINEAR, &split(), &whole), "none\n");
    let partial = [seal(1), lemma(&[1, 2], &[2])];
    let refused = "refused 31 file 2 record 2 byte 8 layer 2\n";
    assert_eq!(report(LINEAR, &split(), &partial), refused);
    let longer = [seal(1), lemma(&[1, 2, 3], &[2, 0])];
    assert_eq!(report(LINEAR, &split(), &longer), "refused 5 file 2 record 2 byte 8 layer 2\n");
}

/// f(m1) = m2 and f(m3) = m4; atom 1 is m1 = m3, atom 2 is m2 = m4.
fn functions() -> Vec<Written> {
    vec![
        counts(0, 4),
        declare(application(7, &[1], 2)),
        declare(application(7, &[3], 4)),
        admit(atom(EQUAL, &[(1, 1), (3, -1)], 0)),
        admit(atom(EQUAL, &[(2, -5), (4, 5)], 0)),
    ]
}

#[test]
fn applications_that_agree_are_vouched_for() {
    let whole = [seal(1), lemma(&[-1, 2], &[3, 1, 2])];
    assert_eq!(report(LINEAR, &functions(), &whole), "none\n");
    let partial = [seal(1), lemma(&[2], &[3, 1, 2])];
    let refused = "refused 31 file 2 record 2 byte 8 layer 1\n";
    assert_eq!(report(LINEAR, &functions(), &partial), refused);
    let absent = [seal(1), lemma(&[-1, 2], &[3, 1, 3])];
    assert_eq!(report(LINEAR, &functions(), &absent), "refused 6 file 2 record 2 byte 8 layer 1\n");
}

#[test]
fn values_that_no_function_gives_are_not_admitted() {
    let log = [seal(1), set(1, 0), set(2, 0), set(3, 0), set(4, 1), claim()];
    let refused = "refused 34 file 2 record 6 byte 40 layer 1\n";
    assert_eq!(report(LINEAR, &functions(), &log), refused);
}

/// The session that took all these records.
fn session(case: &[Written], log: &[Written]) -> Session<Congruence<Linear>> {
    let mut session = Session::default();
    for (file, records) in [(File::Case, case), (File::Log, log)] {
        for record in records {
            session.call(record.record().call(file).unwrap()).unwrap();
        }
    }
    session
}

#[test]
fn a_jump_off_read_literals_chooses() {
    let case = [
        counts(0, 1),
        admit(atom(LESS, &[(1, 1)], 2)),
        admit(atom(LESS, &[(1, -1)], -5)),
        rule(&[1, 2]),
    ];
    let mut log = vec![seal(1), set(1, 3), read(1), read(2), conflict(1), jump(1)];
    let session = session(&case, &log);
    let chosen = session.trail().on(1).unwrap();
    assert_eq!((chosen.affirmed, chosen.level, chosen.origin), (true, 1, Origin::Chosen));
    assert!(session.trail().on(2).is_none() && session.trail().value(1).is_none());
    log.extend([set(1, 0), read(2), claim()]);
    assert_eq!(report(LINEAR, &case, &log), "possible 1\nm1 0\n");
}

#[test]
fn a_literal_that_a_jump_chose_has_no_reason() {
    let case = [
        counts(1, 1),
        admit(atom(LESS, &[(1, 1)], 2)),
        admit(atom(LESS, &[(1, -1)], -5)),
        rule(&[2, 3]),
        rule(&[-2, 1]),
        rule(&[-2, -1]),
    ];
    let start = [seal(1), set(1, 3), read(2), read(3), conflict(1), jump(2), propagate(2, 1)];
    let with = |rest: &[Written]| report(LINEAR, &case, &[start.as_slice(), rest].concat());
    assert_eq!(with(&[conflict(3), resolve(2)]), "refused 28 file 2 record 9 byte 41 layer 0\n");
    assert_eq!(with(&[conflict(3), concede()]), "refused 30 file 2 record 9 byte 41 layer 0\n");
    assert_eq!(with(&[conflict(3), resolve(1), jump(-2), choose(3)]), "none\n");
}

#[test]
fn an_empty_rule_is_conceded() {
    let case = [counts(0, 0), rule(&[])];
    let log = [seal(1), conflict(1), concede()];
    assert_eq!(report(LINEAR, &case, &log), "impossible\n");
    assert_eq!(report(1, &case, &log), "impossible\n");
}

#[test]
fn a_coefficient_beyond_its_range_is_refused() {
    let with = |coefficient: i32| {
        let case = [counts(0, 1), admit(atom(LESS, &[(1, coefficient)], 0))];
        report(LINEAR, &case, &[])
    };
    assert_eq!(with(100_000_000), "none\n");
    assert_eq!(with(-100_000_000), "none\n");
    assert_eq!(with(100_000_001), "refused 6 file 1 record 2 byte 6 layer 2\n");
    assert_eq!(with(i32::MIN), "refused 6 file 1 record 2 byte 6 layer 2\n");
}

#[test]
fn the_example_of_the_formats_page_is_impossible() {
    let mut case = wall();
    case.insert(1, declare(application(7, &[1], 2)));
    let mut log = wall_log(1);
    log.truncate(9);
    log.extend([
        set(1, 50),
        set(2, 10),
        admit([3, 1, 2, 255, 255, 255, 255, 255, 255, 255, 246].to_vec()),
        read(5),
        read(4),
        conflict(3),
        jump(-4),
        conflict(5),
        concede(),
    ]);
    assert_eq!(file(&case).len(), 79);
    assert_eq!(file(&log).len(), 196 - 84);
    assert_eq!(report(LINEAR, &case, &log), "impossible\n");
}

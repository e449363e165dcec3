//! The order of the tests, and the places that a refusal names.

use peer::check;
use peer::writing::*;

fn report_bytes(theory: u8, case: &[u8], log: &[u8]) -> String {
    let mut buffer = [0; 2_048];
    let length = check(theory, case, log, &mut buffer);
    String::from_utf8(buffer[..length].to_vec()).unwrap()
}

fn report(theory: u8, case: &[Written], log: &[Written]) -> String {
    report_bytes(theory, &file(case), &file(log))
}

/// The report of a log over three switches.
fn over_switches(log: &[Written]) -> String {
    let case = [counts(3, 0), rule(&[1, 2]), rule(&[-1, 2]), rule(&[3])];
    report(1, &case, &[&[seal(1)], log].concat())
}

#[test]
fn a_short_buffer_is_left_alone() {
    let mut buffer = [7; 2_047];
    assert_eq!(check(9, &[], &[], &mut buffer), 0);
    assert_eq!(buffer, [7; 2_047]);
}

#[test]
fn the_theory_number_comes_before_the_files() {
    for theory in [0, 3, 255] {
        assert_eq!(report_bytes(theory, &[], &[]), "refused 6 file 0 record 0 byte 0 layer 0\n");
    }
}

#[test]
fn version_and_length_come_before_records() {
    let case = file(&[]);
    assert_eq!(report_bytes(1, &[], &[]), "refused 1 file 1 record 0 byte 0 layer 0\n");
    assert_eq!(report_bytes(1, &case, &[2]), "refused 1 file 2 record 0 byte 0 layer 0\n");
    assert_eq!(report_bytes(1, &[0; 20_001], &[]), "refused 1 file 1 record 0 byte 0 layer 0\n");
    let long = |length: usize| [vec![1], vec![0; length - 1]].concat();
    let too_long = |file: u8| format!("refused 2 file {file} record 0 byte 0 layer 0\n");
    let zero_record = |file: u8| format!("refused 3 file {file} record 1 byte 1 layer 0\n");
    assert_eq!(report_bytes(1, &long(20_001), &[1]), too_long(1));
    assert_eq!(report_bytes(1, &long(20_000), &[1]), zero_record(1));
    assert_eq!(report_bytes(1, &case, &long(40_001)), too_long(2));
    assert_eq!(report_bytes(1, &case, &long(40_000)), zero_record(2));
}

#[test]
fn a_record_is_tested_by_length_kind_and_body() {
    let case = |records: &[u8]| report_bytes(1, &[&[1], records].concat(), &[1]);
    assert_eq!(case(&[0]), "refused 3 file 1 record 1 byte 1 layer 0\n");
    assert_eq!(case(&[0, 2, 1]), "refused 3 file 1 record 1 byte 1 layer 0\n");
    assert_eq!(case(&[0, 1, 10]), "refused 4 file 1 record 1 byte 1 layer 0\n");
    assert_eq!(case(&[0, 2, 1, 0]), "refused 5 file 1 record 1 byte 1 layer 0\n");
    assert_eq!(case(&[0, 3, 1, 128, 0]), "refused 6 file 1 record 1 byte 1 layer 0\n");
    assert_eq!(case(&[0, 3, 1, 0, 1]), "refused 6 file 1 record 1 byte 1 layer 1\n");
    assert_eq!(case(&[0, 3, 1, 1, 0, 0, 1, 0]), "refused 4 file 1 record 2 byte 6 layer 0\n");
}

#[test]
fn a_lemma_needs_its_literals() {
    let refused = "refused 5 file 2 record 2 byte 8 layer 0\n";
    assert_eq!(over_switches(&[Written::new(11, [])]), refused);
    assert_eq!(over_switches(&[Written::new(11, [2, 1])]), refused);
    let unknown = "refused 6 file 2 record 2 byte 8 layer 1\n";
    assert_eq!(over_switches(&[Written::new(11, [1, 1, 1])]), unknown);
    let empty = "refused 5 file 2 record 2 byte 8 layer 1\n";
    assert_eq!(over_switches(&[Written::new(11, [1, 1])]), empty);
}

#[test]
fn a_bad_literal_comes_before_a_bad_clause() {
    let rules = |bytes: &[u8]| report(1, &[counts(20, 0), Written::new(4, bytes)], &[]);
    let refused = |cause: u8| format!("refused {cause} file 1 record 2 byte 6 layer 0\n");
    let seventeen: Vec<u8> = (1..=17).collect();
    assert_eq!(rules(&seventeen), refused(8));
    assert_eq!(rules(&[&seventeen[..], &[0]].concat()), refused(7));
    assert_eq!(rules(&[1, 255]), refused(8));
    assert_eq!(rules(&[21, 1, 1]), refused(8));
    assert_eq!(rules(&[21]), refused(22));
    assert_eq!(rules(&seventeen[..16]), "none\n");
}

#[test]
fn a_search_over_switches() {
    let second = |cause: u8| format!("refused {cause} file 2 record 2 byte 8 layer 0\n");
    assert_eq!(over_switches(&[choose(0)]), second(7));
    assert_eq!(over_switches(&[choose(-128)]), second(7));
    assert_eq!(over_switches(&[choose(4)]), second(22));
    assert_eq!(over_switches(&[read(1)]), second(24));
    assert_eq!(over_switches(&[read(0)]), second(22));
    assert_eq!(over_switches(&[propagate(9, 0)]), second(7));
    assert_eq!(over_switches(&[propagate(9, 1)]), second(22));
    assert_eq!(over_switches(&[propagate(3, 2)]), second(25));
    assert_eq!(over_switches(&[propagate(1, 2)]), second(25));
    assert_eq!(over_switches(&[conflict(0)]), second(22));
    assert_eq!(over_switches(&[conflict(1)]), second(27));
    assert_eq!(over_switches(&[set(1, 0)]), second(6));
    assert_eq!(over_switches(&[claim()]), second(33));
    assert_eq!(over_switches(&[seal(1)]), second(20));
    assert_eq!(over_switches(&[resolve(1)]), second(20));
    let third = |cause: u8| format!("refused {cause} file 2 record 3 byte 12 layer 0\n");
    assert_eq!(over_switches(&[choose(1), choose(-1)]), third(23));
    let claimed = "possible 1\ns1 no\ns2 yes\ns3 yes\n";
    assert_eq!(over_switches(&[choose(2), choose(3), claim()]), claimed);
}

#[test]
fn records_behind_a_closing_one_are_refused() {
    let refused = "refused 20 file 2 record 3 byte 11 layer 0\n";
    assert_eq!(over_switches(&[abandon()]), "none\n");
    assert_eq!(over_switches(&[abandon(), abandon()]), refused);
    assert_eq!(over_switches(&[abandon(), choose(0)]), refused);
    let unread = "refused 5 file 2 record 3 byte 11 layer 0\n";
    assert_eq!(over_switches(&[abandon(), Written::new(12, [])]), unread);
}

#[test]
fn applications_are_tested_in_their_layer() {
    let declared = |body: &[u8]| report(2, &[counts(0, 2), declare(body.to_vec())], &[]);
    let refused =
        |cause: u8, layer: u8| format!("refused {cause} file 1 record 2 byte 6 layer {layer}\n");
    assert_eq!(declared(&[]), refused(5, 2));
    assert_eq!(declared(&[4]), refused(6, 2));
    assert_eq!(declared(&[3]), refused(5, 1));
    assert_eq!(declared(&[3, 1, 1, 1]), refused(5, 1));
    assert_eq!(declared(&[3, 1, 0, 1]), refused(6, 1));
    assert_eq!(declared(&[3, 1, 4, 1, 1, 1, 1, 1]), refused(6, 1));
    assert_eq!(declared(&[3, 1, 1, 1, 3]), refused(6, 1));
    assert_eq!(declared(&[3, 1, 1, 1, 2]), "none\n");
    let full = [vec![counts(0, 2)], vec![declare(application(1, &[1], 2)); 32]].concat();
    let one_more = [full, vec![declare(vec![3])]].concat();
    assert_eq!(report(2, &one_more, &[]), "refused 21 file 1 record 34 byte 262 layer 1\n");
}

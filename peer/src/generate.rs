//! Makes cases with logs to compare two checks on: a solver of its own writes logs that are mostly
//! taken, and mutations spoil them.

pub mod cycles;
pub mod eliminate;
pub mod lemmas;
pub mod mutations;
pub mod pairs;
pub mod problems;
pub mod random;
pub mod rows;
pub mod run;
pub mod solver;
pub mod strays;

pub use pairs::{Pair, Pairs};
pub use random::Random;

#[cfg(test)]
mod tests {
    use super::*;
    use crate::files::{Call, File, Reader};
    use crate::report::Outcome;
    use crate::session::trail::Origin;
    use crate::session::Session;
    use crate::theories::{Congruence, Linear};

    #[test]
    fn pairs_follow_from_their_seed() {
        let later: Vec<Pair> = Pairs::from(7, 100).take(20).collect();
        assert_eq!(Pairs::from(7, 0).skip(100).take(20).collect::<Vec<_>>(), later);
    }

    #[test]
    fn pairs_come_to_all_outcomes() {
        let (mut impossible, mut possible, mut none) = (0, 0, 0);
        let mut causes = [0; 35];
        for pair in Pairs::from(1, 0).take(60_000) {
            match crate::outcome(pair.theory, &pair.case, &pair.log) {
                Outcome::Impossible => impossible += 1,
                Outcome::Possible(_) => possible += 1,
                Outcome::None => none += 1,
                Outcome::Refused(refusal) => {
                    causes[usize::from(refusal.fault.cause.number())] += 1;
                }
            }
        }
        println!("{impossible} {possible} {none} {causes:?}");
        assert!(impossible > 500 && possible > 500 && none > 500);
        assert!((1..=8).chain(20..=34).all(|cause| causes[cause] > 0), "{causes:?}");
    }

    /// How many jumps of a log entered their literal by a reason, and how many as a choice.
    fn jumps(pair: &Pair) -> [usize; 2] {
        let mut session = Session::<Congruence<Linear>>::default();
        let mut jumps = [0; 2];
        for (file, bytes) in [(File::Case, &pair.case), (File::Log, &pair.log)] {
            for record in Reader::open(file, bytes).into_iter().flatten().flatten() {
                let Ok(call) = record.call(file) else {
                    return jumps;
                };
                if session.call(call).is_err() {
                    return jumps;
                }
                if let Call::Jump(literal) = call {
                    let standing = session.trail().on((literal as i8).unsigned_abs()).unwrap();
                    jumps[usize::from(standing.origin == Origin::Chosen)] += 1;
                }
            }
        }
        jumps
    }

    #[test]
    fn jumps_are_of_both_kinds() {
        let all = Pairs::from(1, 0).take(20_000).map(|pair| jumps(&pair));
        let [by_reason, chosen] =
            all.fold([0, 0], |[a, b], [by_reason, chosen]| [a + by_reason, b + chosen]);
        println!("{by_reason} by a reason, {chosen} chosen");
        assert!(by_reason > 1_000 && chosen > 300);
    }

    /// Whether some yes and no for each switch meets all rules of a case.
    fn can_be_met(case: &[u8]) -> bool {
        let mut switches = 0;
        let mut rules: Vec<Vec<i8>> = Vec::new();
        for record in Reader::open(File::Case, case).unwrap().flatten() {
            match record.call(File::Case) {
                Ok(Call::Counts { switches: count, .. }) => switches = count,
                Ok(Call::Rule(literals)) => {
                    rules.push(literals.iter().map(|l| *l as i8).collect());
                }
                _ => {}
            }
        }
        (0..1u32 << switches).any(|yes| {
            let holds = |l: &i8| (yes >> (l.unsigned_abs() - 1) & 1 == 1) == (*l > 0);
            rules.iter().all(|rule| rule.iter().any(holds))
        })
    }

    #[test]
    fn verdicts_over_few_switches_are_right() {
        let (mut impossible, mut possible) = (0, 0);
        for pair in Pairs::from(5, 0).filter(|p| p.theory == 1).take(20_000) {
            let few = pair.case.get(4).is_some_and(|switches| *switches <= 12);
            match crate::outcome(1, &pair.case, &pair.log) {
                Outcome::Impossible if few => {
                    assert!(!can_be_met(&pair.case));
                    impossible += 1;
                }
                Outcome::Possible(_) if few => {
                    assert!(can_be_met(&pair.case));
                    possible += 1;
                }
                _ => {}
            }
        }
        println!("{impossible} impossible, {possible} possible");
        assert!(impossible > 500 && possible > 500);
    }
}

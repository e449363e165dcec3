//! Long logs with a deep trail: the trail is filled, a conflict takes it back, and it is filled again.
//!
//! The switches 1 to `TURNS` and the one behind them, the pivot, serve for the conflicts: for each of the
//! former there are two rules, so that its choice leads to two conflicts and then never to another.

use super::mutations::Draft;
use super::problems::any_atom;
use super::random::Random;
use super::rows::{body_of, Shown};
use super::run::{signed, Run};
use crate::literals::Literal;
use crate::session::{Phase, CLAUSES};
use crate::theories::linear::{Atom, Relation};
use crate::theories::{Congruence, Linear, Switches, Values, MEASURES};
use crate::writing::{self, *};

/// How many switches lead to conflicts, two each.
const TURNS: u8 = 48;
const PIVOT: u8 = TURNS + 1;

/// What fills the trail between two conflicts: records of which each is taken if it is legal then.
type Filling = Vec<Written>;

/// The calls that a log is heavy in.
#[derive(Clone, Copy, Debug, PartialEq, Eq)]
pub enum Heavy {
    /// All of them, over a full trail.
    Deep,
    /// Theory 1, over a full trail.
    Switches,
    /// Lemmas of 16 literals over 16 measures.
    Lemmas,
    /// Sets over a full trail in which each atom mentions each measure.
    Sets,
    /// Theory 1, propagations by long reasons, and resolutions with them.
    Resolves,
}

impl Heavy {
    pub const ALL: [Heavy; 5] =
        [Heavy::Deep, Heavy::Switches, Heavy::Lemmas, Heavy::Sets, Heavy::Resolves];

    /// A case with a log of just about so many bytes, all of which is taken.
    pub fn draft(self, random: &mut Random, bytes: usize) -> Draft {
        match self {
            Heavy::Deep => deep(random, bytes),
            Heavy::Switches => switches(random, bytes),
            Heavy::Lemmas => lemmas(random, bytes),
            Heavy::Sets => sets(random, bytes),
            Heavy::Resolves => resolves(random, bytes),
        }
    }
}

impl<T: Shown> Run<T> {
    /// The two rules of each turn.
    fn turns(&mut self, turns: u8) {
        for turn in 1..=turns as i8 {
            self.state(rule(&[-turn, -(PIVOT as i8)]));
            self.state(rule(&[-turn, PIVOT as i8]));
        }
    }

    /// Goes through the turns until the log is as long as it may be. `each` is called where the trail is
    /// full.
    fn go_through(&mut self, turns: u8, filling: &[Written], each: fn(&mut Run<T>)) {
        for turn in 1..=turns {
            self.take(choose(turn as i8));
            self.take(choose(PIVOT as i8));
            self.fill_with(filling);
            each(self);
            self.conflict_on(2 * turn - 1, &[], PIVOT);
            self.fill_with(filling);
            each(self);
            self.conflict_on(2 * turn, &[PIVOT], turn);
        }
        self.fill_with(filling);
    }

    fn fill_with(&mut self, filling: &[Written]) {
        for record in filling {
            self.take(record.clone());
        }
    }

    /// A conflict on a clause, with resolutions, and the jump that denies `denied`; or nothing, where
    /// there is no room for all.
    fn conflict_on(&mut self, clause: u8, resolved: &[u8], denied: u8) {
        let fits = self.size + 8 + 4 * resolved.len() <= self.limit;
        if !fits || self.session.store().len() == CLAUSES || !self.take(conflict(clause)) {
            return;
        }
        for number in resolved {
            self.take(resolve(*number));
        }
        let jumped = self.take(jump(-(denied as i8)));
        debug_assert!(jumped, "a turn goes back");
    }

    fn into_draft(self) -> Draft {
        debug_assert!(matches!(self.session.phase(), Phase::Searching));
        Draft { theory: T::NUMBER, case: self.case, log: self.log }
    }
}

fn start<T: Shown>(random: &mut Random, bytes: usize) -> Run<T> {
    let mut run = Run::new(Random::new(random.word()));
    run.limit = bytes;
    run
}

/// Values for all measures, over the denominator 1.
fn any_values(random: &mut Random) -> Values {
    let numerators = [0; MEASURES].map(|_| random.within(-9, 9) as i32);
    Values { numerators, denominator: 1 }
}

/// An atom that mentions all measures.
fn full_atom(random: &mut Random) -> Atom {
    let relation = [Relation::Less, Relation::AtMost, Relation::Equal][random.below(3)];
    let row = [0; MEASURES].map(|_| 1 + random.below(9) as i32);
    Atom { relation, row, constant: random.within(-90, 90) as i32 }
}

/// Sets all measures to these values.
fn settings(values: &Values) -> impl Iterator<Item = Written> + '_ {
    (1..).zip(values.numerators).map(|(measure, numerator)| set(measure, numerator))
}

/// Chooses each atom of these numbers as these values have it.
fn atoms_as<T: Shown>(
    run: &Run<T>,
    numbers: std::ops::RangeInclusive<u8>,
    values: &Values,
) -> Filling {
    let literal = |number| {
        let atom = usize::from(number - run.session.switches());
        Literal::new(number, run.session.theory().holds(atom, values))
    };
    numbers.map(|number| choose(signed(literal(number)))).collect()
}

/// Chooses the switches from `first` to `last`, of which each second follows from the one before it.
fn links(run: &mut Run<impl Shown>, first: u8, last: u8) -> Filling {
    let mut filling = Vec::new();
    for number in (first as i8..last as i8).step_by(2) {
        run.state(rule(&[-number, number + 1]));
        let clause = run.session.store().len() as u8;
        filling.extend([choose(number), propagate(clause, number + 1)]);
    }
    filling
}

fn deep(random: &mut Random, bytes: usize) -> Draft {
    let mut run = start::<Congruence<Linear>>(random, bytes);
    run.state(counts(PIVOT + 30, MEASURES as u8));
    for index in 0..12 {
        run.state(declare(application(7, &[1 + index % 4, 5 + index], 16 - index % 3)));
    }
    while run.session.numbers() < 127 {
        run.state(admit(body_of(&any_atom(random, MEASURES as u8, 5))));
    }
    run.turns(TURNS);
    let mut filling = links(&mut run, PIVOT + 1, PIVOT + 30);
    run.take(seal(1));
    let values = any_values(random);
    let atoms = run.session.switches() + 1;
    filling.extend((1..=TURNS as i8).map(choose));
    filling.extend(atoms_as(&run, atoms..=(atoms + 127) / 2, &values));
    filling.extend(settings(&values));
    filling.extend((atoms..=127).map(writing::read));
    run.go_through(TURNS, &filling, |_| ());
    run.into_draft()
}

fn switches(random: &mut Random, bytes: usize) -> Draft {
    let mut run = start::<Switches>(random, bytes);
    run.state(counts(127, 0));
    run.turns(TURNS);
    let mut filling = links(&mut run, PIVOT + 1, 127);
    run.take(seal(1));
    filling.extend((1..=TURNS as i8).map(choose));
    run.go_through(TURNS, &filling, |_| ());
    run.into_draft()
}

fn lemmas(random: &mut Random, bytes: usize) -> Draft {
    let mut run = start::<Congruence<Linear>>(random, bytes);
    run.state(counts(PIVOT, MEASURES as u8));
    for _ in 0..56 {
        run.state(admit(body_of(&full_atom(random))));
    }
    run.turns(24);
    run.take(seal(1));
    let values = any_values(random);
    let mut filling: Filling = (1..=TURNS as i8).map(choose).collect();
    filling.extend(atoms_as(&run, PIVOT + 1..=run.session.numbers(), &values));
    filling.extend(settings(&values));
    filling.extend((PIVOT + 1..=127).map(writing::read));
    run.go_through(24, &filling, |run| (0..3).for_each(|_| run.long_lemma()));
    run.into_draft()
}

impl<T: Shown> Run<T> {
    /// A lemma of 16 literals, where there is room: 15 of the first atoms and one that closes the sum.
    /// Some multipliers are too large for that atom, so it is tried a few times. When no more atoms can
    /// be admitted, the last lemma is taken again.
    fn long_lemma(&mut self) {
        let full = self.session.numbers() == 127;
        let last = self.log.iter().rposition(|record| record.kind == 11);
        match last.filter(|_| full) {
            Some(index) => self.take(self.log[index].clone()),
            None => (0..9).any(|_| self.combine((PIVOT + 1..PIVOT + 16).collect())),
        };
    }
}

fn sets(random: &mut Random, bytes: usize) -> Draft {
    let mut run = start::<Congruence<Linear>>(random, bytes);
    run.state(counts(PIVOT, MEASURES as u8));
    while run.session.numbers() < 127 {
        run.state(admit(body_of(&full_atom(random))));
    }
    run.turns(TURNS);
    run.take(seal(1));
    let values = any_values(random);
    let mut filling = atoms_as(&run, PIVOT + 1..=127, &values);
    filling.extend(settings(&values));
    run.go_through(TURNS, &filling, |_| ());
    run.into_draft()
}

/// Each turn chooses a switch, from which `head`, `middle` and `last` follow; all are resolved upon.
fn resolves(random: &mut Random, bytes: usize) -> Draft {
    let mut run = start::<Switches>(random, bytes);
    let turns = 84;
    let head = turns + 1;
    let (middle, last) = (head + 1..=head + 14, head + 15..=127);
    run.state(counts(127, 0));
    run.state(rule(&[-(*last.start() as i8), -(*last.start() as i8) - 1]));
    let mut filling: Filling = Vec::new();
    for number in middle.clone() {
        run.state(rule(&[-(head as i8), number as i8]));
        filling.push(propagate(run.session.store().len() as u8, number as i8));
    }
    for number in last.clone() {
        let denials = middle.clone().map(|n| -(n as i8));
        let reason: Vec<i8> = denials.chain([number as i8]).collect();
        run.state(rule(&reason));
        filling.push(propagate(run.session.store().len() as u8, number as i8));
    }
    filling.extend((1..=turns as i8).map(choose));
    let before = run.session.store().len() as u8;
    for turn in 1..=turns as i8 {
        run.state(rule(&[-turn, head as i8]));
    }
    run.take(seal(1));
    let resolved: Vec<u8> = last.take(2).chain(middle).chain([head]).collect();
    for turn in 1..=turns {
        run.take(choose(turn as i8));
        run.take(propagate(before + turn, head as i8));
        run.fill_with(&filling);
        run.conflict_on(1, &resolved, turn);
    }
    run.into_draft()
}

#[cfg(test)]
mod tests {
    use super::*;
    use crate::report::Outcome;

    #[test]
    fn logs_are_long_and_taken() {
        for heavy in Heavy::ALL {
            for bytes in [4_000, 20_000, 40_000] {
                let draft = heavy.draft(&mut Random::new(3), bytes);
                let (case, log) = (file(&draft.case), file(&draft.log));
                println!("{heavy:?}: {} bytes, {} records", log.len(), draft.log.len());
                assert!(log.len() <= bytes && log.len() + 1_500 > bytes, "{heavy:?}");
                assert_eq!(crate::outcome(draft.theory, &case, &log), Outcome::None);
            }
        }
    }
}

//! A small solver: it writes the log of a search, record by record.

use super::problems::CHAIN;
use super::rows::{bounds_of_trail, Bound, Shown};
use super::run::{signed, Run};
use crate::literals::{Clause, Literal};
use crate::session::trail::Origin;
use crate::session::{Phase, NUMERATOR};
use crate::theories::linear::Relation;
use crate::writing::*;

/// What the trail leaves for a measure that has no value.
enum Room {
    /// Some values, as numerators.
    Free(Vec<i32>),
    /// None, because of these two bounds.
    Between(Box<(Bound, Bound)>),
    /// One at most, and that is taken away by a denied equality of this number.
    Pierced(u8),
    /// None over this denominator.
    TooNarrow,
}

/// How a search goes about it.
#[derive(Clone, Copy, Debug)]
pub struct Manner {
    /// One step of so many is one that the search has no need of.
    pub stray: usize,
    /// It looks for lemmas without values once in so many decisions.
    pub refute: usize,
    /// It sets a measure first, once in so many decisions; else it chooses a literal.
    pub set: usize,
    /// It claims before all is decided, once in so many decisions.
    pub claim: usize,
    /// It looks for clauses that are false or unit once in so many steps.
    pub follow: usize,
}

impl<T: Shown> Run<T> {
    /// Searches up to so many steps, or to the end.
    pub fn search(&mut self, manner: &Manner, steps: usize) {
        for _ in 0..steps {
            if self.over() || !self.step(manner) {
                return;
            }
        }
    }

    /// One step, and whether there was one.
    fn step(&mut self, manner: &Manner) -> bool {
        if let Phase::Analysing(open) = self.session.phase() {
            let open = *open;
            return self.analyse(&open);
        }
        if self.random.once_in(manner.stray) && self.stray() {
            return true;
        }
        let learnt = self.log.last().is_some_and(|record| record.kind == 11);
        let lazy = !learnt && !self.random.once_in(manner.follow);
        !lazy && self.follow() || self.read_one() || self.decide(manner) || lazy && self.follow()
    }

    /// Begins a conflict, or propagates, where a stored clause asks for it.
    fn follow(&mut self) -> bool {
        let count = self.session.store().len();
        let start = self.random.below(count.max(1));
        let mut unit = None;
        for index in (start..count).chain(0..start) {
            let clause = &self.session.store()[index].clause;
            let mut open = clause.iter().filter(|l| !self.session.is_false(**l));
            match (open.next(), open.next()) {
                (None, _) => return self.take(conflict(index as u8 + 1)),
                (Some(literal), None) if unit.is_none() => {
                    let number = literal.number();
                    let free = self.session.trail().on(number).is_none();
                    unit = (free && !self.readable(number)).then_some((index, *literal));
                }
                _ => {}
            }
        }
        unit.is_some_and(|(index, literal)| self.take(propagate(index as u8 + 1, signed(literal))))
    }

    /// Reads an atom whose measures have values.
    fn read_one(&mut self) -> bool {
        let switches = self.session.switches();
        let count = usize::from(self.session.numbers() - switches);
        let start = self.random.below(count.max(1));
        let mut numbers = (start..count).chain(0..start).map(|n| switches + 1 + n as u8);
        let unread = numbers.find(|n| self.session.trail().on(*n).is_none() && self.readable(*n));
        unread.is_some_and(|number| self.take(read(number)))
    }

    /// Chooses a literal, sets a measure, or finds that the search is at its end.
    fn decide(&mut self, manner: &Manner) -> bool {
        if manner.refute > 0 && self.random.once_in(manner.refute) && self.refute_trail() {
            return true;
        }
        let unset = self.unset_measures();
        if unset.is_empty() && self.random.once_in(manner.claim) && self.dare(claim()) {
            return true;
        }
        let set_first = self.random.once_in(manner.set);
        let decided = set_first && self.set_one(&unset)
            || self.choose_one()
            || !set_first && self.set_one(&unset);
        decided || unset.is_empty() && (self.dare(claim()) || self.clash())
    }

    fn unset_measures(&self) -> Vec<u8> {
        let valued = self.session.trail().valued();
        (1..=self.session.measures()).filter(|m| !valued.has(usize::from(*m))).collect()
    }

    /// Chooses a literal on a number that is neither on the trail nor readable.
    fn choose_one(&mut self) -> bool {
        let free: Vec<u8> = (self.spare + 1..=self.session.numbers())
            .filter(|n| self.session.trail().on(*n).is_none() && !self.readable(*n))
            .collect();
        let Some(number) = self.random.pick(&free) else {
            return false;
        };
        let affirms = self.random.below(100) < self.bias;
        self.take(choose(signed(Literal::new(number, affirms))))
    }

    /// Sets one of these measures, or explains why it has no value.
    fn set_one(&mut self, unset: &[u8]) -> bool {
        let mut unset = unset.to_vec();
        self.random.shuffle(&mut unset);
        unset.into_iter().any(|measure| self.set_or_explain(measure))
    }

    fn set_or_explain(&mut self, measure: u8) -> bool {
        match self.room(usize::from(measure) - 1) {
            Room::Free(values) => {
                self.random.pick(&values).is_some_and(|value| self.take(set(measure, value)))
            }
            Room::Between(pair) => self.explain(&pair.0, &pair.1, usize::from(measure) - 1),
            Room::Pierced(number) => self.split(number),
            Room::TooNarrow => false,
        }
    }

    /// What the trail leaves for the measure at this index.
    fn room(&mut self, index: usize) -> Room {
        let mut bounds = self.bounds_on(index);
        self.random.shuffle(&mut bounds);
        if let Some((upper, lower)) = self.contradiction(&bounds, index) {
            return Room::Between(Box::new((upper, lower)));
        }
        let widest = i128::from(NUMERATOR);
        let (mut low, mut high) = (-widest, widest);
        for bound in &bounds {
            let coefficient = i128::from(bound.says.row[index]);
            let slack = self.slack(bound, index) - i128::from(bound.says.strict);
            let quotient = slack.div_euclid(coefficient.abs());
            if coefficient > 0 {
                high = high.min(quotient);
            } else {
                low = low.max(-quotient);
            }
        }
        if low > high {
            return Room::TooNarrow;
        }
        self.values_within(low as i64, high as i64, index)
    }

    /// Some values within these bounds that no denied equality takes away.
    fn values_within(&mut self, low: i64, high: i64, index: usize) -> Room {
        let denominator = i64::from(self.session.values().denominator);
        let near = |value: i64| value.clamp(low, high) as i32;
        let mut candidates = vec![near(low), near(high), near(low + 1), near(high - 1), near(0)];
        for _ in 0..3 {
            candidates.push(near(self.random.within(-8, 8) * denominator));
            candidates.push(near(self.random.within(-9 * denominator, 9 * denominator)));
        }
        let denied = self.denied_equalities(index);
        let allowed = |value: &i32| !denied.iter().any(|(_, v)| *v == Some(i64::from(*value)));
        let free: Vec<i32> = candidates.iter().copied().filter(allowed).collect();
        match denied.iter().find(|(_, v)| *v == Some(low)) {
            Some((number, _)) if free.is_empty() => Room::Pierced(*number),
            _ if free.is_empty() => Room::TooNarrow,
            _ => Room::Free(free),
        }
    }

    /// The bounds in which this measure alone has no value.
    fn bounds_on(&self, index: usize) -> Vec<Bound> {
        let mut valued = self.session.trail().valued();
        valued.add(index + 1);
        let mut bounds = bounds_of_trail(&self.session);
        bounds.retain(|b| b.says.row[index] != 0 && b.says.mentions().within(valued));
        bounds
    }

    /// How much a bound leaves for its coefficient times the numerator of this measure.
    fn slack(&self, bound: &Bound, index: usize) -> i128 {
        let values = self.session.values();
        let mut slack = i128::from(bound.says.constant) * i128::from(values.denominator);
        for (place, (c, n)) in bound.says.row.iter().zip(&values.numerators).enumerate() {
            if place != index {
                slack -= i128::from(*c) * i128::from(*n);
            }
        }
        slack
    }

    /// Two bounds that no fraction meets together.
    fn contradiction(&self, bounds: &[Bound], index: usize) -> Option<(Bound, Bound)> {
        let coefficient = |b: &Bound| i128::from(b.says.row[index]);
        for upper in bounds.iter().filter(|b| coefficient(b) > 0) {
            for lower in bounds.iter().filter(|b| coefficient(b) < 0) {
                let above = self.slack(upper, index) * coefficient(lower).abs();
                let below = self.slack(lower, index) * coefficient(upper);
                let strict = upper.says.strict || lower.says.strict;
                if above + below < 0 || above + below == 0 && strict {
                    return Some((*upper, *lower));
                }
            }
        }
        None
    }

    /// The denied equalities in which this measure alone has no value, with the numerator that each
    /// takes away, if it is a whole one.
    fn denied_equalities(&self, index: usize) -> Vec<(u8, Option<i64>)> {
        let mut valued = self.session.trail().valued();
        valued.add(index + 1);
        let switches = self.session.switches();
        let mut denied = Vec::new();
        for number in switches + 1..=self.session.numbers() {
            let atom = usize::from(number - switches);
            let Some(row) = self.session.theory().row(atom) else {
                continue;
            };
            let stands = self.session.trail().on(number).is_some_and(|s| !s.affirmed);
            let last = self.session.theory().mentions(atom).within(valued);
            if stands && last && row.relation == Relation::Equal && row.row[index] != 0 {
                let says = super::rows::Bounded::of_atom(row);
                let bound = Bound { literal: Literal::new(number, true), sign: 1, says };
                let (slack, c) = (self.slack(&bound, index), i128::from(row.row[index]));
                denied.push((number, (slack % c == 0).then(|| (slack / c) as i64)));
            }
        }
        denied
    }

    /// Finds two applications that the values give different results, and says that they agree.
    fn clash(&mut self) -> bool {
        let applied = self.session.theory().applied();
        let values = self.session.values();
        let pairs = (0..applied.len()).flat_map(|i| (i + 1..applied.len()).map(move |j| (i, j)));
        let clashes: Vec<(usize, usize)> =
            pairs.filter(|(i, j)| applied[*i].clashes(&applied[*j], values)).collect();
        self.random.pick(&clashes).is_some_and(|(one, other)| self.agree(one, other))
    }

    /// One step of the analysis of a conflict.
    fn analyse(&mut self, open: &Clause) -> bool {
        let level = |l: &Literal| self.session.trail().false_at(*l).unwrap_or(0);
        let top = open.iter().map(level).max().unwrap_or(0);
        if self.daring && self.random.once_in(25) {
            self.slip();
            return true;
        }
        if top == 0 {
            return self.take(concede());
        }
        let at_top: Vec<Literal> = open.iter().filter(|l| level(l) == top).copied().collect();
        if self.random.once_in(12) {
            let literal = self.random.pick(open).unwrap_or(at_top[0]);
            if self.dare(resolve(literal.number())) {
                return true;
            }
        }
        let resolvable = self.last_with_reason(&at_top);
        let early = self.random.once_in(3) || at_top.len() == 1 && !self.random.once_in(4);
        if (early || resolvable.is_none()) && self.jump_on(&at_top) {
            return true;
        }
        resolvable.is_some_and(|l| self.dare(resolve(l.number()))) || self.give_up()
    }

    fn jump_on(&mut self, literals: &[Literal]) -> bool {
        self.random.pick(literals).is_some_and(|literal| self.dare(jump(signed(literal))))
    }

    /// That of the literals whose denial has a reason and was entered last.
    fn last_with_reason(&self, literals: &[Literal]) -> Option<Literal> {
        let has_reason = |l: &&Literal| {
            let origin = self.session.trail().against(**l).map(|s| s.origin);
            matches!(origin, Some(Origin::Propagated(_)))
        };
        literals.iter().filter(has_reason).max_by_key(|l| self.entered(l.number())).copied()
    }

    /// Ends a search that leads no further, one way or the other.
    fn give_up(&mut self) -> bool {
        self.random.coin() && self.take(abandon())
    }

    /// Fills the log to its limit with choices of spare switches, if it can be done.
    pub fn fill(&mut self) -> bool {
        let rest = self.limit - self.size;
        let links = rest % 4;
        if links >= usize::from(CHAIN.min(self.spare)) || rest < 4 + 5 * links {
            return false;
        }
        let mut filled = links == 0 || self.take(choose(1));
        for number in 1..=links as u8 {
            filled = filled && self.take(propagate(number, number as i8 + 1));
        }
        for number in 1..=self.spare {
            if self.size < self.limit && self.session.trail().on(number).is_none() {
                filled = filled && self.take(choose(number as i8));
            }
        }
        filled && self.size == self.limit
    }
}

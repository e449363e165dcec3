//! The trail: the literals and the values that stand, each with its level.
//!
//! No rule asks in which order the entries were made, so they are kept by their numbers and measures.

use crate::literals::Literal;
use crate::session::NUMBERS;
use crate::theories::{Measures, Values, MEASURES};

/// How a literal came to stand on the trail.
#[derive(Clone, Copy, Debug, PartialEq, Eq)]
pub enum Origin {
    Chosen,
    /// By the stored clause of this index, its reason.
    Propagated(usize),
    /// Off the values.
    Read,
}

/// A literal that stands on the trail: its number is the place where this is kept.
#[derive(Clone, Copy, Debug)]
pub struct Standing {
    pub affirmed: bool,
    pub level: u8,
    pub origin: Origin,
}

#[derive(Clone, Debug)]
pub struct Trail {
    /// By number.
    literals: [Option<Standing>; NUMBERS as usize + 1],
    values: Values,
    valued: Measures,
    /// The level of each value; nothing where there is none.
    levels: [u8; MEASURES],
    /// How many choices there are: they have the levels 1, 2, 3 and so on.
    choices: u8,
}

impl Default for Trail {
    fn default() -> Self {
        Trail::over(1)
    }
}

impl Trail {
    /// The empty trail with this denominator for all values.
    pub fn over(denominator: u32) -> Trail {
        Trail {
            literals: [None; NUMBERS as usize + 1],
            values: Values { numerators: [0; MEASURES], denominator },
            valued: Measures::default(),
            levels: [0; MEASURES],
            choices: 0,
        }
    }

    /// What stands on a number.
    pub fn on(&self, number: u8) -> Option<&Standing> {
        self.literals[usize::from(number)].as_ref()
    }

    pub fn values(&self) -> &Values {
        &self.values
    }

    /// The measures that have values.
    pub fn valued(&self) -> Measures {
        self.valued
    }

    /// The numerator of a measure's value.
    pub fn value(&self, measure: usize) -> Option<i32> {
        self.valued.has(measure).then(|| self.values.numerators[measure - 1])
    }

    pub fn choices(&self) -> u8 {
        self.choices
    }

    /// What stands against a literal: its denial.
    pub fn against(&self, literal: Literal) -> Option<&Standing> {
        self.on(literal.number()).filter(|s| s.affirmed != literal.affirms())
    }

    /// The level at which a literal is false.
    pub fn false_at(&self, literal: Literal) -> Option<u8> {
        self.against(literal).map(|s| s.level)
    }

    /// The highest level of the values of these measures, or 0.
    pub fn highest(&self, measures: Measures) -> u8 {
        let levels = self.levels.iter().enumerate();
        levels.filter(|(index, _)| measures.has(index + 1)).map(|(_, l)| *l).max().unwrap_or(0)
    }

    pub fn choose(&mut self, literal: Literal) {
        self.choices += 1;
        self.enter(literal, self.choices, Origin::Chosen);
    }

    /// Enters a literal by its reason, at the level of the last choice.
    pub fn propagate(&mut self, literal: Literal, reason: usize) {
        self.enter(literal, self.choices, Origin::Propagated(reason));
    }

    pub fn read(&mut self, literal: Literal, level: u8) {
        self.enter(literal, level, Origin::Read);
    }

    fn enter(&mut self, literal: Literal, level: u8, origin: Origin) {
        let standing = Standing { affirmed: literal.affirms(), level, origin };
        self.literals[usize::from(literal.number())] = Some(standing);
    }

    pub fn set(&mut self, measure: usize, numerator: i32) {
        self.choices += 1;
        self.valued.add(measure);
        self.values.numerators[measure - 1] = numerator;
        self.levels[measure - 1] = self.choices;
    }

    /// Takes away all entries of a level above `target`.
    pub fn back_to(&mut self, target: u8) {
        for place in &mut self.literals {
            *place = place.filter(|s| s.level <= target);
        }
        let before = self.valued;
        self.valued = Measures::default();
        for index in 0..MEASURES {
            if before.has(index + 1) && self.levels[index] <= target {
                self.valued.add(index + 1);
            } else {
                self.values.numerators[index] = 0;
            }
        }
        self.choices = self.choices.min(target);
    }
}

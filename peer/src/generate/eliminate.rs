//! Finds multipliers under which bounded rows add up to a contradiction, by eliminating one measure
//! after the other. All numbers are exact.

use super::rows::{gcd, Bound, Bounded};
use crate::theories::MEASURES;

/// How many rows are looked at together, and how many there may be in between.
const ROWS: usize = 10;
const BETWEEN: usize = 40;

/// A sum of the rows, each times its multiplier.
#[derive(Clone, Copy)]
struct Sum {
    says: Bounded,
    multipliers: [i64; ROWS],
}

impl Sum {
    /// The sum of both in which the measure at this index cancels out.
    fn without(&self, other: &Sum, index: usize) -> Option<Sum> {
        let (a, b) = (self.says.row[index].abs(), other.says.row[index].abs());
        let g = gcd(a, b);
        let (times, factor) = (a / g, b / g);
        let mut multipliers = [0; ROWS];
        for (place, (m, n)) in
            multipliers.iter_mut().zip(self.multipliers.iter().zip(&other.multipliers))
        {
            *place = m.checked_mul(factor)?.checked_add(n.checked_mul(times)?)?;
        }
        Some(Sum { says: self.says.plus(factor, &other.says, times)?, multipliers })
    }
}

/// The bounds that contradict each other, each with its multiplier above 0.
pub fn refute(bounds: &[Bound]) -> Option<Vec<(Bound, i64)>> {
    let bounds = &bounds[..bounds.len().min(ROWS)];
    let mut sums: Vec<Sum> = bounds
        .iter()
        .enumerate()
        .map(|(index, bound)| {
            let mut multipliers = [0; ROWS];
            multipliers[index] = 1;
            Sum { says: bound.says, multipliers }
        })
        .collect();
    for index in 0..MEASURES {
        sums = eliminate(&sums, index)?;
    }
    let absurd = sums.iter().find(|sum| sum.says.is_absurd())?;
    let used = bounds.iter().copied().zip(absurd.multipliers);
    Some(used.filter(|(_, multiplier)| *multiplier > 0).collect())
}

/// The rows without this measure, and all sums of two in which it cancels out.
fn eliminate(sums: &[Sum], index: usize) -> Option<Vec<Sum>> {
    let coefficient = |sum: &&Sum| sum.says.row[index];
    let mut rest: Vec<Sum> = sums.iter().filter(|s| coefficient(s) == 0).copied().collect();
    for upper in sums.iter().filter(|s| coefficient(s) > 0) {
        for lower in sums.iter().filter(|s| coefficient(s) < 0) {
            rest.extend(upper.without(lower, index));
        }
    }
    (!rest.is_empty() && rest.len() <= BETWEEN).then_some(rest)
}

#[cfg(test)]
mod tests {
    use super::*;
    use crate::literals::Literal;

    fn bound(row: &[i64], constant: i64, strict: bool) -> Bound {
        let mut says = Bounded { constant, strict, ..Bounded::default() };
        says.row[..row.len()].copy_from_slice(row);
        Bound { literal: Literal::new(1, true), sign: 1, says }
    }

    #[test]
    fn finds_the_multipliers_of_three_rows() {
        // 2 m1 + 3 m2 <= 5, m1 >= 2 and m2 > 1/3: 2 m1 + 3 m2 is above 5.
        let rows = [bound(&[2, 3], 5, false), bound(&[-1], -2, false), bound(&[0, -3], -1, true)];
        let found: Vec<i64> = refute(&rows).unwrap().iter().map(|(_, m)| *m).collect();
        assert_eq!(found, [1, 2, 1]);
        assert!(refute(&rows[..2]).is_none());
    }
}

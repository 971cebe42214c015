//! Splitting a challenge at a gate and down a rule, by Lagrange's formula.

use crate::rules::{Entry, Rule};
use crate::scalars::Scalars;

/// The value at a point of the one polynomial through these points, of the least degree.
pub fn interpolate(scalars: &Scalars, points: &[(u64, u64)], at: u64) -> u64 {
    let mut sum = 0;
    for (i, (x, y)) in points.iter().enumerate() {
        let mut above = *y;
        let mut below = 1;
        for (j, (other, _)) in points.iter().enumerate() {
            if i != j {
                above = scalars.multiply(above, scalars.subtract(at, *other));
                below = scalars.multiply(below, scalars.subtract(*x, *other));
            }
        }
        sum = scalars.add(sum, scalars.divide(above, below));
    }
    sum
}

/// Splits at a gate of which some children are known: it wants as many as are unknown.
pub fn complete(scalars: &Scalars, own: u64, children: &[Option<u64>]) -> Vec<u64> {
    let mut points = vec![(0, own)];
    for (j, child) in children.iter().enumerate() {
        if let Some(challenge) = child {
            points.push((j as u64 + 1, *challenge));
        }
    }
    let value = |j: usize| interpolate(scalars, &points, j as u64 + 1);
    let written = children.iter().enumerate().map(|(j, child)| child.unwrap_or_else(|| value(j)));
    written.collect()
}

/// Splits at a gate of this many children, of which the first ones are known.
pub fn split(scalars: &Scalars, count: usize, own: u64, known: &[u64]) -> Vec<u64> {
    let mut children: Vec<Option<u64>> = known.iter().map(|challenge| Some(*challenge)).collect();
    children.resize(count, None);
    complete(scalars, own, &children)
}

/// Whether a gate balances: its first n - k + 1 values fix the polynomial, and the others must lie on it.
pub fn balanced(scalars: &Scalars, threshold: usize, own: u64, children: &[u64]) -> bool {
    let values = std::iter::once(&own).chain(children);
    let points: Vec<(u64, u64)> = values.enumerate().map(|(x, y)| (x as u64, *y)).collect();
    let (fixing, others) = points.split_at(children.len() - threshold + 1);
    others.iter().all(|(x, y)| interpolate(scalars, fixing, *x) == *y)
}

/// How many shares a rule takes from the list.
pub fn shares(rule: &Rule) -> usize {
    let of_entry = |entry: &Entry| match entry {
        Entry::Leaf { .. } => 0,
        Entry::Gate { threshold, children } => children.len() - threshold,
    };
    rule.entries.iter().map(of_entry).sum()
}

/// Splits a challenge down a whole rule; the shares are as many as the rule takes.
pub fn split_rule(scalars: &Scalars, rule: &Rule, challenge: u64, shares: &[u64]) -> Vec<u64> {
    let mut challenges = vec![0; rule.entries.len()];
    challenges[0] = challenge;
    let mut rest = shares;
    for (position, entry) in rule.entries.iter().enumerate() {
        let Entry::Gate { threshold, children } = entry else {
            continue;
        };
        let (known, others) = rest.split_at(children.len() - threshold);
        rest = others;
        let values = split(scalars, children.len(), challenges[position], known);
        for (child, value) in children.iter().zip(values) {
            challenges[*child] = value;
        }
    }
    challenges
}

#[cfg(test)]
mod tests {
    use super::*;
    use crate::rules;

    fn eleven() -> Scalars {
        Scalars::make(11).unwrap()
    }

    #[test]
    fn hand_worked_gates() {
        assert_eq!(split(&eleven(), 2, 7, &[2]), [2, 8]);
        assert_eq!(split(&eleven(), 3, 7, &[2]), [2, 8, 3]);
        assert_eq!(split(&eleven(), 3, 7, &[]), [7, 7, 7]);
        assert_eq!(complete(&eleven(), 7, &[None, Some(8), None]), [2, 8, 3]);
        assert!(balanced(&eleven(), 2, 7, &[2, 8, 3]));
        assert!(!balanced(&eleven(), 3, 7, &[2, 8, 3]));
        assert!(!balanced(&eleven(), 2, 7, &[2, 8, 4]));
    }

    #[test]
    fn a_hand_worked_rule() {
        let rule = rules::read(b"2of(K1,any(K2,K3),K4)").unwrap();
        assert_eq!(shares(&rule), 2);
        assert_eq!(split_rule(&eleven(), &rule, 7, &[2, 1]), [7, 2, 8, 1, 5, 3]);
    }

    /// Every list of values below 11, of this length.
    fn lists(length: usize) -> impl Iterator<Item = Vec<u64>> {
        let count = 11_u64.pow(length as u32);
        (0..count).map(move |number| (0..length as u32).map(|i| number / 11_u64.pow(i) % 11).collect())
    }

    fn value(coefficients: &[u64], x: u64) -> u64 {
        coefficients.iter().rev().fold(0, |sum, coefficient| (sum * x + coefficient) % 11)
    }

    /// All gates that balance, from all polynomials: own challenge first.
    fn balanced_gates(count: usize, threshold: usize) -> Vec<Vec<u64>> {
        let polynomials = lists(count - threshold + 1);
        let values = |c: Vec<u64>| (0..=count as u64).map(|x| value(&c, x)).collect();
        let mut gates: Vec<Vec<u64>> = polynomials.map(values).collect();
        gates.sort();
        gates
    }

    #[test]
    fn balance_is_lying_on_a_polynomial() {
        for count in 1..=4 {
            for threshold in 1..=count {
                let gates = balanced_gates(count, threshold);
                for values in lists(count + 1) {
                    let found = gates.binary_search(&values).is_ok();
                    assert_eq!(balanced(&eleven(), threshold, values[0], &values[1..]), found);
                }
            }
        }
    }

    #[test]
    fn any_known_children_belong_to_one_balanced_gate() {
        for count in 1..=4_usize {
            for known in 0_u32..1 << count {
                let chosen = |j: &usize| known >> j & 1 == 1;
                let threshold = count - known.count_ones() as usize;
                if threshold == 0 {
                    continue;
                }
                for gate in balanced_gates(count, threshold) {
                    let some = |j: usize| chosen(&j).then(|| gate[j + 1]);
                    let children: Vec<Option<u64>> = (0..count).map(some).collect();
                    assert_eq!(complete(&eleven(), gate[0], &children), gate[1..]);
                }
            }
        }
    }

    #[test]
    fn eight_children_at_every_threshold() {
        for threshold in 6..=8 {
            for gate in balanced_gates(8, threshold) {
                let known = 8 - threshold;
                assert_eq!(split(&eleven(), 8, gate[0], &gate[1..=known]), gate[1..]);
                assert!(balanced(&eleven(), threshold, gate[0], &gate[1..]));
            }
        }
    }

    #[test]
    fn different_own_challenges_differ_at_k_children() {
        for (count, threshold) in [(2, 1), (3, 1), (3, 2), (3, 3), (4, 3)] {
            let gates = balanced_gates(count, threshold);
            for x in &gates {
                for y in gates.iter().filter(|y| x[0] != y[0]) {
                    let differ = (1..=count).filter(|j| x[*j] != y[*j]).count();
                    assert!(differ >= threshold);
                }
            }
        }
    }
}

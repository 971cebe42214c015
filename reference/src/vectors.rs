//! Scripts together with the output that the program `release` must give.

use std::collections::BTreeMap;

use crate::generate::{bytes_of, script, Scope};
use crate::random::Random;
use crate::script::run;

pub struct Vectors {
    pub script: Vec<u8>,
    pub output: String,
}

pub fn vectors(number: u64, count: usize, scope: Scope) -> Vectors {
    let lines = script(Random::part(number, 0), count, scope);
    let script = bytes_of(&lines);
    let output = run(&script);
    Vectors { script, output }
}

/// What a printed line counts as: a refusal by its number and place, any other by its first word.
fn class(line: &str) -> Option<String> {
    let words: Vec<&str> = line.split(' ').collect();
    match words.as_slice() {
        ["refused", number, place, ..] => Some(format!("refused {number:>2} at {place:>3}")),
        ["line", ..] => Some("line that does not fit".to_string()),
        // The text of a faulty rule may be a word as well.
        ["all" | "any", ..] => None,
        [first, ..] if first.len() > 1 && first.bytes().all(|byte| byte.is_ascii_lowercase()) => {
            Some(first.to_string())
        }
        _ => None,
    }
}

/// How often each class of reply stands in an output.
pub fn classes(output: &str) -> BTreeMap<String, usize> {
    let mut counts = BTreeMap::new();
    for class in output.lines().filter_map(class) {
        *counts.entry(class).or_insert(0) += 1;
    }
    counts
}

/// Refusal numbers with the places that an output tells them at.
pub fn places(output: &str) -> BTreeMap<u32, Vec<usize>> {
    let mut all: BTreeMap<u32, Vec<usize>> = BTreeMap::new();
    for line in output.lines() {
        let words: Vec<&str> = line.split(' ').collect();
        let ["refused", number, place, ..] = words.as_slice() else {
            continue;
        };
        let (Ok(number), Ok(place)) = (number.parse(), place.parse()) else {
            continue;
        };
        let places = all.entry(number).or_default();
        if let Err(at) = places.binary_search(&place) {
            places.insert(at, place);
        }
    }
    all
}

#[cfg(test)]
mod tests {
    use super::*;
    use crate::generate::Scope;

    #[test]
    fn the_same_number_gives_the_same_script() {
        let first = vectors(7, 500, Scope::All);
        let second = vectors(7, 500, Scope::All);
        assert_eq!(first.script, second.script);
        assert_ne!(first.script, vectors(8, 500, Scope::All).script);
    }

    /// A join's second refusal and the writer's stand in no script: the supplied set has six kinds, and the
    /// program gives the writer an output of the right length.
    #[test]
    fn every_refusal_at_several_places() {
        let places = places(&vectors(1, 6000, Scope::All).output);
        for (number, least) in [(1, 2), (2, 2), (3, 1), (4, 2), (5, 1), (6, 1), (7, 40), (8, 20), (9, 20)] {
            assert!(places[&number].len() >= least, "refusal {number}: {:?}", places[&number]);
        }
        for (number, least) in [(10, 4), (11, 1), (12, 4), (13, 4)] {
            assert!(places[&number].len() >= least, "refusal {number}: {:?}", places[&number]);
        }
    }

    #[test]
    fn replies_in_fair_shares() {
        let output = vectors(2, 6000, Scope::All).output;
        let counts = classes(&output);
        let refused: usize =
            counts.iter().filter(|(name, _)| name.starts_with("refused")).map(|(_, n)| n).sum();
        let misfits = counts["line that does not fit"];
        assert!(refused > 600 && misfits > 600, "{refused} {misfits}");
        for reply in
            ["made", "element", "product", "power", "sum", "quotient", "set", "image", "rule", "text"]
        {
            assert!(counts[reply] >= 5, "{reply}");
        }
        for reply in ["challenges", "ring", "leaf", "children", "balanced"] {
            assert!(counts[reply] >= 20, "{reply}");
        }
    }
}

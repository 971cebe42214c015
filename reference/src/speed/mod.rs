//! The time that this program takes for a few inputs and, where the library is linked, the library's time
//! for the same inputs in the same run.

#[cfg(feature = "library")]
mod library;

use std::hint::black_box;
use std::time::Instant;

use crate::groups::{Group, Shape};
use crate::rules::{self, Rule};
use crate::scalars::Scalars;
use crate::splits;

/// The largest order and modulus of each shape, and bases for them.
pub const RESIDUE: (u64, u64) = (331, 2_147_483_647);
pub const CIRCLE: (u64, u64) = (166_667, 2_000_003);
pub const ORDER: u64 = 2_147_483_647;
pub const EXPONENT: u64 = 4_294_967_295;

/// One thing that is timed: how often it is done in a round, and what it is. The number that it gives shows
/// that both sides have done the same.
pub struct Task {
    pub name: &'static str,
    pub times: u64,
    pub work: Box<dyn Fn(u64) -> u64>,
}

/// Sixteen keys of three digits and fifteen gates of two: no rule has a longer text, or more entries.
pub fn longest_rule() -> Vec<u8> {
    let mut items: Vec<String> = (0..16).map(|i| format!("K{}", 100 + 9 * i)).collect();
    while items.len() > 1 {
        items = items.chunks(2).map(|two| format!("any({})", two.join(","))).collect();
    }
    items.remove(0).into_bytes()
}

/// One share for each gate of the longest rule.
pub fn longest_shares(start: u64) -> Vec<u64> {
    (0..15).map(|i| (start + 1_000_003 * i * i) % ORDER).collect()
}

/// A group with the first base that there is.
pub fn largest_group(shape: Shape) -> Group {
    let (q, p) = match shape {
        Shape::Residue => RESIDUE,
        Shape::Circle => CIRCLE,
    };
    let exponent = match shape {
        Shape::Residue => (p - 1) / q,
        Shape::Circle => (p * p - 1) / q,
    };
    let second = match shape {
        Shape::Residue => 0,
        Shape::Circle => 1,
    };
    let bases = (2..p).map(|a| shape.power(p, (a, second), exponent));
    let made = bases.filter_map(|g| Group::make(shape, q, p, g, g).ok()).next();
    made.expect("every group has a base")
}

fn power_task(name: &'static str, shape: Shape) -> Task {
    let group = largest_group(shape);
    let work = move |i: u64| {
        let (a, b) = group.power(black_box(group.g), black_box(EXPONENT - i));
        a ^ b
    };
    Task { name, times: 200_000, work: Box::new(work) }
}

fn read_task() -> Task {
    let text = longest_rule();
    let work = move |_| {
        let rule = rules::read(black_box(&text)).expect("the text reads well");
        rule.entries.len() as u64
    };
    Task { name: "read the longest rule", times: 20_000, work: Box::new(work) }
}

fn split_task() -> Task {
    let rule: Rule = rules::read(&longest_rule()).expect("the text reads well");
    let scalars = Scalars::make(ORDER).expect("the order is a prime in range");
    let shares = longest_shares(5);
    let work = move |i: u64| {
        let challenges = splits::split_rule(&scalars, black_box(&rule), i, black_box(&shares));
        challenges.iter().fold(0, |sum, challenge| sum ^ challenge)
    };
    Task { name: "split a rule of 31 entries", times: 5_000, work: Box::new(work) }
}

/// In the order in which the library's tasks stand.
pub fn tasks() -> Vec<Task> {
    vec![
        power_task("power of a residue", Shape::Residue),
        power_task("power on the circle", Shape::Circle),
        read_task(),
        split_task(),
    ]
}

/// The best of several rounds, in nanoseconds for one time, and the number that a round gives.
fn time(task: &Task) -> (f64, u64) {
    let mut best = f64::INFINITY;
    let mut sum = 0;
    for _ in 0..7 {
        let start = Instant::now();
        sum = (0..task.times).fold(0, |sum: u64, i| sum.wrapping_add((task.work)(i)));
        let each = start.elapsed().as_nanos() as f64 / task.times as f64;
        best = best.min(each);
    }
    (best, sum)
}

#[cfg(not(feature = "library"))]
pub fn run() {
    println!("without the library; build with the feature `library` to have both");
    for task in tasks() {
        let (each, sum) = time(&task);
        println!("{:<28} {each:>10.1} ns   sum {sum}", task.name);
    }
}

#[cfg(feature = "library")]
pub fn run() {
    println!("{:<28} {:>10}    {:>10}    ratio", "nanoseconds each", "reference", "library");
    for (ours, theirs) in tasks().iter().zip(library::tasks()) {
        let (mine, my_sum) = time(ours);
        let (its, its_sum) = time(&theirs);
        let agree = if my_sum == its_sum { "" } else { "   RESULTS DIFFER" };
        println!("{:<28} {mine:>10.1}    {its:>10.1}    {:.2}{agree}", ours.name, its / mine);
    }
}

#[cfg(test)]
mod tests {
    use super::*;

    #[test]
    fn the_longest_rule() {
        let text = longest_rule();
        let rule = rules::read(&text).unwrap();
        assert_eq!((text.len(), rule.entries.len(), rule.leaves()), (154, 31, 16));
        assert_eq!(splits::shares(&rule), 15);
    }

    #[test]
    fn groups_of_the_largest_parameters() {
        for shape in [Shape::Residue, Shape::Circle] {
            let group = largest_group(shape);
            assert_eq!(group.power(group.g, group.q), crate::groups::NEUTRAL);
        }
    }
}

//! The library's side of the comparison, linked as a static library. Numbers are words of 32 bits; a list is
//! a pointer and a length. What is made beforehand on this program's side is made beforehand here as well:
//! nothing but the work itself stands in a call.

use super::{largest_group, longest_rule, longest_shares, Task, EXPONENT, ORDER};
use crate::groups::Shape;

extern "C" {
    /// The power of a residue modulo p.
    fn lemonbilge_power_residue(p: u32, y: u32, exponent: u32) -> u32;
    /// The power of a pair modulo p: the first word in the high half, the second in the low one.
    fn lemonbilge_power_circle(p: u32, a: u32, b: u32, exponent: u32) -> u64;
    /// Reads a rule's text, and gives the number of its entries, or 0.
    fn lemonbilge_rule_read(text: *const u8, length: usize) -> u32;
    /// Reads a rule once, splits so many challenges from 0 upwards down it, and gives the sum of the
    /// challenges that each split has, put together by exclusive or.
    fn lemonbilge_rule_split(
        text: *const u8,
        length: usize,
        q: u32,
        shares: *const u32,
        count: usize,
        times: u32,
    ) -> u64;
}

fn power_residue() -> Task {
    let group = largest_group(Shape::Residue);
    let (p, y) = (group.p as u32, group.g.0 as u32);
    let work = move |i: u64| u64::from(unsafe { lemonbilge_power_residue(p, y, (EXPONENT - i) as u32) });
    Task { name: "power of a residue", times: 200_000, work: Box::new(work) }
}

fn power_circle() -> Task {
    let group = largest_group(Shape::Circle);
    let (p, a, b) = (group.p as u32, group.g.0 as u32, group.g.1 as u32);
    let work = move |i: u64| {
        let both = unsafe { lemonbilge_power_circle(p, a, b, (EXPONENT - i) as u32) };
        (both >> 32) ^ (both & 0xFFFF_FFFF)
    };
    Task { name: "power on the circle", times: 200_000, work: Box::new(work) }
}

fn rule_read() -> Task {
    let text = longest_rule();
    let work = move |_| u64::from(unsafe { lemonbilge_rule_read(text.as_ptr(), text.len()) });
    Task { name: "read the longest rule", times: 20_000, work: Box::new(work) }
}

/// All times in the first call of a round, so that the rule is read but once.
fn rule_split() -> Task {
    let text = longest_rule();
    let shares: Vec<u32> = longest_shares(5).iter().map(|share| *share as u32).collect();
    let times = 5_000;
    let work = move |i: u64| {
        if i > 0 {
            return 0;
        }
        let q = ORDER as u32;
        unsafe {
            lemonbilge_rule_split(text.as_ptr(), text.len(), q, shares.as_ptr(), shares.len(), times as u32)
        }
    };
    Task { name: "split a rule of 31 entries", times, work: Box::new(work) }
}

pub fn tasks() -> Vec<Task> {
    vec![power_residue(), power_circle(), rule_read(), rule_split()]
}

//! Commands on groups, elements, scalars, leaf kinds and gates.

use super::{Generator, Share};
use crate::groups::{Element, Group, Shape, MODULI, NEUTRAL, ORDERS};
use crate::kinds::{Image, Set};
use crate::scalars::{is_prime, HIGHEST, LOWEST};

const ODD_NUMBERS: [u64; 18] = [
    0,
    1,
    2,
    10,
    11,
    12,
    15,
    22,
    23,
    25,
    331,
    65_536,
    166_667,
    2_147_483_646,
    2_147_483_647,
    2_147_483_648,
    4_294_967_294,
    4_294_967_295,
];

/// In range and no prime: squares, products of two primes, and one that passes Fermat's test.
const NO_PRIMES: [u64; 12] = [
    12,
    15,
    21,
    25,
    121,
    561,
    1_000_001,
    2_146_654_199,
    2_147_117_569,
    2_147_483_645,
    2_147_483_646,
    1_373_653,
];

fn words(values: &[u64]) -> String {
    let words: Vec<String> = values.iter().map(u64::to_string).collect();
    words.join(" ")
}

impl Generator {
    pub(super) fn odd_number(&mut self) -> u64 {
        match self.random.below(3) {
            0 => self.random.below(1 << 32),
            1 => self.random.below(60),
            _ => self.random.pick(&ODD_NUMBERS),
        }
    }

    fn shape(&mut self) -> Shape {
        self.random.pick(&[Shape::Residue, Shape::Circle])
    }

    // Groups.

    /// An order and a modulus that belong together, more often than not with the other group's order.
    fn fitting(&mut self, shape: Shape) -> (u64, u64) {
        let other = match shape {
            Shape::Residue => self.session.circle,
            Shape::Circle => self.session.residue,
        };
        let wanted = other.map(|group| group.q).filter(|_| self.random.percent(85));
        let all = ORDERS.iter().flat_map(|q| MODULI.iter().map(move |p| (*q, *p)));
        let fits = |(q, p): &(u64, u64)| shape.fits(*q, *p) && wanted.map_or(true, |w| w == *q);
        let all: Vec<(u64, u64)> = all.filter(fits).collect();
        self.random.pick(&all)
    }

    /// An element by raising any word to the power of the cofactor; the neutral one now and then.
    fn element_by_power(&mut self, shape: Shape, q: u64, p: u64) -> Element {
        match shape {
            Shape::Residue => {
                let any = (self.random.from_to(1, p - 1), 0);
                shape.power(p, any, (p - 1) / q)
            }
            Shape::Circle => {
                let any = (self.random.from_to(1, p - 1), self.random.below(p));
                // The square of the modulus less 1 is the order of all pairs that have an inverse.
                shape.power(p, any, (p * p - 1) / q)
            }
        }
    }

    fn base(&mut self, shape: Shape, q: u64, p: u64) -> Element {
        loop {
            let x = self.element_by_power(shape, q, p);
            if x != NEUTRAL {
                return x;
            }
        }
    }

    fn no_base(&mut self, shape: Shape, x: Element, p: u64) -> Element {
        // A fault before this one may have made the modulus too small.
        let p = p.max(2);
        match self.random.below(8) {
            0 => NEUTRAL,
            1 => (0, 0),
            2 => (p - 1, 0),
            3 => (x.0 + p, x.1),
            4 if shape == Shape::Circle => (x.0, x.1 + p),
            5 => (p, x.1),
            6 => (self.random.below(p), if shape == Shape::Circle { self.random.below(p) } else { 0 }),
            _ => (self.odd_number(), x.1),
        }
    }

    pub(super) fn group(&mut self) {
        let shape = self.shape();
        let (mut q, mut p) = self.fitting(shape);
        let mut g = self.base(shape, q, p);
        let mut h = self.base(shape, q, p);
        match self.share() {
            Share::Valid => {}
            Share::Edge => h = self.random.pick(&[g, shape.multiply(p, g, g), shape.power(p, g, q - 1)]),
            Share::Damaged => {
                let faults = if self.random.percent(20) { 2 } else { 1 };
                for _ in 0..faults {
                    self.damage_group(shape, &mut q, &mut p, &mut g, &mut h);
                }
            }
        }
        let bases = match shape {
            Shape::Residue => words(&[g.0, h.0]),
            Shape::Circle => words(&[g.0, g.1, h.0, h.1]),
        };
        self.command(&format!("group {} {q} {p} {bases}", shape.name()));
    }

    /// Both groups anew, so that the supplied set stands on them.
    pub(super) fn groups_of_one_order(&mut self) {
        let (q, p) = self.fitting(Shape::Residue);
        let (g, h) = (self.base(Shape::Residue, q, p), self.base(Shape::Residue, q, p));
        self.plain(format!("group residue {q} {p} {} {}", g.0, h.0));
        let moduli = MODULI.iter().filter(|p| Shape::Circle.fits(q, **p)).copied();
        let moduli: Vec<u64> = moduli.collect();
        let p = self.random.pick(&moduli);
        let (g, h) = (self.base(Shape::Circle, q, p), self.base(Shape::Circle, q, p));
        self.plain(format!("group circle {q} {p} {}", words(&[g.0, g.1, h.0, h.1])));
    }

    fn damage_group(&mut self, shape: Shape, q: &mut u64, p: &mut u64, g: &mut Element, h: &mut Element) {
        let outside = [0, 1, 10, HIGHEST + 1, 4_294_967_295];
        match self.random.below(8) {
            0 => *q = self.random.pick(&outside),
            1 => *p = self.random.pick(&outside),
            2 => *q = self.random.pick(&[12, 15, 17, 23, 330, 332, 166_666, HIGHEST]),
            3 => *p = self.random.pick(&[11, 19, 22, 24, 47, 67, 89, 1_000_004, 2_147_483_646]),
            4 => *q = self.random.pick(&ORDERS),
            5 => *p = self.random.pick(&MODULI),
            6 => *g = self.no_base(shape, *g, *p),
            _ => *h = self.no_base(shape, *h, *p),
        }
    }

    // Elements.

    fn element_of(&mut self, group: &Group) -> Element {
        let exponent = self.random.below(group.q);
        group.power(group.g, exponent)
    }

    /// Two words for an element of the group of this shape: any words where there is none.
    fn two_words(&mut self, shape: Shape, share: Share) -> Element {
        let Some(group) = self.session.group(shape) else {
            return (self.odd_number(), self.odd_number());
        };
        let x = self.element_of(&group);
        match share {
            Share::Valid => x,
            Share::Edge => self.random.pick(&[NEUTRAL, group.g, group.h, x]),
            Share::Damaged => self.no_element(&group, x),
        }
    }

    fn no_element(&mut self, group: &Group, x: Element) -> Element {
        let p = group.p;
        match self.random.below(9) {
            0 => (0, 0),
            1 => (x.0 + p, x.1),
            2 => (x.0, x.1 + p),
            3 => (x.0, x.1 + 1),
            4 => (p - x.0, x.1),
            5 => (p - 1, 0),
            6 => (p, 0),
            7 => (self.random.below(p), self.random.below(p)),
            _ => (self.odd_number(), self.odd_number()),
        }
    }

    pub(super) fn element(&mut self) {
        let shape = self.shape();
        let share = self.share();
        let (a, b) = self.two_words(shape, share);
        self.command(&format!("element {} {a} {b}", shape.name()));
    }

    pub(super) fn multiply(&mut self) {
        let shape = self.shape();
        let share = self.share();
        let (mut x, mut y) = (self.two_words(shape, Share::Valid), self.two_words(shape, Share::Valid));
        match self.random.below(3) {
            0 => x = self.two_words(shape, share),
            1 => y = self.two_words(shape, share),
            _ => (x, y) = (self.two_words(shape, share), self.two_words(shape, share)),
        }
        self.command(&format!("multiply {} {}", shape.name(), words(&[x.0, x.1, y.0, y.1])));
    }

    fn exponent(&mut self, q: u64) -> u64 {
        let many = 4_294_967_295 / q * q;
        let edges = [0, 1, 2, q - 1, q, q + 1, 2 * q, many, 2_147_483_648, 4_294_967_295];
        match self.random.below(3) {
            0 => self.random.below(1 << 32),
            1 => self.random.below(q),
            _ => self.random.pick(&edges),
        }
    }

    pub(super) fn power(&mut self) {
        let shape = self.shape();
        let share = self.share();
        let (a, b) = self.two_words(shape, share);
        let q = self.session.group(shape).map_or(11, |group| group.q);
        let exponent = self.exponent(q);
        self.command(&format!("power {} {a} {b} {exponent}", shape.name()));
    }

    // Scalars.

    fn prime(&mut self) -> u64 {
        let top = self.random.pick(&[100, 10_000, 1_000_000, HIGHEST]);
        loop {
            let number = self.random.from_to(LOWEST, top);
            if is_prime(number) {
                return number;
            }
        }
    }

    /// An order for scalars, and whether it is one.
    fn order(&mut self, share: Share) -> u64 {
        match share {
            Share::Damaged if self.random.percent(40) => match self.random.below(3) {
                0 => self.random.pick(&[0, 1, 7, 10, HIGHEST + 1, 4_294_967_291, 4_294_967_295]),
                1 => self.random.pick(&NO_PRIMES),
                _ => self.odd_number(),
            },
            Share::Edge => self.random.pick(&[11, 13, HIGHEST, 2_147_483_629]),
            _ if self.random.percent(50) => self.random.pick(&ORDERS),
            _ => self.prime(),
        }
    }

    fn scalar_below(&mut self, q: u64, share: Share) -> u64 {
        let q = q.max(1);
        match share {
            Share::Edge => self.random.pick(&[0, 1, q / 2, q - 1]),
            Share::Damaged if self.random.percent(25) => {
                self.random.pick(&[q, (q + 1) % (1 << 32), 4_294_967_295])
            }
            _ => self.random.below(q),
        }
    }

    fn scalars_below(&mut self, q: u64, share: Share, count: usize) -> Vec<u64> {
        (0..count).map(|_| self.scalar_below(q, share)).collect()
    }

    pub(super) fn scalar(&mut self) {
        let share = self.share();
        let q = self.order(share);
        let a = self.scalar_below(q, share);
        let b = self.scalar_below(q, share);
        let command = self.random.pick(&["add", "multiply", "divide"]);
        self.command(&format!("scalar {command} {q} {a} {b}"));
    }

    // Leaf kinds.

    pub(super) fn set(&self) -> Option<Set> {
        Set::supplied(self.session.residue?, self.session.circle?).ok()
    }

    pub(super) fn image(&mut self, kind: u64, share: Share) -> Image {
        let any = [self.odd_number(), self.odd_number(), self.odd_number(), self.odd_number()];
        let Some(set) = self.set() else {
            return any;
        };
        let u = self.random.below(set.q);
        let v = if set.width(kind) == 2 { self.random.below(set.q) } else { 0 };
        let mut image = set.image_of_key(kind, u, v);
        match share {
            Share::Valid => {}
            Share::Edge => image = set.neutral(kind),
            Share::Damaged => {
                let at = self.random.index(4);
                match self.random.below(4) {
                    0 => image = any,
                    1 => image[at] += 1,
                    2 => image[at] = self.odd_number(),
                    _ => image.swap(at, self.random.index(4)),
                }
            }
        }
        image
    }

    pub(super) fn kind_number(&mut self) -> u64 {
        match self.random.below(12) {
            0 => 0,
            1 => 7,
            2 => self.random.pick(&[8, 9, 254, 255, 255, 256]),
            _ => self.random.from_to(1, 6),
        }
    }

    pub(super) fn kind(&mut self) {
        let kind = self.kind_number();
        let share = self.share();
        let q = self.set().map_or(11, |set| set.q);
        let line = match self.random.below(12) {
            0 => "kind set".to_string(),
            1..=3 => format!("kind test {kind} {}", words(&self.image(kind, share))),
            4..=6 => {
                let x = self.image(kind, Share::Valid);
                let y = self.image(kind, share);
                let (x, y) = if self.random.percent(50) { (x, y) } else { (y, x) };
                format!("kind multiply {kind} {} {}", words(&x), words(&y))
            }
            7 => format!("kind neutral {kind}"),
            8..=9 => {
                let pair = self.scalars_below(q, share, 2);
                let v = if self.random.percent(40) { 0 } else { pair[1] };
                format!("kind key {kind} {} {v}", pair[0])
            }
            _ => {
                let image = self.image(kind, share);
                format!("kind power {kind} {} {}", words(&image), self.exponent(q))
            }
        };
        self.command(&line);
    }

    // Gates.

    /// A number of children and a threshold: both in range, or the one or the other just outside.
    fn gate_size(&mut self, share: Share) -> (u64, u64) {
        let count = self.random.from_to(1, 8);
        let threshold = self.random.from_to(1, count);
        match (share, self.random.below(12)) {
            (Share::Damaged, 0) => (0, 0),
            (Share::Damaged, 1) => (9, threshold),
            (Share::Damaged, 2) => (count, 0),
            (Share::Damaged, 3) => (count, count + 1),
            (Share::Edge, 0..=3) => (count, count),
            (Share::Edge, 4..=7) => (count, 1),
            (Share::Edge, _) => (8, self.random.from_to(1, 8)),
            _ => (count, threshold),
        }
    }

    pub(super) fn gate_split(&mut self) {
        let share = self.share();
        let q = self.order(share);
        let (count, threshold) = self.gate_size(share);
        let known = count.saturating_sub(threshold) as usize;
        let values = self.scalars_below(q, share, known + 1);
        self.command(&format!("gate split {q} {count} {threshold} {}", words(&values)));
    }

    pub(super) fn gate_complete(&mut self) {
        let share = self.share();
        let q = self.order(share);
        let (count, _) = self.gate_size(share);
        let own = self.scalar_below(q, share);
        let mut line = format!("gate complete {q} {own}");
        let spared = self.random.below(count.max(1));
        let spare = !(share == Share::Damaged && self.random.percent(20));
        let known_share = self.random.pick(&[0, 20, 50, 80, 100]);
        for j in 0..count {
            if (spare && j == spared) || !self.random.percent(known_share) {
                line.push_str(" -");
            } else {
                line.push_str(&format!(" {}", self.scalar_below(q, share)));
            }
        }
        self.command(&line);
    }

    /// A gate that balances in half of the cases, with the values of a polynomial of small degree.
    pub(super) fn gate_check(&mut self) {
        let share = self.share();
        let q = self.order(share);
        let (count, threshold) = self.gate_size(share);
        let degree = count.saturating_sub(threshold);
        let degree = self.random.pick(&[degree, degree, degree, degree + 1]);
        let coefficients = self.scalars_below(q.max(1), Share::Valid, degree as usize + 1);
        let value = |x: u64| coefficients.iter().rev().fold(0, |sum, c| (sum * x + c) % q.max(1));
        let mut values: Vec<u64> = (0..=count).map(value).collect();
        if self.random.percent(30) {
            let at = self.random.index(values.len());
            values[at] = self.scalar_below(q, share);
        }
        self.command(&format!("gate check {q} {threshold} {}", words(&values)));
    }
}

impl Generator {
    /// An order, a challenge and this many shares.
    pub(super) fn scalars_for_split(&mut self, share: Share, count: usize) -> String {
        let q = self.order(share);
        // Of many shares one that is no scalar is as telling as several.
        let each = if share == Share::Damaged && count > 2 { Share::Valid } else { share };
        let mut values = vec![q];
        values.extend(self.scalars_below(q, each, count + 1));
        if share == Share::Damaged && self.random.percent(25) {
            let at = 1 + self.random.index(count + 1);
            values[at] = self.random.pick(&[q, 4_294_967_295]);
        }
        words(&values)
    }

    pub(super) fn line_of_ring(&mut self, number: u64, kind: u64, image: Image) -> String {
        format!("ring line {number} {kind} {}", words(&image))
    }
}

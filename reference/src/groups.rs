//! The two shapes of group: residues modulo p, and the circle modulo p.

use crate::refusal::{refuse, Refusal};
use crate::scalars::{in_range, power_modulo};

pub const ORDERS: [u64; 4] = [11, 13, 331, 166_667];
pub const MODULI: [u64; 8] = [23, 43, 53, 103, 2_647, 1_000_003, 2_000_003, 2_147_483_647];

#[derive(Clone, Copy, Debug, PartialEq, Eq)]
pub enum Shape {
    Residue,
    Circle,
}

impl Shape {
    pub fn name(self) -> &'static str {
        match self {
            Shape::Residue => "residue",
            Shape::Circle => "circle",
        }
    }

    /// Whether q and p belong together.
    pub fn fits(self, q: u64, p: u64) -> bool {
        match self {
            Shape::Residue => (p - 1) % q == 0,
            Shape::Circle => p % 4 == 3 && (p + 1) % q == 0,
        }
    }

    pub fn multiply(self, p: u64, x: Element, y: Element) -> Element {
        let (a, b) = x;
        let (c, d) = y;
        match self {
            Shape::Residue => (a * c % p, 0),
            Shape::Circle => ((a * c % p + p - b * d % p) % p, (a * d % p + b * c % p) % p),
        }
    }

    pub fn power(self, p: u64, x: Element, exponent: u64) -> Element {
        match self {
            Shape::Residue => (power_modulo(x.0, exponent, p), 0),
            Shape::Circle => circle_power(p, x, exponent),
        }
    }
}

fn circle_power(p: u64, x: Element, exponent: u64) -> Element {
    let mut result = NEUTRAL;
    let mut square = x;
    let mut rest = exponent;
    while rest > 0 {
        if rest % 2 == 1 {
            result = Shape::Circle.multiply(p, result, square);
        }
        square = Shape::Circle.multiply(p, square, square);
        rest /= 2;
    }
    result
}

/// The two words of an element.
pub type Element = (u64, u64);

/// Written alike in both groups.
pub const NEUTRAL: Element = (1, 0);

#[derive(Clone, Copy, Debug, PartialEq, Eq)]
pub struct Group {
    pub shape: Shape,
    pub q: u64,
    pub p: u64,
    pub g: Element,
    pub h: Element,
}

impl Group {
    pub fn make(shape: Shape, q: u64, p: u64, g: Element, h: Element) -> Result<Group, Refusal> {
        if !in_range(q) {
            return refuse(1, 1);
        }
        if !in_range(p) {
            return refuse(1, 2);
        }
        if !ORDERS.contains(&q) {
            return refuse(2, 1);
        }
        if !MODULI.contains(&p) {
            return refuse(2, 2);
        }
        if !shape.fits(q, p) {
            return refuse(3, 2);
        }
        let group = Group { shape, q, p, g, h };
        if !group.can_be_base(g) {
            return refuse(4, 3);
        }
        if !group.can_be_base(h) {
            return refuse(4, 4);
        }
        Ok(group)
    }

    fn can_be_base(&self, x: Element) -> bool {
        self.has(x) && x != NEUTRAL
    }

    pub fn has(&self, x: Element) -> bool {
        let written = match self.shape {
            Shape::Residue => 1 <= x.0 && x.0 < self.p && x.1 == 0,
            Shape::Circle => x.0 < self.p && x.1 < self.p,
        };
        written && self.power(x, self.q) == NEUTRAL
    }

    pub fn multiply(&self, x: Element, y: Element) -> Element {
        self.shape.multiply(self.p, x, y)
    }

    pub fn power(&self, x: Element, exponent: u64) -> Element {
        self.shape.power(self.p, x, exponent)
    }
}

#[cfg(test)]
mod tests {
    use super::*;

    fn refused(made: Result<Group, Refusal>) -> (u32, usize) {
        let refusal = made.unwrap_err();
        (refusal.number, refusal.place)
    }

    fn residue(q: u64, p: u64, g: u64, h: u64) -> Result<Group, Refusal> {
        Group::make(Shape::Residue, q, p, (g, 0), (h, 0))
    }

    fn circle(q: u64, p: u64, g: Element, h: Element) -> Result<Group, Refusal> {
        Group::make(Shape::Circle, q, p, g, h)
    }

    #[test]
    fn hand_worked_powers() {
        let residues = residue(11, 23, 4, 9).unwrap();
        assert_eq!(residues.power((4, 0), 5), (12, 0));
        let pairs = circle(11, 43, (2, 13), (26, 23)).unwrap();
        assert_eq!(pairs.power((2, 13), 4), (11, 40));
    }

    #[test]
    fn powers_are_repeated_products() {
        let groups = [residue(11, 23, 4, 9).unwrap(), circle(11, 43, (2, 13), (26, 23)).unwrap()];
        for group in groups {
            let mut product = NEUTRAL;
            for exponent in 0..50 {
                assert_eq!(group.power(group.g, exponent), product);
                product = group.multiply(product, group.g);
            }
        }
    }

    #[test]
    fn a_group_has_as_many_elements_as_its_order() {
        let residues = residue(11, 23, 4, 9).unwrap();
        let few = (0..60).flat_map(|a| (0..3).map(move |b| (a, b)));
        assert_eq!(few.filter(|x| residues.has(*x)).count(), 11);
        let pairs = circle(11, 43, (2, 13), (26, 23)).unwrap();
        let all = (0..100).flat_map(|a| (0..100).map(move |b| (a, b)));
        assert_eq!(all.filter(|x| pairs.has(*x)).count(), 11);
    }

    #[test]
    fn makers_refuse_in_order() {
        assert_eq!(refused(residue(10, 0, 0, 0)), (1, 1));
        assert_eq!(refused(residue(15, 10, 0, 0)), (1, 2));
        assert_eq!(refused(residue(15, 25, 0, 0)), (2, 1));
        assert_eq!(refused(residue(11, 25, 0, 0)), (2, 2));
        assert_eq!(refused(residue(13, 23, 4, 9)), (3, 2));
        for bad in [0, 1, 5, 22, 23, 27] {
            assert_eq!(refused(residue(11, 23, bad, 1)), (4, 3));
            assert_eq!(refused(residue(11, 23, 4, bad)), (4, 4));
        }
        assert_eq!(refused(circle(11, 23, (2, 13), (2, 13))), (3, 2));
        assert_eq!(refused(circle(11, 53, (2, 13), (2, 13))), (3, 2));
        assert_eq!(refused(circle(11, 43, (2, 56), (2, 13))), (4, 3));
        assert_eq!(refused(circle(11, 43, (2, 13), (1, 0))), (4, 4));
        assert!(circle(11, 43, (2, 13), (2, 13)).is_ok());
    }

    #[test]
    fn orders_and_moduli_that_belong_together() {
        let pairs = |shape: Shape| -> Vec<(u64, u64)> {
            let all = ORDERS.iter().flat_map(|q| MODULI.iter().map(move |p| (*q, *p)));
            all.filter(|(q, p)| shape.fits(*q, *p)).collect()
        };
        let last = 2_147_483_647;
        let residues = [(11, 23), (11, last), (13, 53), (331, last), (166_667, 1_000_003)];
        assert_eq!(pairs(Shape::Residue), residues);
        let circles = [(11, 43), (13, 103), (331, 2_647), (166_667, 2_000_003)];
        assert_eq!(pairs(Shape::Circle), circles);
    }
}

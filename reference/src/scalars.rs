//! Scalars: numbers modulo a prime order q.

use crate::refusal::{refuse, Refusal};

pub const LOWEST: u64 = 11;
pub const HIGHEST: u64 = 2_147_483_647;

pub fn in_range(number: u64) -> bool {
    (LOWEST..=HIGHEST).contains(&number)
}

/// Trial division: numbers in range have at most 46,340 candidates.
pub fn is_prime(number: u64) -> bool {
    if number < 2 {
        return false;
    }
    let mut divisor = 2;
    while divisor * divisor <= number {
        if number % divisor == 0 {
            return false;
        }
        divisor += 1;
    }
    true
}

/// The base multiplied by itself, modulo anything below 2^32.
pub fn power_modulo(base: u64, exponent: u64, modulus: u64) -> u64 {
    let mut result = 1 % modulus;
    let mut square = base % modulus;
    let mut rest = exponent;
    while rest > 0 {
        if rest % 2 == 1 {
            result = result * square % modulus;
        }
        square = square * square % modulus;
        rest /= 2;
    }
    result
}

#[derive(Clone, Copy, Debug, PartialEq, Eq)]
pub struct Scalars {
    q: u64,
}

impl Scalars {
    pub fn make(q: u64) -> Result<Scalars, Refusal> {
        if !in_range(q) {
            return refuse(1, 1);
        }
        if !is_prime(q) {
            return refuse(2, 1);
        }
        Ok(Scalars { q })
    }

    /// Of an order that is known to be a prime in range, as a group's is.
    pub fn of_order(q: u64) -> Scalars {
        Scalars { q }
    }

    pub fn order(&self) -> u64 {
        self.q
    }

    pub fn has(&self, number: u64) -> bool {
        number < self.q
    }

    pub fn add(&self, a: u64, b: u64) -> u64 {
        (a + b) % self.q
    }

    pub fn subtract(&self, a: u64, b: u64) -> u64 {
        (a + self.q - b) % self.q
    }

    pub fn multiply(&self, a: u64, b: u64) -> u64 {
        a * b % self.q
    }

    /// By Fermat: b to the power q - 2 times b is b to the power q - 1, which is 1.
    pub fn inverse(&self, b: u64) -> u64 {
        power_modulo(b, self.q - 2, self.q)
    }

    pub fn divide(&self, a: u64, b: u64) -> u64 {
        self.multiply(a, self.inverse(b))
    }
}

#[cfg(test)]
mod tests {
    use super::*;
    use crate::refusal::Refusal;

    fn refused(q: u64) -> Option<(u32, usize)> {
        Scalars::make(q).err().map(|Refusal { number, place }| (number, place))
    }

    #[test]
    fn orders_are_primes_in_range() {
        assert_eq!(refused(10), Some((1, 1)));
        assert_eq!(refused(11), None);
        assert_eq!(refused(15), Some((2, 1)));
        assert_eq!(refused(2_147_483_647), None);
        assert_eq!(refused(2_147_483_648), Some((1, 1)));
        assert_eq!(refused(46_337 * 46_337), Some((2, 1)));
    }

    #[test]
    fn quotients_undo_products() {
        for q in [11, 13, 331] {
            let scalars = Scalars::make(q).unwrap();
            for a in 0..q {
                for b in 1..q {
                    let quotient = scalars.divide(a, b);
                    assert!(quotient < q);
                    assert_eq!(scalars.multiply(quotient, b), a);
                }
            }
        }
    }

    #[test]
    fn the_largest_order_does_not_overflow() {
        let scalars = Scalars::make(HIGHEST).unwrap();
        let last = HIGHEST - 1;
        assert_eq!(scalars.add(last, last), HIGHEST - 2);
        assert_eq!(scalars.multiply(last, last), 1);
        assert_eq!(scalars.divide(1, last), last);
        assert_eq!(scalars.subtract(0, 1), last);
    }
}

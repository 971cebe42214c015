//! Rings: reading them over a set of leaf kinds, and pairing a rule with one.

use crate::kinds::{Image, Set};
use crate::refusal::{refuse, Refusal};
use crate::rules::Rule;

pub const LINE: usize = 18;
pub const MOST_LINES: usize = 16;

#[derive(Clone, Debug, PartialEq, Eq)]
pub struct Line {
    pub number: u64,
    pub kind: u64,
    pub image: Image,
}

/// The eighteen bytes of a line; the words are below 2^32.
pub fn line_bytes(number: u8, kind: u8, image: Image) -> Vec<u8> {
    let mut bytes = vec![number, kind];
    for word in image {
        bytes.extend((word as u32).to_be_bytes());
    }
    bytes
}

fn line_of(bytes: &[u8]) -> Line {
    let word = |i: usize| -> u64 {
        let at = 2 + 4 * i;
        bytes[at..at + 4].iter().fold(0, |sum, byte| sum * 256 + u64::from(*byte))
    };
    let image = [word(0), word(1), word(2), word(3)];
    Line { number: u64::from(bytes[0]), kind: u64::from(bytes[1]), image }
}

pub fn read(bytes: &[u8], set: &Set) -> Result<Vec<Line>, Refusal> {
    let whole = bytes.len() % LINE == 0;
    let count = bytes.len() / LINE;
    if !whole || !(1..=MOST_LINES).contains(&count) {
        return refuse(11, 0);
    }
    let lines: Vec<Line> = bytes.chunks(LINE).map(line_of).collect();
    let mut before = 0;
    for (place, line) in lines.iter().enumerate() {
        if line.number <= before {
            return refuse(12, place);
        }
        if !set.has_image(line.kind, line.image) {
            return refuse(13, place);
        }
        before = line.number;
    }
    Ok(lines)
}

/// For each leaf, in the order of the table, the line with its number.
pub fn pair<'a>(rule: &Rule, lines: &'a [Line]) -> Result<Vec<&'a Line>, Refusal> {
    let mut paired = Vec::new();
    for (key, byte) in rule.keys() {
        match lines.iter().find(|line| line.number == key) {
            Some(line) => paired.push(line),
            None => return refuse(10, byte),
        }
    }
    Ok(paired)
}

#[cfg(test)]
mod tests {
    use super::*;
    use crate::groups::{Group, Shape};
    use crate::rules;

    fn set() -> Set {
        let residue = Group::make(Shape::Residue, 11, 23, (4, 0), (9, 0)).unwrap();
        let circle = Group::make(Shape::Circle, 11, 43, (2, 13), (26, 23)).unwrap();
        Set::supplied(residue, circle).unwrap()
    }

    fn ring(lines: &[(u8, u8, Image)]) -> Vec<u8> {
        lines.iter().flat_map(|(number, kind, image)| line_bytes(*number, *kind, *image)).collect()
    }

    fn fault(bytes: &[u8]) -> Option<(u32, usize)> {
        read(bytes, &set()).err().map(|refusal| (refusal.number, refusal.place))
    }

    const TWIN: Image = [12, 0, 8, 0];
    const PAIR: Image = [11, 3, 0, 0];

    #[test]
    fn lengths() {
        let many: Vec<(u8, u8, Image)> = (1..=17).map(|number| (number, 2, TWIN)).collect();
        assert_eq!(fault(&[]), Some((11, 0)));
        assert_eq!(fault(&ring(&many)), Some((11, 0)));
        assert_eq!(fault(&ring(&many[..16])), None);
        assert_eq!(fault(&ring(&many)[..289]), Some((11, 0)));
        assert_eq!(fault(&ring(&many)[..17]), Some((11, 0)));
    }

    #[test]
    fn lines_in_order() {
        assert_eq!(fault(&ring(&[(0, 9, TWIN)])), Some((12, 0)));
        assert_eq!(fault(&ring(&[(1, 9, TWIN)])), Some((13, 0)));
        assert_eq!(fault(&ring(&[(1, 2, TWIN), (1, 2, TWIN)])), Some((12, 1)));
        assert_eq!(fault(&ring(&[(1, 1, TWIN), (1, 2, TWIN)])), Some((13, 0)));
        assert_eq!(fault(&ring(&[(1, 2, TWIN), (255, 6, PAIR)])), None);
    }

    #[test]
    fn words_have_the_high_byte_first() {
        assert_eq!(line_bytes(7, 3, [0x0102_0304, 0, 0, 5])[..6], [7, 3, 1, 2, 3, 4]);
        let lines = read(&ring(&[(7, 2, TWIN)]), &set()).unwrap();
        assert_eq!(lines, [Line { number: 7, kind: 2, image: TWIN }]);
    }

    #[test]
    fn pairing() {
        let lines = read(&ring(&[(2, 2, TWIN), (5, 6, PAIR)]), &set()).unwrap();
        let paired = |text: &str| {
            let rule = rules::read(text.as_bytes()).unwrap();
            let places = pair(&rule, &lines);
            places.map(|all| all.iter().map(|line| line.number).collect::<Vec<_>>())
        };
        assert_eq!(paired("any(K5,K2,K5)").unwrap(), [5, 2, 5]);
        assert_eq!(paired("any(K5,K3,K4)").unwrap_err(), Refusal { number: 10, place: 7 });
    }
}

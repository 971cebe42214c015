//! Rule texts: a reader that goes down into a gate by calling itself, and a writer.

use crate::refusal::{refuse, Refusal};

pub const LONGEST_TEXT: usize = 240;
pub const MOST_KEYS: usize = 16;
pub const DEEPEST: usize = 8;
pub const MOST_ITEMS: usize = 8;

#[derive(Clone, Debug, PartialEq, Eq)]
pub enum Entry {
    Leaf { key: u64, byte: usize },
    Gate { threshold: usize, children: Vec<usize> },
}

/// The items of a rule, in the order in which they begin in the text.
#[derive(Clone, Debug, PartialEq, Eq)]
pub struct Rule {
    pub entries: Vec<Entry>,
}

/// The three ways to begin a gate.
#[derive(Clone, Copy, PartialEq, Eq)]
enum Opening {
    All,
    Any,
    Digit(usize),
}

struct Reader<'a> {
    text: &'a [u8],
    at: usize,
    keys: usize,
    entries: Vec<Entry>,
}

impl Reader<'_> {
    fn next(&self) -> Option<u8> {
        self.text.get(self.at).copied()
    }

    fn next_is_digit(&self) -> bool {
        self.next().is_some_and(|byte| byte.is_ascii_digit())
    }

    fn fault<T>(&self, number: u32) -> Result<T, Refusal> {
        refuse(number, self.at)
    }

    fn take(&mut self, word: &str) -> Result<(), Refusal> {
        for byte in word.bytes() {
            if self.next() != Some(byte) {
                return self.fault(7);
            }
            self.at += 1;
        }
        Ok(())
    }

    /// Reads one item, and gives its position in the table.
    fn item(&mut self, depth: usize) -> Result<usize, Refusal> {
        let first = match self.next() {
            Some(byte) if byte == b'K' || byte == b'a' || byte.is_ascii_digit() => byte,
            _ => return self.fault(7),
        };
        if depth > DEEPEST {
            return self.fault(9);
        }
        if first == b'K' {
            return self.key();
        }
        let opening = self.opening(first)?;
        self.gate(opening, depth)
    }

    fn key(&mut self) -> Result<usize, Refusal> {
        if self.keys == MOST_KEYS {
            return self.fault(9);
        }
        self.keys += 1;
        let byte = self.at;
        self.at += 1;
        if !self.next_is_digit() {
            return self.fault(7);
        }
        let start = self.at;
        while self.next_is_digit() {
            self.at += 1;
        }
        let Some(key) = key_number(&self.text[start..self.at]) else {
            return refuse(8, start);
        };
        self.entries.push(Entry::Leaf { key, byte });
        Ok(self.entries.len() - 1)
    }

    fn opening(&mut self, first: u8) -> Result<Opening, Refusal> {
        if first != b'a' {
            if !(b'2'..=b'7').contains(&first) {
                return self.fault(8);
            }
            self.at += 1;
            self.take("of(")?;
            return Ok(Opening::Digit(usize::from(first - b'0')));
        }
        self.at += 1;
        if self.next() == Some(b'l') {
            self.take("ll(")?;
            return Ok(Opening::All);
        }
        self.take("ny(")?;
        Ok(Opening::Any)
    }

    /// Reads a gate's items and its closing bracket.
    fn gate(&mut self, opening: Opening, depth: usize) -> Result<usize, Refusal> {
        let position = self.entries.len();
        self.entries.push(Entry::Gate { threshold: 0, children: Vec::new() });
        let mut children = vec![self.item(depth + 1)?];
        loop {
            match self.next() {
                Some(b',') if children.len() == MOST_ITEMS => return self.fault(9),
                Some(b',') => {
                    self.at += 1;
                    children.push(self.item(depth + 1)?);
                }
                Some(b')') => break,
                _ => return self.fault(7),
            }
        }
        let Some(threshold) = threshold(opening, children.len()) else {
            return self.fault(9);
        };
        self.at += 1;
        self.entries[position] = Entry::Gate { threshold, children };
        Ok(position)
    }
}

/// The number that a run of digits stands for, where it is a key's.
fn key_number(digits: &[u8]) -> Option<u64> {
    if digits[0] == b'0' || digits.len() > 3 {
        return None;
    }
    let number = digits.iter().fold(0, |sum, digit| sum * 10 + u64::from(digit - b'0'));
    (1..=255).contains(&number).then_some(number)
}

/// A gate's threshold, where it can have this many items.
fn threshold(opening: Opening, items: usize) -> Option<usize> {
    match opening {
        _ if items < 2 => None,
        Opening::All => Some(items),
        Opening::Any => Some(1),
        Opening::Digit(digit) => (digit < items).then_some(digit),
    }
}

pub fn read(text: &[u8]) -> Result<Rule, Refusal> {
    if text.is_empty() || text.len() > LONGEST_TEXT {
        return refuse(6, 0);
    }
    let mut reader = Reader { text, at: 0, keys: 0, entries: Vec::new() };
    reader.item(1)?;
    if reader.at < text.len() {
        return reader.fault(7);
    }
    Ok(Rule { entries: reader.entries })
}

impl Rule {
    pub fn leaves(&self) -> usize {
        self.keys().count()
    }

    /// The leaves' keys and the bytes of their `K`, in the order of the table.
    pub fn keys(&self) -> impl Iterator<Item = (u64, usize)> + '_ {
        self.entries.iter().filter_map(|entry| match entry {
            Entry::Leaf { key, byte } => Some((*key, *byte)),
            Entry::Gate { .. } => None,
        })
    }

    pub fn text(&self) -> String {
        self.text_of(0)
    }

    fn text_of(&self, position: usize) -> String {
        match &self.entries[position] {
            Entry::Leaf { key, .. } => format!("K{key}"),
            Entry::Gate { threshold, children } => {
                let items: Vec<String> = children.iter().map(|child| self.text_of(*child)).collect();
                let opening = match *threshold {
                    1 => "any".to_string(),
                    all if all == children.len() => "all".to_string(),
                    digit => format!("{digit}of"),
                };
                format!("{opening}({})", items.join(","))
            }
        }
    }

    /// Writes the text into an output of exactly its length.
    pub fn write(&self, output: &mut [u8]) -> Result<(), Refusal> {
        let text = self.text();
        if output.len() != text.len() {
            return refuse(21, 0);
        }
        output.copy_from_slice(text.as_bytes());
        Ok(())
    }

    /// The tree, one line an entry, each two spaces further in than its gate.
    pub fn tree(&self) -> Vec<String> {
        let mut lines = Vec::new();
        self.tree_of(0, 0, &mut lines);
        lines
    }

    fn tree_of(&self, position: usize, indent: usize, lines: &mut Vec<String>) {
        let space = " ".repeat(indent);
        match &self.entries[position] {
            Entry::Leaf { key, .. } => lines.push(format!("{space}{position} K{key}")),
            Entry::Gate { threshold, children } => {
                let places: String = children.iter().map(|child| format!(" {child}")).collect();
                lines.push(format!("{space}{position} {threshold} of {}:{places}", children.len()));
                for child in children {
                    self.tree_of(*child, indent + 2, lines);
                }
            }
        }
    }
}

#[cfg(test)]
mod tests {
    use super::*;

    fn fault(text: &str) -> Option<(u32, usize)> {
        read(text.as_bytes()).err().map(|refusal| (refusal.number, refusal.place))
    }

    #[test]
    fn hand_worked_faults() {
        assert_eq!(fault("K255"), None);
        assert_eq!(fault("K256"), Some((8, 1)));
        assert_eq!(fault("K01"), Some((8, 1)));
        assert_eq!(fault("all(K1)"), Some((9, 6)));
        assert_eq!(fault("any(K1 ,K2)"), Some((7, 6)));
        assert_eq!(fault(""), Some((6, 0)));
        assert_eq!(fault(&"K".repeat(241)), Some((6, 0)));
        assert_eq!(fault(&"K".repeat(240)), Some((7, 1)));
        assert_eq!(fault("K"), Some((7, 1)));
        assert_eq!(fault("K1,"), Some((7, 2)));
        assert_eq!(fault("K1 "), Some((7, 2)));
        assert_eq!(fault("b"), Some((7, 0)));
        assert_eq!(fault("alx(K1,K2)"), Some((7, 2)));
        assert_eq!(fault("axl(K1,K2)"), Some((7, 1)));
        assert_eq!(fault("1of(K1,K2)"), Some((8, 0)));
        assert_eq!(fault("8"), Some((8, 0)));
        assert_eq!(fault("2of(K1,K2)"), Some((9, 9)));
        assert_eq!(fault("2of(K1,K2,K3)"), None);
        assert_eq!(fault("any(K1,K2,K3,K4,K5,K6,K7,K8)"), None);
        assert_eq!(fault("any(K1,K2,K3,K4,K5,K6,K7,K8,"), Some((9, 27)));
        assert_eq!(fault("any(K1,K2"), Some((7, 9)));
        assert_eq!(fault("any(K1,K0)"), Some((8, 8)));
    }

    #[test]
    fn the_ninth_depth() {
        let eight = format!("{}K1{}", "all(K1,".repeat(7), ")".repeat(7));
        assert_eq!(fault(&eight), None);
        let nine = format!("{}K1{}", "all(K1,".repeat(8), ")".repeat(8));
        assert_eq!(fault(&nine), Some((9, 7 * 7 + 4)));
        let digit = format!("{}9", "all(K1,all(".repeat(1) + &"all(".repeat(6));
        assert_eq!(fault(&digit), Some((9, digit.len() - 1)));
        let other = format!("{}x", "all(".repeat(8));
        assert_eq!(fault(&other), Some((7, 32)));
    }

    #[test]
    fn the_seventeenth_key() {
        let eight = "K1,K2,K3,K4,K5,K6,K7,K8";
        let sixteen = format!("any(all({eight}),all({eight}))");
        assert_eq!(fault(&sixteen), None);
        let seventeen = format!("any(all({eight}),all({eight}),K");
        assert_eq!(fault(&seventeen), Some((9, seventeen.len() - 1)));
    }

    #[test]
    fn the_example_of_a_tree() {
        let rule = read(b"2of(K1,any(K2,K3),K4)").unwrap();
        let tree = ["0 2 of 3: 1 2 5", "  1 K1", "  2 1 of 2: 3 4", "    3 K2", "    4 K3", "  5 K4"];
        assert_eq!(rule.tree(), tree);
        assert_eq!(rule.leaves(), 4);
        let keys: Vec<(u64, usize)> = rule.keys().collect();
        assert_eq!(keys, [(1, 4), (2, 11), (3, 14), (4, 18)]);
    }

    #[test]
    fn writing_undoes_reading() {
        for text in ["K1", "any(K255,K255)", "3of(K1,all(K2,K3),K10,any(K4,K5,K6))"] {
            let rule = read(text.as_bytes()).unwrap();
            assert_eq!(rule.text(), text);
            let mut output = vec![0; text.len()];
            rule.write(&mut output).unwrap();
            assert_eq!(output, text.as_bytes());
            let mut longer = vec![7; text.len() + 1];
            let refused = rule.write(&mut longer).unwrap_err();
            assert_eq!((refused.number, refused.place), (21, 0));
            assert!(longer.iter().all(|byte| *byte == 7));
        }
    }

    /// Every short text over the bytes that matter, against a rule that is written again.
    #[test]
    fn short_texts_read_or_do_not() {
        let bytes = b"K1a2,)";
        let mut read_well = 0;
        for number in 0..6_u32.pow(6) {
            let text: Vec<u8> = (0..6).map(|i| bytes[(number / 6_u32.pow(i) % 6) as usize]).collect();
            match read(&text) {
                Ok(rule) => {
                    assert_eq!(rule.text().as_bytes(), text);
                    read_well += 1;
                }
                Err(refusal) => assert!(refusal.place <= text.len()),
            }
        }
        // Six bytes are too few for a gate, and a key has at most four.
        assert_eq!(read_well, 0);
    }
}

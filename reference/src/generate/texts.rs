//! Commands on rules: texts that read well, at the limits, and with faults of every kind.

use super::{Generator, Share};
use crate::splits;

const BYTES: &[u8] = b"Kallnyof(),0123456789K(),,)) \tkAx#-.~\x7f\x00\xc3\xff\r";

impl Generator {
    fn key_number(&mut self) -> u64 {
        match self.random.below(6) {
            0 => self.random.pick(&[1, 9, 10, 99, 100, 199, 200, 249, 250, 255]),
            1 => self.random.from_to(1, 255),
            _ => self.random.from_to(1, 20),
        }
    }

    fn key(&mut self) -> String {
        format!("K{}", self.key_number())
    }

    fn opening(&mut self, items: usize) -> String {
        match self.random.below(3) {
            0 => "all".to_string(),
            1 => "any".to_string(),
            _ if items < 3 => self.random.pick(&["all", "any"]).to_string(),
            _ => format!("{}of", self.random.from_to(2, items as u64 - 1)),
        }
    }

    /// A gate over these items.
    fn gate(&mut self, items: &[String]) -> String {
        format!("{}({})", self.opening(items.len()), items.join(","))
    }

    /// An item with about this many leaves, which begins this deep.
    fn item(&mut self, leaves: usize, depth: usize) -> String {
        if leaves <= 1 || depth == 8 {
            return self.key();
        }
        let most = leaves.min(8);
        let count = if self.random.percent(40) { 2 } else { self.random.from_to(2, most as u64) as usize };
        let mut rest = leaves;
        let mut items = Vec::new();
        for left in (1..=count).rev() {
            // Each item that is still to come needs one leaf.
            let own = if left == 1 { rest } else { 1 + self.random.index(rest - left + 1) };
            rest -= own;
            items.push(self.item(own, depth + 1));
        }
        self.gate(&items)
    }

    /// Eight deep, with the deep item at any place.
    fn deep(&mut self, depth: usize) -> String {
        let mut item = self.key();
        for _ in 1..depth {
            let mut items = vec![item];
            let at = self.random.index(2);
            let key = self.key();
            items.insert(at, key);
            item = self.gate(&items);
        }
        item
    }

    /// Sixteen leaves and fifteen gates of two.
    fn full(&mut self) -> String {
        let mut items: Vec<String> = (0..16).map(|_| format!("K{}", self.random.from_to(100, 255))).collect();
        while items.len() > 1 {
            items = items.chunks(2).map(|two| self.gate(two)).collect();
        }
        items.remove(0)
    }

    pub(super) fn text(&mut self, share: Share) -> Vec<u8> {
        let text = match share {
            Share::Valid => {
                let leaves = self.random.from_to(1, 16) as usize;
                self.item(leaves, 1)
            }
            Share::Edge => self.edge_text(),
            Share::Damaged if self.random.percent(50) => self.told_text(),
            Share::Damaged => {
                let leaves = self.random.from_to(1, 16) as usize;
                let text = self.item(leaves, 1);
                return self.mutated(text.into_bytes());
            }
        };
        text.into_bytes()
    }

    fn edge_text(&mut self) -> String {
        match self.random.below(8) {
            0 => self.full(),
            1 => self.deep(8),
            2 => self.item(16, 1),
            3 => {
                let items: Vec<String> = (0..8).map(|_| self.key()).collect();
                self.gate(&items)
            }
            4 => self.key(),
            5 => "7of(K1,K2,K3,K4,K5,K6,K7,K8)".to_string(),
            6 => {
                let key = self.key();
                self.gate(&[key.clone(), key])
            }
            _ => "2of(K255,K1,K255)".to_string(),
        }
    }

    /// Something that reads well up to a place, and then what is put in.
    fn before(&mut self) -> String {
        let mut text = String::new();
        for _ in 0..self.random.below(5) {
            text.push_str(self.random.pick(&["all(", "any(", "2of(", "7of(", "any(K1,", "3of(K9,K10,"]));
        }
        text
    }

    /// Texts with a fault that a row of the table names.
    fn told_text(&mut self) -> String {
        let before = self.before();
        let fault = match self.random.below(14) {
            0 => self.random.pick(&["K0", "K00", "K01", "K256", "K999", "K1000", "K4294967297"]).to_string(),
            1 => format!("{}of(K1,K2,K3)", self.random.pick(&[0, 1, 8, 9])),
            2 => self.deep(9),
            3 => format!("{}{}", "any(".repeat(8), self.random.pick(&["9", "K", "a", "x", ")", "", "0of("])),
            4 => {
                let eight = "K1,K2,K3,K4,K5,K6,K7,K8";
                format!(
                    "all(any({eight}),any({eight}),{}",
                    self.random.pick(&["K1)", "K", "Kx", "any(K1,K2))"])
                )
            }
            5 => format!("any(K1,K2,K3,K4,K5,K6,K7,K8,{}", self.random.pick(&["K9)", "", "x", "9of("])),
            6 => self.random.pick(&["all(K1)", "any(K1)", "2of(K1)", "all(all(K1,K2))"]).to_string(),
            7 => {
                let digit = self.random.from_to(2, 7) as usize;
                let items = self.random.from_to(1, digit as u64) as usize;
                format!("{digit}of({})", vec!["K7"; items].join(","))
            }
            8 => self
                .random
                .pick(&["", "K", "a", "al", "all", "an", "any", "2", "2o", "2of", "all(", "K1,", "K1)"])
                .to_string(),
            9 => self
                .random
                .pick(&["all()", "any(,)", "any(K1,)", "any(,K1)", "2of()", "any(K1,K2))", "any(K1K2)"])
                .to_string(),
            10 => return self.long_text(),
            11 | 12 => return self.with_bad_number(),
            _ => self
                .random
                .pick(&[
                    "ALL(K1,K2)",
                    "k1",
                    "any (K1,K2)",
                    "any(K1, K2)",
                    "any(K1 ,K2)",
                    "aly(K1,K2)",
                    "2ox(K1",
                ])
                .to_string(),
        };
        format!("{before}{fault}")
    }

    /// A text that reads well but for one number of a key, or one digit of a gate.
    fn with_bad_number(&mut self) -> String {
        let leaves = self.random.from_to(2, 16) as usize;
        let text = self.item(leaves, 1);
        let sign = self.random.pick(&["K", "K", "of("]);
        let places: Vec<usize> = text.match_indices(sign).map(|(place, _)| place).collect();
        if places.is_empty() {
            return text;
        }
        let at = self.random.pick(&places);
        if sign == "K" {
            let bad = self.random.pick(&["0", "00", "0", "300", "256", "25555"]);
            let rest = text[at + 1..].trim_start_matches(|digit: char| digit.is_ascii_digit());
            return format!("{}K{bad}{rest}", &text[..at]);
        }
        let bad = self.random.pick(&["0", "1", "8", "9"]);
        format!("{}{bad}{}", &text[..at - 1], &text[at..])
    }

    /// About 240 bytes.
    fn long_text(&mut self) -> String {
        let far = self.random.percent(10);
        let length =
            if far { self.random.from_to(245, 3000) } else { self.random.from_to(236, 244) } as usize;
        let filler = self.random.pick(&["K1", "any(", "K111111111", "all(K1,", "9", "any(K100,K200),"]);
        let mut text = if self.random.percent(50) { self.full() } else { "any(K1,".to_string() };
        while text.len() < length {
            text.push_str(filler);
        }
        text.truncate(length);
        text
    }

    fn mutated(&mut self, mut text: Vec<u8>) -> Vec<u8> {
        let count = if self.random.percent(70) { 1 } else { self.random.from_to(2, 4) };
        for _ in 0..count {
            let at = self.random.index(text.len().max(1));
            let byte = self.random.pick(BYTES);
            match self.random.below(6) {
                0 => text.truncate(at),
                1 => text.insert(at.min(text.len()), byte),
                2 => text.push(byte),
                3 if at < text.len() => {
                    text.remove(at);
                }
                4 if at + 1 < text.len() => text.swap(at, at + 1),
                _ if at < text.len() => text[at] = byte,
                _ => {}
            }
        }
        text
    }

    pub(super) fn read_line(&mut self, text: &[u8]) {
        let mut line = self
            .random
            .pick(&["rule read ", "rule read ", "rule read ", " rule\tread  "])
            .as_bytes()
            .to_vec();
        line.extend_from_slice(text);
        line.extend_from_slice(self.random.pick(&["", "", "", "", " ", "\r", " # text", "#"]).as_bytes());
        self.plain(line);
    }

    pub(super) fn rule_read(&mut self) {
        let share = self.share();
        let text = self.text(share);
        self.read_line(&text);
    }

    pub(super) fn rule_write(&mut self) {
        self.command("rule write");
    }

    pub(super) fn rule_split(&mut self) {
        let share = self.share();
        let wanted = self.session.rule.as_ref().map_or(3, splits::shares);
        let count = match (share, self.random.below(4)) {
            (Share::Damaged, 0) => wanted + 1,
            (Share::Damaged, 1) => wanted.saturating_sub(1),
            _ => wanted,
        };
        let values = self.scalars_for_split(share, count);
        self.command(&format!("rule split {values}"));
    }
}

//! Commands on rings: whole rings with at most a fault or two, read and paired with a rule.

use super::{Generator, Share};
use crate::rings::line_bytes;

fn hexadecimal(bytes: &[u8], upper: bool) -> String {
    let digits: String = bytes.iter().map(|byte| format!("{byte:02x}")).collect();
    if upper {
        digits.to_uppercase()
    } else {
        digits
    }
}

impl Generator {
    /// Rising numbers for this many lines.
    fn rising(&mut self, count: usize) -> Vec<u64> {
        let mut numbers = Vec::new();
        let mut number = 0;
        for left in (0..count as u64).rev() {
            let step = self.random.pick(&[1, 1, 1, 2, 3, 9]);
            number = (number + step).min(255 - left);
            numbers.push(number);
        }
        if self.random.percent(10) {
            numbers[count - 1] = 255;
        }
        numbers
    }

    /// A ring from the beginning: its lines, reading it, a rule over its numbers, and pairing.
    pub(super) fn ring(&mut self) {
        if self.set().is_none() && self.random.percent(80) {
            self.groups_of_one_order();
        }
        self.plain("ring clear");
        let count = self.random.pick(&[1, 2, 3, 5, 8, 13, 15, 16, 16, 17]);
        let mut numbers = self.rising(count);
        let fault = if self.random.percent(60) { self.random.index(count) } else { count };
        if fault < count && self.random.percent(45) {
            let before = if fault == 0 { 0 } else { numbers[fault - 1] };
            numbers[fault] = self.random.pick(&[0, before, before.saturating_sub(1)]);
        }
        for (i, number) in numbers.iter().enumerate() {
            let kind = if i == fault { self.kind_number() } else { self.random.from_to(1, 6) };
            let share = if i == fault { Share::Damaged } else { Share::Valid };
            let share = if self.random.percent(10) && i != fault { Share::Edge } else { share };
            self.add_line(*number, kind, share);
        }
        self.plain("ring read");
        self.pair_with(&numbers);
    }

    fn add_line(&mut self, number: u64, kind: u64, share: Share) {
        let image = self.image(kind, share);
        if self.random.percent(75) || kind > 255 {
            let line = self.line_of_ring(number, kind, image);
            self.plain(line);
            return;
        }
        let bytes = line_bytes(number as u8, kind as u8, image);
        let at = if self.random.percent(60) { bytes.len() } else { 1 + self.random.index(bytes.len()) };
        for part in [&bytes[..at], &bytes[at..]] {
            if !part.is_empty() {
                let digits = hexadecimal(part, self.random.percent(30));
                self.plain(format!("ring hex {digits}"));
            }
        }
    }

    /// Reads rules over these numbers, mostly, and pairs them.
    fn pair_with(&mut self, numbers: &[u64]) {
        for _ in 0..self.random.from_to(1, 3) {
            let length = self.random.from_to(2, 8) as usize;
            let absent = if self.random.percent(40) { self.random.index(length) } else { length };
            let keys: Vec<String> =
                (0..length)
                    .map(|i| {
                        if i == absent {
                            self.random.from_to(1, 255)
                        } else {
                            self.random.pick(numbers).max(1)
                        }
                    })
                    .map(|key| format!("K{key}"))
                    .collect();
            let opening = self.random.pick(&["all", "any", "any(K1,all", "2of(K1,K2,any"]);
            let closing = if opening.len() > 3 { "))" } else { ")" };
            let text = format!("{opening}({}{closing}", keys.join(","));
            self.read_line(text.as_bytes());
            self.command("ring pair");
        }
    }

    /// Single commands on whatever ring stands.
    pub(super) fn ring_by_the_way(&mut self) {
        let share = self.share();
        let kind = self.kind_number();
        let number = self.random.pick(&[0, 1, 2, 7, 100, 255, 256]);
        let line = match self.random.below(8) {
            0 => "ring clear".to_string(),
            1 | 2 => {
                let image = self.image(kind, share);
                self.line_of_ring(number, kind, image)
            }
            3 | 4 => format!("ring hex {}", self.digits()),
            5 => "ring read".to_string(),
            6 => "ring pair".to_string(),
            _ => "ring".to_string(),
        };
        self.command(&line);
    }

    fn digits(&mut self) -> String {
        let odd = ["0", "000", "0g", "0x00", "zz", "00 00", "", "-1"];
        match self.random.below(4) {
            0 => self.random.pick(&odd).to_string(),
            1 => "00".repeat(self.random.pick(&[1, 17, 18, 19, 270, 287, 288, 289, 300])),
            _ => {
                let length = self.random.from_to(1, 40);
                let bytes: Vec<u8> = (0..length).map(|_| self.random.below(256) as u8).collect();
                let upper = self.random.percent(50);
                hexadecimal(&bytes, upper)
            }
        }
    }
}

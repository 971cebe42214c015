//! How a command's words stand in a line, and words that do not fit.

use super::Generator;

/// Whether a line has no word.
pub fn is_blank(line: &[u8]) -> bool {
    let words = line.split(|byte| *byte == b'#').next().unwrap_or(b"");
    words.iter().all(|byte| matches!(byte, b' ' | b'\t' | b'\r'))
}

const ODD_WORDS: [&str; 22] = [
    "x",
    "-",
    "-1",
    "+1",
    "0x10",
    "1.5",
    "1_000",
    "4294967296",
    "4294967295",
    "18446744073709551616",
    "99999999999999999999999999",
    "0000000000000000000000000007",
    "256",
    "255",
    "0",
    "residue",
    "circle",
    "split",
    "K1",
    "\u{e9}",
    "\u{0}",
    "1,000",
];

impl Generator {
    fn space(&mut self) -> &'static str {
        match self.random.below(30) {
            0 => "\t",
            1 => "  ",
            2 => " \t\r ",
            _ => " ",
        }
    }

    fn around(&mut self) -> &'static str {
        match self.random.below(30) {
            0 => "\t",
            1 => "   ",
            2 => "\r",
            _ => "",
        }
    }

    pub(super) fn laid_out(&mut self, words: &[String]) -> Vec<u8> {
        let mut line = self.around().to_string();
        for (i, word) in words.iter().enumerate() {
            if i > 0 {
                line.push_str(self.space());
            }
            line.push_str(word);
        }
        line.push_str(self.around());
        match self.random.below(40) {
            0 => line.push_str("# a comment"),
            1 => line.push_str(" # 1 2 3 # 4"),
            _ => {}
        }
        line.into_bytes()
    }

    /// The words with one fault, or two.
    pub(super) fn damaged(&mut self, mut words: Vec<String>) -> Vec<String> {
        self.damage(&mut words);
        if self.random.percent(15) && !words.is_empty() {
            self.damage(&mut words);
        }
        words
    }

    fn damage(&mut self, words: &mut Vec<String>) {
        let at = self.random.index(words.len());
        match self.random.below(8) {
            0 | 1 => {
                words.pop();
            }
            2 => {
                words.remove(at);
            }
            3 => words.push(self.random.pick(&ODD_WORDS).to_string()),
            4 => words.insert(at, self.random.pick(&ODD_WORDS).to_string()),
            5 => words[at] = words[at].to_uppercase(),
            6 => words[at].push_str(self.random.pick(&["x", "0", "s", "\u{b}", "(", "."])),
            _ => words[at] = self.random.pick(&ODD_WORDS).to_string(),
        }
    }

    /// Lines without a word, and words that are no command.
    pub(super) fn not_a_command(&mut self) {
        if self.random.percent(10) {
            let line = self.long_line();
            return self.plain(line);
        }
        let line: &[u8] = match self.random.below(12) {
            0 => b"",
            1 => b" \t \r",
            2 => b"# group residue 11 23 4 9",
            3 => b"   #",
            4 => b"groups residue 11 23 4 9",
            5 => b"Power residue 4 0 5",
            6 => b"11",
            7 => b"\xff\xfe",
            8 => b"\x0bscalar add 11 1 2",
            9 => b"-",
            10 => b"residue",
            _ => b"\x00",
        };
        self.plain(line);
    }

    /// A comment, words or a number of thousands of bytes.
    fn long_line(&mut self) -> String {
        let length = self.random.from_to(1000, 5000) as usize;
        match self.random.below(4) {
            0 => format!("scalar add 11 5 7 #{}", " long".repeat(length / 5)),
            1 => format!("scalar add 11 5 {}7", "0".repeat(length)),
            2 => format!("scalar add 11 5 7{}", " 7".repeat(length / 2)),
            _ => format!("{}scalar add 11 5 7", " ".repeat(length)),
        }
    }
}

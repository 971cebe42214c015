//! Scripts: one command a line, each answered with one reply.

use crate::groups::{Element, Group, Shape};
use crate::kinds::{Image, Set};
use crate::phrases::{expected, meaning, Call, Misfit, Missing, Wanted};
use crate::refusal::Refusal;
use crate::rings;
use crate::rules::{self, Rule};
use crate::scalars::Scalars;
use crate::splits;

pub const MOST_RING_BYTES: usize = 288;

/// The printed lines of a reply.
pub type Reply = Vec<String>;

#[derive(Clone, Debug, PartialEq, Eq)]
pub enum Fault {
    Refused(Call, Refusal),
    Misfit(Misfit),
}

fn misfit<T>(word: usize, what: Wanted) -> Result<T, Fault> {
    Err(Fault::Misfit(Misfit::Word(word, what)))
}

fn not_made<T>(missing: Missing) -> Result<T, Fault> {
    Err(Fault::Misfit(Misfit::NotMade(missing)))
}

fn from<T>(call: Call, result: Result<T, Refusal>) -> Result<T, Fault> {
    result.map_err(|refusal| Fault::Refused(call, refusal))
}

fn is_space(byte: u8) -> bool {
    matches!(byte, b' ' | b'\t' | b'\r')
}

/// A line without its comment, and its words. Words count from 1.
struct Words<'a> {
    line: &'a [u8],
    words: Vec<(usize, &'a [u8])>,
}

impl<'a> Words<'a> {
    fn of(line: &'a [u8]) -> Words<'a> {
        let end = line.iter().position(|byte| *byte == b'#').unwrap_or(line.len());
        let line = &line[..end];
        let mut words = Vec::new();
        let mut at = 0;
        while at < end {
            if is_space(line[at]) {
                at += 1;
                continue;
            }
            let start = at;
            while at < end && !is_space(line[at]) {
                at += 1;
            }
            words.push((start, &line[start..at]));
        }
        Words { line, words }
    }

    fn count(&self) -> usize {
        self.words.len()
    }

    /// The word at this number; where there is none, no bytes.
    fn word(&self, number: usize) -> &'a [u8] {
        self.words.get(number - 1).map_or(b"", |(_, word)| word)
    }

    /// What follows this many words, without the white space before and after it.
    fn rest_after(&self, count: usize) -> &'a [u8] {
        let Some((start, _)) = self.words.get(count) else {
            return b"";
        };
        let (last, word) = self.words[self.words.len() - 1];
        &self.line[*start..last + word.len()]
    }

    fn number(&self, number: usize) -> Result<u64, Fault> {
        match decimal(self.word(number)) {
            Some(value) => Ok(value),
            None => misfit(number, Wanted::Number),
        }
    }

    fn numbers<const N: usize>(&self, first: usize) -> Result<[u64; N], Fault> {
        let mut values = [0; N];
        for (i, value) in values.iter_mut().enumerate() {
            *value = self.number(first + i)?;
        }
        Ok(values)
    }

    fn within(&self, number: usize, low: u64, high: u64, what: Wanted) -> Result<u64, Fault> {
        match decimal(self.word(number)) {
            Some(value) if low <= value && value <= high => Ok(value),
            _ => misfit(number, what),
        }
    }

    fn byte(&self, number: usize) -> Result<u64, Fault> {
        self.within(number, 0, 255, Wanted::Byte)
    }

    /// Nothing may follow this many words.
    fn end_after(&self, count: usize) -> Result<(), Fault> {
        if self.count() > count {
            return Err(Fault::Misfit(Misfit::NoWord(count + 1)));
        }
        Ok(())
    }

    fn shape(&self, number: usize) -> Result<Shape, Fault> {
        match self.word(number) {
            b"residue" => Ok(Shape::Residue),
            b"circle" => Ok(Shape::Circle),
            _ => misfit(number, Wanted::Group),
        }
    }
}

/// A decimal number of one word; zeros before it do not count.
fn decimal(word: &[u8]) -> Option<u64> {
    if word.is_empty() || !word.iter().all(u8::is_ascii_digit) {
        return None;
    }
    let mut value: u64 = 0;
    for digit in word {
        value = value * 10 + u64::from(digit - b'0');
        if value > u64::from(u32::MAX) {
            return None;
        }
    }
    Some(value)
}

/// The bytes of hexadecimal digits, two a byte.
fn hexadecimal(word: &[u8]) -> Option<Vec<u8>> {
    let digit = |byte: u8| char::from(byte).to_digit(16);
    if word.is_empty() || word.len() % 2 == 1 {
        return None;
    }
    let pair = |two: &[u8]| Some((digit(two[0])? * 16 + digit(two[1])?) as u8);
    word.chunks(2).map(pair).collect()
}

fn scalars_of(q: u64) -> Result<Scalars, Fault> {
    from(Call::Scalars, Scalars::make(q))
}

/// Each of these, the first being this word, is a scalar.
fn are_scalars(scalars: &Scalars, first: usize, values: &[u64]) -> Result<(), Fault> {
    match values.iter().position(|value| !scalars.has(*value)) {
        Some(i) => misfit(first + i, Wanted::Scalar),
        None => Ok(()),
    }
}

fn joined(label: &str, values: &[u64]) -> Reply {
    let words: String = values.iter().map(|value| format!(" {value}")).collect();
    vec![format!("{label}{words}")]
}

fn yes_no(label: &str, yes: bool) -> Reply {
    vec![format!("{label} {}", if yes { "yes" } else { "no" })]
}

/// A byte as it is shown.
fn shown(byte: u8) -> char {
    match byte {
        b' '..=b'~' => char::from(byte),
        _ => '?',
    }
}

fn refusal_line(call: Call, refusal: Refusal) -> String {
    format!("refused {} {} {}", refusal.number, refusal.place, meaning(call, refusal))
}

/// The refusal of a text, with the text and a caret where it has a fault at one byte.
fn faulty_text(text: &[u8], refusal: Refusal) -> Reply {
    let mut reply = vec![refusal_line(Call::Rule, refusal)];
    if refusal.number != 6 {
        reply.push(text.iter().map(|byte| shown(*byte)).collect());
        reply.push(format!("{}^", " ".repeat(refusal.place)));
    }
    reply
}

/// What a script has made so far.
#[derive(Clone, Debug, Default)]
pub struct Session {
    pub residue: Option<Group>,
    pub circle: Option<Group>,
    pub rule: Option<Rule>,
    pub ring: Vec<u8>,
    lines: usize,
}

impl Session {
    pub fn new() -> Session {
        Session::default()
    }

    /// The reply to one line; a line without a word has none.
    pub fn obey(&mut self, line: &[u8]) -> Reply {
        self.lines += 1;
        let words = Words::of(line);
        if words.count() == 0 {
            return Reply::new();
        }
        match self.command(&words) {
            Ok(reply) => reply,
            Err(Fault::Refused(call, refusal)) => vec![refusal_line(call, refusal)],
            Err(Fault::Misfit(what)) => vec![format!("line {}: expected {}", self.lines, expected(&what))],
        }
    }

    fn command(&mut self, words: &Words) -> Result<Reply, Fault> {
        match words.word(1) {
            b"group" => self.make_group(words),
            b"element" => self.element(words),
            b"multiply" => self.multiply(words),
            b"power" => self.power(words),
            b"scalar" => scalar(words),
            b"kind" => self.kind(words),
            b"rule" => self.rule(words),
            b"ring" => self.ring(words),
            b"gate" => gate(words),
            _ => misfit(1, Wanted::Command),
        }
    }

    // Groups.

    fn make_group(&mut self, words: &Words) -> Result<Reply, Fault> {
        let shape = words.shape(2)?;
        let (q, p, g, h) = match shape {
            Shape::Residue => {
                let [q, p, g, h] = words.numbers(3)?;
                words.end_after(6)?;
                (q, p, (g, 0), (h, 0))
            }
            Shape::Circle => {
                let [q, p, a, b, c, d] = words.numbers(3)?;
                words.end_after(8)?;
                (q, p, (a, b), (c, d))
            }
        };
        let group = from(Call::Group, Group::make(shape, q, p, g, h))?;
        match shape {
            Shape::Residue => self.residue = Some(group),
            Shape::Circle => self.circle = Some(group),
        }
        Ok(vec![format!("made {} group {q} {p}", shape.name())])
    }

    pub fn group(&self, shape: Shape) -> Option<Group> {
        match shape {
            Shape::Residue => self.residue,
            Shape::Circle => self.circle,
        }
    }

    fn named(&self, shape: Shape) -> Result<Group, Fault> {
        match self.group(shape) {
            Some(group) => Ok(group),
            None => not_made(Missing::Named(shape)),
        }
    }

    fn element(&self, words: &Words) -> Result<Reply, Fault> {
        let shape = words.shape(2)?;
        let [a, b] = words.numbers(3)?;
        words.end_after(4)?;
        Ok(yes_no("element", self.named(shape)?.has((a, b))))
    }

    fn multiply(&self, words: &Words) -> Result<Reply, Fault> {
        let shape = words.shape(2)?;
        let [a, b, c, d] = words.numbers(3)?;
        words.end_after(6)?;
        let group = self.named(shape)?;
        is_element(&group, (a, b), 3)?;
        is_element(&group, (c, d), 5)?;
        let (x, y) = group.multiply((a, b), (c, d));
        Ok(joined("product", &[x, y]))
    }

    fn power(&self, words: &Words) -> Result<Reply, Fault> {
        let shape = words.shape(2)?;
        let [a, b, exponent] = words.numbers(3)?;
        words.end_after(5)?;
        let group = self.named(shape)?;
        is_element(&group, (a, b), 3)?;
        let (x, y) = group.power((a, b), exponent);
        Ok(joined("power", &[x, y]))
    }

    // Leaf kinds.

    fn under(&self, shape: Shape) -> Result<Group, Fault> {
        match self.group(shape) {
            Some(group) => Ok(group),
            None => not_made(Missing::Under(shape)),
        }
    }

    fn set(&self) -> Result<Set, Fault> {
        let residue = self.under(Shape::Residue)?;
        let circle = self.under(Shape::Circle)?;
        from(Call::Kinds, Set::supplied(residue, circle))
    }

    fn kind(&self, words: &Words) -> Result<Reply, Fault> {
        let image = |image: Image| joined("image", &image);
        match words.word(2) {
            b"set" => {
                words.end_after(2)?;
                Ok(show_set(&self.set()?))
            }
            b"test" => {
                let number = words.byte(3)?;
                let words4 = words.numbers(4)?;
                words.end_after(7)?;
                Ok(yes_no("image", self.set()?.has_image(number, words4)))
            }
            b"multiply" => {
                let number = words.byte(3)?;
                let [a, b, c, d, e, f, g, h] = words.numbers(4)?;
                words.end_after(11)?;
                Ok(image(self.set()?.multiply(number, [a, b, c, d], [e, f, g, h])))
            }
            b"neutral" => {
                let number = words.byte(3)?;
                words.end_after(3)?;
                Ok(image(self.set()?.neutral(number)))
            }
            b"key" => {
                let number = words.byte(3)?;
                let [u, v] = words.numbers(4)?;
                words.end_after(5)?;
                Ok(image(self.set()?.image_of_key(number, u, v)))
            }
            b"power" => {
                let number = words.byte(3)?;
                let [a, b, c, d, exponent] = words.numbers(4)?;
                words.end_after(8)?;
                Ok(image(self.set()?.power(number, [a, b, c, d], exponent)))
            }
            _ => misfit(2, Wanted::KindCommand),
        }
    }

    // Rules.

    fn rule(&mut self, words: &Words) -> Result<Reply, Fault> {
        match words.word(2) {
            b"read" => Ok(self.rule_read(words.rest_after(2))),
            b"write" => {
                words.end_after(2)?;
                Ok(vec![format!("text {}", self.made_rule()?.text())])
            }
            b"split" => self.rule_split(words),
            _ => misfit(2, Wanted::RuleCommand),
        }
    }

    fn rule_read(&mut self, text: &[u8]) -> Reply {
        match rules::read(text) {
            Err(refusal) => faulty_text(text, refusal),
            Ok(rule) => {
                let (entries, leaves) = (rule.entries.len(), rule.leaves());
                let mut reply = vec![format!("rule {} entries {entries} leaves {leaves}", rule.text())];
                reply.extend(rule.tree());
                self.rule = Some(rule);
                reply
            }
        }
    }

    fn made_rule(&self) -> Result<&Rule, Fault> {
        match &self.rule {
            Some(rule) => Ok(rule),
            None => not_made(Missing::Rule),
        }
    }

    fn rule_split(&self, words: &Words) -> Result<Reply, Fault> {
        let rule = self.made_rule()?;
        let [q, challenge] = words.numbers(3)?;
        let wanted = splits::shares(rule);
        let shares = (5..5 + wanted).map(|number| words.number(number)).collect::<Result<Vec<u64>, Fault>>()?;
        words.end_after(4 + wanted)?;
        let scalars = scalars_of(q)?;
        are_scalars(&scalars, 4, &[challenge])?;
        are_scalars(&scalars, 5, &shares)?;
        Ok(joined("challenges", &splits::split_rule(&scalars, rule, challenge, &shares)))
    }

    // Rings.

    fn ring(&mut self, words: &Words) -> Result<Reply, Fault> {
        match words.word(2) {
            b"clear" => {
                words.end_after(2)?;
                self.ring.clear();
                Ok(self.ring_size())
            }
            b"line" => {
                let (number, kind) = (words.byte(3)?, words.byte(4)?);
                let image = words.numbers(5)?;
                words.end_after(8)?;
                let bytes = rings::line_bytes(number as u8, kind as u8, image);
                self.ring_add(&bytes)
            }
            b"hex" => {
                let Some(bytes) = hexadecimal(words.word(3)) else {
                    return misfit(3, Wanted::Hex);
                };
                words.end_after(3)?;
                self.ring_add(&bytes)
            }
            b"read" => {
                words.end_after(2)?;
                let lines = from(Call::Ring, rings::read(&self.ring, &self.set()?))?;
                Ok(vec![format!("ring {} lines", lines.len())])
            }
            b"pair" => {
                words.end_after(2)?;
                self.ring_pair()
            }
            _ => misfit(2, Wanted::RingCommand),
        }
    }

    fn ring_size(&self) -> Reply {
        vec![format!("ring {} bytes", self.ring.len())]
    }

    fn ring_add(&mut self, bytes: &[u8]) -> Result<Reply, Fault> {
        if self.ring.len() + bytes.len() > MOST_RING_BYTES {
            return misfit(3, Wanted::RoomInRing);
        }
        self.ring.extend_from_slice(bytes);
        Ok(self.ring_size())
    }

    fn ring_pair(&self) -> Result<Reply, Fault> {
        let set = self.set()?;
        let rule = self.made_rule()?;
        let lines = from(Call::Ring, rings::read(&self.ring, &set))?;
        let paired = from(Call::Pairing, rings::pair(rule, &lines))?;
        let show = |(leaf, line): (usize, &&rings::Line)| {
            let [a, b, c, d] = line.image;
            format!("leaf {leaf} K{} kind {} statement {a} {b} {c} {d}", line.number, line.kind)
        };
        Ok(paired.iter().enumerate().map(show).collect())
    }
}

fn is_element(group: &Group, x: Element, word: usize) -> Result<(), Fault> {
    if !group.has(x) {
        return Err(Fault::Misfit(Misfit::Element(word, group.shape)));
    }
    Ok(())
}

fn show_set(set: &Set) -> Reply {
    let count = set.kinds.len();
    let widths: String = set.kinds.iter().map(|kind| format!(" {}", kind.width())).collect();
    vec![format!("set q {} kinds {count} widths{widths}", set.q)]
}

fn scalar(words: &Words) -> Result<Reply, Fault> {
    let command = words.word(2);
    if !matches!(command, b"add" | b"multiply" | b"divide") {
        return misfit(2, Wanted::ScalarCommand);
    }
    let [q, a, b] = words.numbers(3)?;
    words.end_after(5)?;
    let scalars = scalars_of(q)?;
    are_scalars(&scalars, 4, &[a, b])?;
    match command {
        b"add" => Ok(joined("sum", &[scalars.add(a, b)])),
        b"multiply" => Ok(joined("product", &[scalars.multiply(a, b)])),
        _ if b == 0 => misfit(5, Wanted::Divisor),
        _ => Ok(joined("quotient", &[scalars.divide(a, b)])),
    }
}

// Gates.

fn gate(words: &Words) -> Result<Reply, Fault> {
    match words.word(2) {
        b"split" => gate_split(words),
        b"complete" => gate_complete(words),
        b"check" => gate_check(words),
        _ => misfit(2, Wanted::GateCommand),
    }
}

fn gate_split(words: &Words) -> Result<Reply, Fault> {
    let q = words.number(3)?;
    let count = words.number(4)? as usize;
    if count == 0 || count > 8 {
        return misfit(4, Wanted::Children);
    }
    let threshold = words.number(5)?;
    if threshold == 0 || threshold > count as u64 {
        return misfit(5, Wanted::Threshold);
    }
    let threshold = threshold as usize;
    let own = words.number(6)?;
    let last = 6 + count - threshold;
    let known: Vec<u64> = (7..=last).map(|word| words.number(word)).collect::<Result<_, _>>()?;
    words.end_after(last)?;
    let scalars = scalars_of(q)?;
    are_scalars(&scalars, 6, &[own])?;
    are_scalars(&scalars, 7, &known)?;
    Ok(joined("children", &splits::split(&scalars, count, own, &known)))
}

fn gate_complete(words: &Words) -> Result<Reply, Fault> {
    let [q, own] = words.numbers(3)?;
    let last = words.count().clamp(5, 12);
    let mut children = Vec::new();
    for word in 5..=last {
        children.push(match words.word(word) {
            b"-" => None,
            _ => Some(words.number(word).or_else(|_| misfit(word, Wanted::NumberOrDash))?),
        });
    }
    words.end_after(12)?;
    if children.iter().all(Option::is_some) {
        return Err(Fault::Misfit(Misfit::NoneUnknown));
    }
    let scalars = scalars_of(q)?;
    are_scalars(&scalars, 4, &[own])?;
    let known: Vec<u64> = children.iter().map(|child| child.unwrap_or(0)).collect();
    are_scalars(&scalars, 5, &known)?;
    Ok(joined("children", &splits::complete(&scalars, own, &children)))
}

fn gate_check(words: &Words) -> Result<Reply, Fault> {
    let [q, threshold, own] = words.numbers(3)?;
    let most = words.count().clamp(6, 13) - 5;
    let children: Vec<u64> = (6..6 + most).map(|word| words.number(word)).collect::<Result<_, _>>()?;
    words.end_after(13)?;
    let scalars = scalars_of(q)?;
    if threshold == 0 || threshold > most as u64 {
        return misfit(4, Wanted::Threshold);
    }
    let threshold = threshold as usize;
    are_scalars(&scalars, 5, &[own])?;
    are_scalars(&scalars, 6, &children)?;
    Ok(yes_no("balanced", splits::balanced(&scalars, threshold, own, &children)))
}

/// The lines of a script; a last line end starts no line.
pub fn lines_of(script: &[u8]) -> Vec<&[u8]> {
    let mut lines: Vec<&[u8]> = script.split(|byte| *byte == b'\n').collect();
    if lines.last().is_some_and(|line| line.is_empty()) {
        lines.pop();
    }
    lines
}

/// All that a script prints.
pub fn run(script: &[u8]) -> String {
    let mut session = Session::new();
    let mut output = String::new();
    for line in lines_of(script) {
        for printed in session.obey(line) {
            output.push_str(&printed);
            output.push('\n');
        }
    }
    output
}

#[cfg(test)]
mod tests {
    use super::*;

    const GROUPS: &str = "group residue 11 23 4 9\ngroup circle 11 43 2 13 26 23\n";

    /// What the last line of a script prints, after both groups were made.
    fn last(script: &str) -> String {
        let output = run(format!("{GROUPS}{script}").as_bytes());
        output.lines().last().unwrap().to_string()
    }

    #[test]
    fn hand_worked_commands() {
        assert_eq!(last("power residue 4 0 5"), "power 12 0");
        assert_eq!(last("power circle 2 13 4"), "power 11 40");
        assert_eq!(last("kind key 2 5 0"), "image 12 0 8 0");
        assert_eq!(last("kind key 6 1 2"), "image 11 3 0 0");
        assert_eq!(last("kind set"), "set q 11 kinds 6 widths 1 1 2 1 1 2");
        assert_eq!(last("gate split 11 2 1 7 2"), "children 2 8");
        assert_eq!(last("gate split 11 3 2 7 2"), "children 2 8 3");
        assert_eq!(last("gate complete 11 7 - 8 -"), "children 2 8 3");
        assert_eq!(last("gate check 11 2 7 2 8 3"), "balanced yes");
        assert_eq!(last("gate check 11 3 7 2 8 3"), "balanced no");
        assert_eq!(last("scalar divide 11 5 3"), "quotient 9");
        assert!(last("scalar add 15 1 2").starts_with("refused 2 1 "));
        assert!(last("group residue 13 23 4 9").starts_with("refused 3 2 "));
        assert!(last("group residue 11 23 5 9").starts_with("refused 4 3 "));
        assert!(last("group residue 11 23 4 1").starts_with("refused 4 4 "));
    }

    #[test]
    fn rules_and_rings() {
        let script = "rule read any(K1,K3)\nring clear\nring line 1 1 18 0 0 0\n";
        assert_eq!(last("rule read any(K1,K3)\nrule write"), "text any(K1,K3)");
        assert_eq!(last("rule read any(K1,K3)\nrule split 11 7 2"), "challenges 7 2 8");
        assert_eq!(last(script), "ring 18 bytes");
        assert!(last(&format!("{script}ring pair")).starts_with("refused 10 7 "));
        let hex = format!("{script}ring hex 0302{:08x}00000000{:08X}00000000\n", 12, 8);
        assert_eq!(last(&format!("{hex}ring read")), "ring 2 lines");
        let pair = run(format!("{GROUPS}{hex}ring pair").as_bytes());
        assert!(pair.contains("\nleaf 0 K1 kind 1 statement 18 0 0 0\nleaf 1 K3 kind 2 statement 12 0 8 0\n"));
    }

    #[test]
    fn a_faulty_text_has_a_caret() {
        let reply = Session::new().obey("rule read any(K1 ,K2)\t # no".as_bytes());
        assert!(reply[0].starts_with("refused 7 6 "));
        assert_eq!(reply[1..], ["any(K1 ,K2)", "      ^"]);
        let reply = Session::new().obey(b"rule read K1\t\xff,");
        assert_eq!(reply[1..], ["K1??,", "  ^"]);
        assert_eq!(Session::new().obey(b"rule read").len(), 1);
    }

    #[test]
    fn lines_that_do_not_fit() {
        assert_eq!(
            run(b"\n # only a comment\n \t\r\nscalar add 11 1"),
            "line 4: expected word 5 to be a number from 0 to 4294967295\n"
        );
        assert_eq!(last("scalar add 11 1 2 3"), "line 3: expected no word 6");
        assert_eq!(last("scalar add 011 1 0000000000002#3"), "sum 3");
        assert!(last("gate split 11 9 1 1").starts_with("line 3: expected word 4 "));
        assert!(last("gate split 11 2 3 1").starts_with("line 3: expected word 5 "));
        assert!(last("gate split 11 3 1 1 1").starts_with("line 3: expected word 8 "));
        assert!(last("gate check 11 3 1 1 1").starts_with("line 3: expected word 4 "));
        assert!(last("gate complete 11 3 1 1 1").starts_with("line 3: expected "));
    }
}

//! The English words of refusals and of lines that do not fit. They stand in tables of their own, so that a
//! comparison can be exact or can leave them out. Those for refusals from 5 on, and for the commands on kinds,
//! rules, rings and gates, are this program's own wording until the reference page gives them.

use crate::groups::Shape;
use crate::refusal::Refusal;

/// Who refuses: some numbers mean one thing at a maker of groups and another elsewhere.
#[derive(Clone, Copy, Debug, PartialEq, Eq)]
pub enum Call {
    Group,
    Scalars,
    Kinds,
    Rule,
    Ring,
    Pairing,
}

pub fn meaning(call: Call, refusal: Refusal) -> &'static str {
    match (refusal.number, refusal.place, call) {
        (1, 1, _) => "the order q is not from 11 to 2147483647",
        (1, _, _) => "the modulus p is not from 11 to 2147483647",
        (2, _, Call::Scalars) => "the order q is no prime",
        (2, 1, _) => "the order q is not one of 11, 13, 331, 166667",
        (2, _, _) => "the modulus p is not one of 23, 43, 53, 103, 2647, 1000003, 2000003, 2147483647",
        (3, _, _) => "no group of order q has this modulus p",
        (4, 3, _) => "the base g is no element of the group, or is neutral",
        (4, _, _) => "the base h is no element of the group, or is neutral",
        (5, 1, _) => "the two sets of a join differ in their order q",
        (5, _, _) => "the two sets of a join have more than 255 kinds together",
        (6, _, _) => "the rule's text has no byte, or more than 240",
        (7, _, _) => "a rule does not go on with this byte, or ends too early",
        (8, _, _) => "a number or a digit out of range",
        (9, _, _) => "too deep, too many keys or items, or too few items",
        (10, _, _) => "a key's number stands in no line of the ring",
        (11, _, _) => "the ring is not 1 to 16 whole lines of 18 bytes",
        (12, _, _) => "a line's number is not above the number before it, or is 0",
        (13, _, _) => "a line's kind is unknown, or its four words are no image of that kind",
        (21, _, _) => "the output is not as long as the text",
        _ => "unknown",
    }
}

/// What a line does not fit in. Words count from 1.
#[derive(Clone, Debug, PartialEq, Eq)]
pub enum Misfit {
    Word(usize, Wanted),
    NoWord(usize),
    /// This word and the next are no element.
    Element(usize, Shape),
    NotMade(Missing),
    /// All children of a gate are known, so that it would want none.
    NoneUnknown,
}

#[derive(Clone, Copy, Debug, PartialEq, Eq)]
pub enum Wanted {
    Command,
    Group,
    ScalarCommand,
    KindCommand,
    RuleCommand,
    RingCommand,
    GateCommand,
    Number,
    Byte,
    Children,
    Threshold,
    Scalar,
    Divisor,
    Hex,
    RoomInRing,
    NumberOrDash,
}

#[derive(Clone, Copy, Debug, PartialEq, Eq)]
pub enum Missing {
    /// The group that word 2 names.
    Named(Shape),
    /// A group that the supplied set stands on.
    Under(Shape),
    Rule,
}

fn wanted(what: Wanted) -> String {
    let fixed = match what {
        Wanted::Command => "group, element, multiply, power, scalar, kind, rule, ring or gate",
        Wanted::Group => "residue or circle",
        Wanted::ScalarCommand => "add, multiply or divide",
        Wanted::KindCommand => "set, test, multiply, neutral, key or power",
        Wanted::RuleCommand => "read, write or split",
        Wanted::RingCommand => "clear, line, hex, read or pair",
        Wanted::GateCommand => "split, complete or check",
        Wanted::Number => "a number from 0 to 4294967295",
        Wanted::Byte => "a number from 0 to 255",
        Wanted::Children => "a number of children from 1 to 8",
        Wanted::Threshold => "a number from 1 to the number of children",
        Wanted::Scalar => "a scalar below q",
        Wanted::Divisor => "a divisor other than 0",
        Wanted::Hex => "hexadecimal digits, two a byte",
        Wanted::RoomInRing => "within a ring of 288 bytes",
        Wanted::NumberOrDash => "a number from 0 to 4294967295, or -",
    };
    fixed.to_string()
}

pub fn expected(misfit: &Misfit) -> String {
    match misfit {
        Misfit::Word(word, what) => format!("word {word} to be {}", wanted(*what)),
        Misfit::NoWord(word) => format!("no word {word}"),
        Misfit::Element(word, shape) => {
            format!("words {word} and {} to be an element of the {} group", word + 1, shape.name())
        }
        Misfit::NotMade(Missing::Named(shape)) => {
            format!("word 2 to name a group that was made, and no {} group was", shape.name())
        }
        Misfit::NotMade(Missing::Under(shape)) => {
            format!("word 1 to come after a {} group was made", shape.name())
        }
        Misfit::NotMade(Missing::Rule) => "word 1 to come after a rule was read".to_string(),
        Misfit::NoneUnknown => "word 5 or one after it to be -".to_string(),
    }
}

/// How much of a reply is compared.
#[derive(Clone, Copy, Debug, PartialEq, Eq)]
pub enum Care {
    /// Every byte.
    Exact,
    /// Of a refusal its number and place, of a line that does not fit its number and the word's.
    Words,
    /// Of a refusal its number and place, of a line that does not fit its number.
    Lines,
}

impl Care {
    pub fn named(name: &str) -> Option<Care> {
        match name {
            "exact" => Some(Care::Exact),
            "words" => Some(Care::Words),
            "lines" => Some(Care::Lines),
            _ => None,
        }
    }

    /// What is left of one printed line to compare.
    pub fn of(self, line: &str) -> String {
        let all: Vec<&str> = line.split(' ').collect();
        let kept = match (self, all.as_slice()) {
            (Care::Exact, _) => all.len(),
            (_, ["refused", _, _, ..]) => 3,
            (Care::Lines, ["line", _, "expected", ..]) => 3,
            (Care::Words, ["line", _, "expected", "no", "word", ..]) => 6,
            (Care::Words, ["line", _, "expected", "word" | "words", ..]) => 5,
            (Care::Words, ["line", _, "expected", ..]) => 3,
            _ => all.len(),
        };
        all[..kept.min(all.len())].join(" ")
    }
}

#[cfg(test)]
mod tests {
    use super::*;

    #[test]
    fn what_is_compared() {
        let refused = "refused 4 3 the base g is no element";
        assert_eq!(Care::Words.of(refused), "refused 4 3");
        assert_eq!(Care::Exact.of(refused), refused);
        let word = "line 7: expected word 3 to be a number";
        assert_eq!(Care::Words.of(word), "line 7: expected word 3");
        assert_eq!(Care::Lines.of(word), "line 7: expected");
        assert_eq!(Care::Words.of("line 7: expected no word 3"), "line 7: expected no word 3");
        assert_eq!(Care::Words.of("line 7: expected something"), "line 7: expected");
        assert_eq!(Care::Lines.of("  1 K1"), "  1 K1");
    }
}

//! The rule reader against a second way to tell a rule: putting gates together from the inside out.

use reference::generate::{script, Scope};
use reference::random::Random;
use reference::refusal::Refusal;
use reference::rules;

/// Texts as the random scripts have them: good, at the limits, and damaged.
fn texts() -> Vec<Vec<u8>> {
    let lines = (0..40).flat_map(|part| script(Random::part(77, part), 1000, Scope::All));
    let text = |line: Vec<u8>| {
        let line = line.split(|byte| *byte == b'#').next().unwrap_or(b"").to_vec();
        let text = line.strip_prefix(b"rule read ")?.trim_ascii().to_vec();
        Some(text)
    };
    lines.filter_map(text).collect()
}

/// The text with an `I` for each key, and how many there are.
fn without_keys(text: &[u8]) -> Option<(String, usize)> {
    let text = std::str::from_utf8(text).ok()?;
    let mut parts = text.split('K');
    let mut short = parts.next()?.to_string();
    let mut keys = 0;
    for part in parts {
        let rest = part.trim_start_matches(|digit: char| digit.is_ascii_digit());
        let number = &part[..part.len() - rest.len()];
        let good = number.parse::<u8>().is_ok_and(|value| value > 0 && value.to_string() == number);
        if !good {
            return None;
        }
        short.push('I');
        short.push_str(rest);
        keys += 1;
    }
    (!text.contains('I')).then_some((short, keys))
}

fn gates() -> Vec<String> {
    let mut gates = Vec::new();
    for count in 2..=8 {
        let items = vec!["I"; count].join(",");
        gates.extend(["all", "any"].map(|name| format!("{name}({items})")));
        gates.extend((2..count).map(|digit| format!("{digit}of({items})")));
    }
    gates
}

/// Whether gates over keys, then gates over those, and so on seven times, leave one item.
fn is_rule(text: &[u8], gates: &[String]) -> bool {
    if text.is_empty() || text.len() > 240 {
        return false;
    }
    let Some((mut short, keys)) = without_keys(text) else {
        return false;
    };
    let mut open = 0_i32;
    for byte in short.bytes() {
        open += i32::from(byte == b'(') - i32::from(byte == b')');
        if open > 7 {
            return false;
        }
    }
    loop {
        let before = short.clone();
        for gate in gates {
            short = short.replace(gate.as_str(), "I");
        }
        if short == before {
            return keys <= 16 && short == "I";
        }
    }
}

#[test]
fn the_reader_takes_rules_and_nothing_else() {
    let gates = gates();
    let (mut good, mut bad) = (0, 0);
    for text in texts() {
        let read = rules::read(&text);
        assert_eq!(read.is_ok(), is_rule(&text, &gates), "{}", String::from_utf8_lossy(&text));
        match read {
            Ok(rule) => {
                assert_eq!(rule.text().as_bytes(), text);
                good += 1;
            }
            Err(_) => bad += 1,
        }
    }
    assert!(good > 1000 && bad > 1000, "{good} {bad}");
}

/// A fault is told from left to right: what follows it changes nothing, and what is before it has none.
#[test]
fn nothing_after_a_fault_matters() {
    let mut random = Random::new(5);
    for text in texts() {
        let Err(refusal @ Refusal { number: 7 | 9, place }) = rules::read(&text) else {
            continue;
        };
        if place < text.len() {
            let mut other = text[..=place].to_vec();
            for _ in 0..random.below(9) {
                other.push(random.pick(b"Ka2,)(1x"));
            }
            other.truncate(240);
            assert_eq!(rules::read(&other), Err(refusal), "{}", String::from_utf8_lossy(&text));
        }
        if place > 0 {
            match rules::read(&text[..place]) {
                Ok(_) => {}
                Err(cut) => assert_eq!(cut, Refusal { number: 7, place }),
            }
        }
    }
}

//! Runs the program `release` and this one on the same random scripts, up to the first difference.

use std::io::{self, Write};
use std::process::{Command, Stdio};
use std::thread;

use crate::generate::{bytes_of, script, Scope};
use crate::phrases::Care;
use crate::random::Random;
use crate::script::run;

/// As many commands as one script has: few enough to shrink soon.
const CHUNK: usize = 400;

/// The first line in which two outputs differ.
#[derive(Debug, PartialEq, Eq)]
pub struct Difference {
    pub line: usize,
    pub reference: Option<String>,
    pub release: Option<String>,
}

pub fn difference(care: Care, reference: &str, release: &str) -> Option<Difference> {
    let mut ours = reference.lines();
    let mut theirs = release.lines();
    let mut line = 0;
    loop {
        line += 1;
        let (one, other) = (ours.next(), theirs.next());
        if one.is_none() && other.is_none() {
            return None;
        }
        if one.map(|text| care.of(text)) != other.map(|text| care.of(text)) {
            let (reference, release) = (one.map(str::to_string), other.map(str::to_string));
            return Some(Difference { line, reference, release });
        }
    }
}

/// What a program prints for a script. One that ends badly has that as its last line.
fn output_of(path: &str, script: &[u8]) -> io::Result<String> {
    let mut command = Command::new(path);
    let mut child = command.stdin(Stdio::piped()).stdout(Stdio::piped()).spawn()?;
    let mut input = child.stdin.take().expect("the input is a pipe");
    let bytes = script.to_vec();
    // In a thread of its own, for the program may print before it has read all.
    let writer = thread::spawn(move || input.write_all(&bytes));
    let output = child.wait_with_output()?;
    let written = writer.join().expect("the writer does not panic");
    let mut text = String::from_utf8_lossy(&output.stdout).into_owned();
    if !output.status.success() || written.is_err() {
        text.push_str(&format!("ended with {}\n", output.status));
    }
    Ok(text)
}

pub struct Comparison<'a> {
    pub path: &'a str,
    pub care: Care,
    pub scope: Scope,
}

/// How a run ended: commands compared, and the smallest script found that shows a difference.
pub struct Outcome {
    pub commands: usize,
    pub replies: usize,
    pub failure: Option<Failure>,
}

pub struct Failure {
    pub part: u64,
    pub script: Vec<u8>,
    pub difference: Difference,
}

impl Comparison<'_> {
    fn differ(&self, lines: &[Vec<u8>]) -> io::Result<Option<Difference>> {
        let mut script = bytes_of(lines);
        // The last line may have no end: here, in every script with an odd number of lines.
        if lines.len() % 2 == 1 {
            script.pop();
        }
        Ok(difference(self.care, &run(&script), &output_of(self.path, &script)?))
    }

    pub fn run(&self, number: u64, count: usize) -> io::Result<Outcome> {
        let mut outcome = Outcome { commands: 0, replies: 0, failure: None };
        let mut part = 0;
        while outcome.commands < count {
            let size = CHUNK.min(count - outcome.commands);
            let lines = script(Random::part(number, part), size, self.scope);
            if self.differ(&lines)?.is_some() {
                outcome.failure = Some(self.shrunk(part, lines)?);
                return Ok(outcome);
            }
            outcome.commands += size;
            outcome.replies += run(&bytes_of(&lines)).lines().count();
            part += 1;
        }
        Ok(outcome)
    }

    /// Removes lines, many at a time and then few, as long as the two still differ.
    fn shrunk(&self, part: u64, mut lines: Vec<Vec<u8>>) -> io::Result<Failure> {
        let mut size = lines.len().div_ceil(2);
        loop {
            let before = lines.len();
            let mut at = 0;
            while at < lines.len() {
                let mut fewer = lines.clone();
                fewer.drain(at..(at + size).min(lines.len()));
                if self.differ(&fewer)?.is_some() {
                    lines = fewer;
                } else {
                    at += size;
                }
            }
            if size == 1 && lines.len() == before {
                break;
            }
            size = (size / 2).max(1);
        }
        let difference = self.differ(&lines)?.expect("what is left still differs");
        Ok(Failure { part, script: bytes_of(&lines), difference })
    }
}

#[cfg(test)]
mod tests {
    use super::*;

    #[test]
    fn first_differences() {
        assert_eq!(difference(Care::Words, "a\nrefused 1 2 x\n", "a\nrefused 1 2 y\n"), None);
        let found = difference(Care::Exact, "a\nrefused 1 2 x\n", "a\nrefused 1 2 y\n").unwrap();
        assert_eq!(found.line, 2);
        let found = difference(Care::Words, "a\n", "a\nb\n").unwrap();
        assert_eq!((found.line, found.reference, found.release), (2, None, Some("b".to_string())));
    }
}

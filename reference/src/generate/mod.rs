//! Random scripts: valid, edge and damaged commands in fair shares. The generator obeys its own script as it
//! goes along, so that it knows which groups, rule and ring stand.

mod arithmetic;
mod layout;
mod rings;
mod texts;

use crate::random::Random;
use crate::script::Session;

/// Which commands a script may have.
#[derive(Clone, Copy, Debug, PartialEq, Eq)]
pub enum Scope {
    /// Groups, elements and scalars.
    Arithmetic,
    All,
}

impl Scope {
    pub fn named(name: &str) -> Option<Scope> {
        match name {
            "arithmetic" => Some(Scope::Arithmetic),
            "all" => Some(Scope::All),
            _ => None,
        }
    }
}

/// What kind of input a command is to have.
#[derive(Clone, Copy, PartialEq, Eq)]
pub(crate) enum Share {
    Valid,
    Edge,
    Damaged,
}

pub struct Generator {
    pub(crate) random: Random,
    pub(crate) session: Session,
    lines: Vec<Vec<u8>>,
    commands: usize,
}

/// A script with this many commands, and a few lines without one.
pub fn script(random: Random, count: usize, scope: Scope) -> Vec<Vec<u8>> {
    let mut generator = Generator { random, session: Session::new(), lines: Vec::new(), commands: 0 };
    while generator.commands < count {
        generator.step(scope);
    }
    // A step may give several commands: the last ones that are too many go.
    while generator.commands > count {
        let line = generator.lines.pop().expect("commands stand in lines");
        if !layout::is_blank(&line) {
            generator.commands -= 1;
        }
    }
    generator.lines
}

/// The bytes of a script.
pub fn bytes_of(lines: &[Vec<u8>]) -> Vec<u8> {
    let mut bytes = lines.join(&b'\n');
    bytes.push(b'\n');
    bytes
}

impl Generator {
    pub(crate) fn share(&mut self) -> Share {
        match self.random.below(10) {
            0..=3 => Share::Valid,
            4..=6 => Share::Edge,
            _ => Share::Damaged,
        }
    }

    fn step(&mut self, scope: Scope) {
        let steps = match scope {
            Scope::Arithmetic => 40,
            Scope::All => 100,
        };
        match self.random.below(steps) {
            0..=7 => self.group(),
            8..=13 => self.element(),
            14..=20 => self.multiply(),
            21..=27 => self.power(),
            28..=38 => self.scalar(),
            39 => self.not_a_command(),
            40..=57 => self.kind(),
            58..=73 => self.rule_read(),
            74..=76 => self.rule_write(),
            77..=82 => self.rule_split(),
            83..=84 => self.ring(),
            85..=86 => self.ring_by_the_way(),
            87..=91 => self.gate_split(),
            92..=95 => self.gate_complete(),
            _ => self.gate_check(),
        }
    }

    /// Puts a line down, and obeys it.
    fn put(&mut self, line: Vec<u8>) {
        self.session.obey(&line);
        if !layout::is_blank(&line) {
            self.commands += 1;
        }
        self.lines.push(line);
    }

    /// Puts down a command of these words, now and then with damaged words or an unusual layout.
    pub(crate) fn command(&mut self, words: &str) {
        let words: Vec<String> = words.split(' ').map(str::to_string).collect();
        let words = if self.random.percent(8) { self.damaged(words) } else { words };
        let line = self.laid_out(&words);
        self.put(line);
    }

    /// Puts down a command as it is.
    pub(crate) fn plain(&mut self, line: impl Into<Vec<u8>>) {
        self.put(line.into());
    }
}

//! An independent program beside the library: written from docs/REFERENCE.md and not from its sources,
//! and straightforward on purpose, so that where the two agree they agree for different reasons. README.md says
//! what was taken from the output of the program `release`.

pub mod compare;
pub mod generate;
pub mod groups;
pub mod kinds;
pub mod phrases;
pub mod random;
pub mod refusal;
pub mod rings;
pub mod rules;
pub mod scalars;
pub mod script;
pub mod speed;
pub mod splits;
pub mod vectors;

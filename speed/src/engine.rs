//! The calls that both sides have, and what they write.
use crate::form::Form;
use crate::plain::{self, Config};

/// Done, or the number of a refusal.
pub type Answer = Result<(), u32>;

/// One side. Both are called through `dyn`, so that neither is inlined where it is timed.
pub trait Engine {
    /// What the traces and frames that it is handed look like.
    fn form(&self) -> Form {
        Form::TODAY
    }

    fn full_check(&self, config: &Config, trace: &[u32], record: &mut Record) -> Answer;
    fn bench_step(&self, table: &[Config], frames: &[u32], record: &mut Record) -> Answer;
}

/// A row and an open word for each cycle or, of a bench step, for each checker.
pub struct Record {
    pub rows: Vec<u32>,
    pub words: Vec<u64>,
}

impl Record {
    pub fn new(entries: usize) -> Self {
        Record { rows: vec![0; entries], words: vec![0; entries] }
    }

    /// The rows and words of another record of as many entries.
    pub fn copy_from(&mut self, other: &Record) {
        self.rows.copy_from_slice(&other.rows);
        self.words.copy_from_slice(&other.words);
    }
}

/// Ordinary Rust.
pub struct Plain;

impl Engine for Plain {
    fn full_check(&self, config: &Config, trace: &[u32], record: &mut Record) -> Answer {
        plain::full_check(config, trace, &mut record.rows, &mut record.words)
    }

    fn bench_step(&self, table: &[Config], frames: &[u32], record: &mut Record) -> Answer {
        plain::bench_step(table, frames, &mut record.words, &mut record.rows)
    }
}

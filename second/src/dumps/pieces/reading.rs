//! What is due where a dump arrives in pieces. Nothing is carried on from call to call but the text: each call reads all
//! that has arrived, from its first byte.

use crate::dumps::reader::{self, Loaded, FRAME_WORDS};

#[derive(Clone)]
pub struct Reading {
    table: Vec<u64>,
    arrived: Vec<u8>,
    /// How many frames the calls so far sampled.
    pub sampled: usize,
    /// What every further call gives, once the dump is over or refused.
    pub settled: Option<Loaded>,
}

impl Reading {
    pub fn begin(table: &[u64]) -> Reading {
        Reading { table: table.to_vec(), arrived: Vec::new(), sampled: 0, settled: None }
    }

    /// What a piece answers, or the end where there is none; the frames are left as the call has to leave them.
    pub fn call(&mut self, piece: Option<&[u8]>, frames: &mut [u32]) -> Loaded {
        if let Some(answer) = self.settled {
            return answer;
        }
        let answer = match reader::refused_lengths(self.table.len(), frames.len()) {
            Some(refusal) => Loaded { refusal, frames: 0, line: 0, identifier: 0 },
            None => self.read(piece, frames),
        };
        self.settled = match (answer.refusal, piece) {
            (0, Some(_)) => None,
            (0, None) => Some(Loaded { refusal: 17, ..answer }),
            _ => Some(answer),
        };
        answer
    }

    fn read(&mut self, piece: Option<&[u8]>, frames: &mut [u32]) -> Loaded {
        self.arrived.extend(piece.unwrap_or_default());
        // These may be other frames, and fewer, than those before: what was sampled into them stays sampled.
        let first = FRAME_WORDS * self.sampled;
        let mut all = vec![0; frames.len().max(first)];
        let answer = reader::load_part(&self.arrived, &self.table, &mut all, piece.is_none());
        self.sampled = answer.frames as usize;
        let behind = FRAME_WORDS * self.sampled;
        if first < behind {
            frames[first..behind].copy_from_slice(&all[first..behind]);
        }
        answer
    }
}

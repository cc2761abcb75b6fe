//! Libraries of today, and those from before unknown bits (request §8), so that one run can time both: a frame of the older
//! ones has four words, and their recheck answers five changes.
use crate::engine::Answer;
use crate::plain::FRAME;
use std::borrow::Cow;

/// What an engine's calls are handed.
#[derive(Clone, Copy)]
pub struct Form {
    /// Words of a frame.
    frame: usize,
    /// Numbers that a recheck answers.
    pub answer: usize,
}

impl Form {
    pub const TODAY: Form = Form { frame: FRAME, answer: 7 };
    pub const BEFORE: Form = Form { frame: FRAME / 2, answer: 6 };

    /// The form of a library that answers so to a full check of one frame of the older form, which is half a frame of today.
    pub fn of_probe(answer: Answer) -> Result<Self, String> {
        match answer {
            Ok(()) => Ok(Form::BEFORE),
            Err(4) => Ok(Form::TODAY),
            Err(refusal) => Err(format!("a check of four words has refusal {refusal}, so its frames are of no known size")),
        }
    }

    /// Whether a trace can be handed over: what the older form leaves out has to be 0.
    pub fn takes(self, trace: &[u32]) -> bool {
        trace.as_chunks::<FRAME>().0.iter().all(|frame| frame[self.frame..].iter().all(|word| *word == 0))
    }

    /// The trace as it is handed over.
    pub fn trace(self, trace: &[u32]) -> Cow<'_, [u32]> {
        if self.frame == FRAME {
            return trace.into();
        }
        let (frames, _) = trace.as_chunks::<FRAME>();
        frames.iter().flat_map(|frame| &frame[..self.frame]).copied().collect()
    }

    /// The words of a trace of so many cycles.
    pub fn words(self, cycles: usize) -> usize {
        self.frame * cycles
    }

    /// Of such a trace, the frames of `length` cycles from cycle `from` on.
    pub fn cut(self, trace: &[u32], from: usize, length: usize) -> &[u32] {
        &trace[self.frame * from..self.frame * (from + length)]
    }
}

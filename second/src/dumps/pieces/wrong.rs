//! The wrong readers of pieces that the comparison has to find: each is a right one, made of the plain reader, with one
//! mistake.

use super::calls::{Reader, Slice};
use crate::dumps::plain;
use crate::dumps::reader::{refused_lengths, Loaded, FRAME_WORDS};
use crate::dumps::situations::list;
use crate::dumps::wrong::Wrong;
use std::cell::{Cell, RefCell};

list! { Slip, SLIPS,
    Nothing: "none",
    WordCut: "a word that is cut is read as two",
    WordCutByNone: "a word is read as two where an empty piece arrives in it",
    WordEarly: "a word is read before the white space behind it arrives",
    WordForgotten: "the front of a word that is cut forgotten",
    SpaceLost: "white space in front of a piece ends no word",
    ReturnLost: "byte 13 at the end of a piece lost",
    NewlineLost: "byte 10 in front of a piece lost",
    LineTwice: "a line counted twice where it ends at a cut",
    LineLost: "a line not counted where it ends at a cut",
    LinesAnew: "lines counted from the front of each piece",
    LastLineLow: "a last line without byte 10 not counted where an empty piece follows",
    NoneEnds: "an empty piece is the end",
    PieceRefuses: "10 for a piece that ends in a command or change",
    PieceCloses: "the end of a piece closes the stamp",
    EndLeavesWord: "the end does not read the last word",
    CountZero: "an accepted piece answers no frames",
    CountOfPiece: "an accepted piece answers its own frames",
    LineOfPiece: "an accepted piece names a line",
    FramesAnew: "the frames of each piece written in front",
    FramesAgain: "the frames sampled before written again",
    RefusedFrames: "the frames of a refused piece not written",
    RefusedCount: "the frames of a refused piece not counted",
    RoomOfPiece: "16 only where one piece samples more than the frames hold",
    FiveFirst: "5 ahead of 4",
    FiveLate: "5 given by the end alone",
    FourCount: "4 names the frames so far",
    FourAheadOfOver: "4 ahead of 17",
    FourAheadOfKept: "4 ahead of a refusal that was given before",
    FourForgotten: "4 forgotten where the next frames are good",
    FiveAfterFour: "5 after 4 where the next frames are good",
    OverTaken: "a piece after the end accepted",
    EndTaken: "an end after the end accepted",
    OverCount: "17 forgets the frames",
    OverLine: "17 names a line",
    OverOnce: "17 given only once",
    OverForAll: "17 after a refusal",
    Forgotten: "a refusal forgotten by the next call",
    AgainIdentifier: "the identifier forgotten by the next call",
    AgainLine: "the line forgotten by the next call",
    AgainCount: "the frames of a refused dump forgotten by the next call",
    AgainLineLater: "lines that arrive after a refusal counted",
    AgainAlters: "the state altered by a call that gives a refusal again",
    AgainClears: "frames cleared by a call that gives a refusal again",
    KeptBeside: "the text kept beside the state",
    WritesBehind: "a word written behind the frames",
    WritesPiece: "the piece altered",
    WritesTable: "the table altered",
    Fickle: "another answer where the same call is made again",
    FickleState: "another state where the same call is made again",
    FickleFrames: "other frames where the same call is made again",
    BadFramesWritten: "frames written where 4 is answered",
}

impl Slip {
    /// Whether it has to be found by the calls with any state, which compare a call with itself.
    pub fn is_of_any_state(self) -> bool {
        matches!(self, Slip::Fickle | Slip::FickleState | Slip::FickleFrames | Slip::BadFramesWritten)
    }
}

/// The state: all that has arrived, and what is known of it.
#[derive(Clone, PartialEq)]
pub struct Kept {
    table: Vec<u64>,
    text: Vec<u8>,
    sampled: usize,
    settled: Option<Loaded>,
    /// How many lines too many are counted.
    lines: i64,
    /// Whether the last piece was empty.
    is_none: bool,
    times: u64,
}

pub struct Slipping {
    pub slip: Slip,
    beside: RefCell<Vec<u8>>,
    calls: Cell<u64>,
}

fn is_white(byte: u8) -> bool {
    matches!(byte, 9..=13 | 32)
}

fn newlines(text: &[u8]) -> i64 {
    text.iter().filter(|byte| **byte == 10).count() as i64
}

fn refused(refusal: u32) -> Loaded {
    Loaded { refusal, frames: 0, line: 0, identifier: 0 }
}

fn has_bad_length(frames: &[u32]) -> bool {
    refused_lengths(0, frames.len()) == Some(4)
}

impl Slipping {
    pub fn new(slip: Slip) -> Slipping {
        Slipping { slip, beside: RefCell::new(Vec::new()), calls: Cell::new(0) }
    }

    fn is(&self, slip: Slip) -> bool {
        self.slip == slip
    }

    fn call(&self, state: &Kept, piece: Option<&[u8]>, frames: &mut [u32]) -> (Kept, Loaded) {
        let mut kept = state.clone();
        self.calls.set(self.calls.get() + 1);
        if let Some(answer) = self.again(&mut kept, piece, frames) {
            return (kept, answer);
        }
        let answer = match self.refused_call(&kept, piece.is_some(), frames) {
            Some(answer) => {
                if self.is(Slip::BadFramesWritten) && answer.refusal == 4 {
                    frames.fill(0);
                }
                answer
            }
            None => self.read(&mut kept, piece, frames),
        };
        let is_end = piece.is_none() || self.is(Slip::NoneEnds) && piece == Some(&[]);
        kept.settled = match answer.refusal {
            0 if is_end => Some(Loaded { refusal: 17, ..answer }),
            0 => None,
            _ => Some(answer),
        };
        let told = self.told(&kept, state, piece.is_some(), answer);
        (kept, told)
    }

    fn refused_call(&self, kept: &Kept, is_piece: bool, frames: &[u32]) -> Option<Loaded> {
        let (bad_frames, bad_table) = (has_bad_length(frames), kept.table.len() != 258);
        if bad_frames && !(bad_table && self.is(Slip::FiveFirst)) {
            let sampled = if self.is(Slip::FourCount) { kept.sampled as u64 } else { 0 };
            return Some(Loaded { frames: sampled, ..refused(4) });
        }
        let is_late = self.is(Slip::FiveLate) && is_piece;
        bad_table.then(|| refused(if is_late { 0 } else { 5 }))
    }

    /// The answer of a dump that is over or refused.
    fn again(&self, kept: &mut Kept, piece: Option<&[u8]>, frames: &mut [u32]) -> Option<Loaded> {
        let settled = kept.settled?;
        match self.slip {
            Slip::AgainAlters => kept.times += 1,
            Slip::AgainClears => frames.fill(0),
            _ => {}
        }
        if has_bad_length(frames) {
            return Some(self.again_bad_frames(settled));
        }
        match (self.slip, settled.refusal) {
            (Slip::FourForgotten, 4) => None,
            (Slip::FiveAfterFour, 4) if kept.table.len() != 258 => Some(refused(5)),
            (_, 17) => Some(self.over(kept, settled, piece.is_some())),
            _ => Some(self.refused_again(settled, piece.unwrap_or_default())),
        }
    }

    fn again_bad_frames(&self, settled: Loaded) -> Loaded {
        match (self.slip, settled.refusal) {
            (Slip::FourAheadOfOver, 17) => refused(4),
            (Slip::FourAheadOfKept, 5..=16) => refused(4),
            _ => settled,
        }
    }

    fn over(&self, kept: &mut Kept, settled: Loaded, is_piece: bool) -> Loaded {
        let accepted = Loaded { refusal: 0, ..settled };
        match self.slip {
            Slip::OverTaken if is_piece => accepted,
            Slip::EndTaken if !is_piece => accepted,
            Slip::OverCount => Loaded { frames: 0, ..settled },
            Slip::OverLine => Loaded { line: newlines(&kept.text) as u64, ..settled },
            Slip::OverOnce => {
                kept.settled = Some(accepted);
                settled
            }
            _ => settled,
        }
    }

    fn refused_again(&self, settled: Loaded, piece: &[u8]) -> Loaded {
        match self.slip {
            Slip::Forgotten => Loaded { frames: settled.frames, ..refused(0) },
            Slip::OverForAll => Loaded { frames: settled.frames, ..refused(17) },
            Slip::AgainIdentifier => Loaded { identifier: 0, ..settled },
            Slip::AgainLine => Loaded { line: 0, ..settled },
            Slip::AgainCount => Loaded { frames: 0, ..settled },
            Slip::AgainLineLater => Loaded { line: settled.line + newlines(piece) as u64, ..settled },
            _ => settled,
        }
    }

    /// Takes in a piece.
    fn arrive(&self, kept: &mut Kept, piece: &[u8]) {
        let last = kept.text.last().copied();
        let is_in_word = last.is_some_and(|byte| !is_white(byte));
        let goes_on = piece.first().is_some_and(|byte| !is_white(*byte));
        match self.slip {
            Slip::WordCut if is_in_word && goes_on => kept.text.push(b' '),
            Slip::WordCutByNone if is_in_word && piece.is_empty() => kept.text.push(b' '),
            Slip::WordForgotten if is_in_word && goes_on => {
                let front = kept.text.iter().rposition(|byte| is_white(*byte)).map_or(0, |at| at + 1);
                kept.text.truncate(front);
            }
            Slip::LineTwice => kept.lines += i64::from(last == Some(10) && !piece.is_empty()),
            Slip::LineLost => kept.lines -= i64::from(last == Some(10) && !piece.is_empty()),
            Slip::LinesAnew => kept.lines = -newlines(&kept.text),
            _ => {}
        }
        let taken = match (self.slip, piece) {
            (Slip::SpaceLost, _) if is_in_word => piece.trim_ascii_start(),
            (Slip::ReturnLost, [front @ .., 13]) => front,
            (Slip::NewlineLost, [10, behind @ ..]) => behind,
            _ => piece,
        };
        kept.is_none = piece.is_empty();
        kept.text.extend(taken);
        if self.is(Slip::KeptBeside) {
            self.beside.borrow_mut().extend(taken);
            kept.text = self.beside.borrow().clone();
        }
    }

    /// What all that has arrived says, with frames for all that was sampled before.
    fn read_all(&self, kept: &Kept, is_piece: bool, all: &mut [u32]) -> Loaded {
        let mut text = kept.text.clone();
        let whole = |text: &[u8], all: &mut [u32]| plain::load(text, &kept.table, all, Wrong::Nothing).0;
        match (self.slip, is_piece) {
            (Slip::NoneEnds, true) if kept.is_none => return whole(&text, all),
            (Slip::PieceRefuses, true) if text.last().is_some_and(|byte| is_white(*byte)) => return whole(&text, all),
            (Slip::PieceCloses, true) => {
                let answer = whole(&text, all);
                if answer.refusal == 0 {
                    return answer;
                }
            }
            (Slip::WordEarly, true) => text.push(b' '),
            (Slip::EndLeavesWord, false) => {
                let front = text.iter().rposition(|byte| is_white(*byte)).map_or(0, |at| at + 1);
                text.truncate(front);
            }
            _ => {}
        }
        if is_piece {
            plain::load_front(&text, &kept.table, all)
        } else {
            whole(&text, all)
        }
    }

    fn read(&self, kept: &mut Kept, piece: Option<&[u8]>, frames: &mut [u32]) -> Loaded {
        if let Some(piece) = piece {
            self.arrive(kept, piece);
        }
        let first = FRAME_WORDS * kept.sampled;
        let room = if self.is(Slip::RoomOfPiece) { first + frames.len() } else { frames.len().max(first) };
        let mut all = vec![0; room];
        let mut answer = self.read_all(kept, piece.is_some(), &mut all);
        if answer.line > 0 {
            let is_low = self.is(Slip::LastLineLow) && piece.is_none() && kept.is_none;
            let is_open = kept.text.last() != Some(&10);
            answer.line = answer.line.saturating_add_signed(kept.lines - i64::from(is_low && is_open));
        }
        let behind = FRAME_WORDS * answer.frames as usize;
        if !(self.is(Slip::RefusedFrames) && answer.refusal != 0) {
            self.write(frames, &all, first, behind);
        }
        if self.is(Slip::RefusedCount) && answer.refusal != 0 {
            answer.frames = kept.sampled as u64;
        }
        kept.sampled = answer.frames as usize;
        answer
    }

    /// Writes the frames that the call sampled.
    fn write(&self, frames: &mut [u32], all: &[u32], first: usize, behind: usize) {
        let (from, to) = match self.slip {
            Slip::FramesAgain => (0, 0),
            Slip::FramesAnew => (first, 0),
            _ => (first, first),
        };
        let sampled = all.get(from..behind).unwrap_or_default();
        frames.iter_mut().skip(to).zip(sampled).for_each(|(word, sampled)| *word = *sampled);
    }

    /// What is answered where the dump was neither over nor refused before.
    fn told(&self, kept: &Kept, before: &Kept, is_piece: bool, answer: Loaded) -> Loaded {
        if !is_piece || answer.refusal != 0 {
            return answer;
        }
        match self.slip {
            Slip::CountZero => Loaded { frames: 0, ..answer },
            Slip::CountOfPiece => Loaded { frames: answer.frames.saturating_sub(before.sampled as u64), ..answer },
            Slip::LineOfPiece => Loaded { line: newlines(&kept.text) as u64, ..answer },
            _ => answer,
        }
    }

    /// Makes another call of every second one.
    fn differ(&self, (mut kept, mut answer): (Kept, Loaded), frames: &mut [u32]) -> (Kept, Loaded) {
        if self.calls.get() % 2 == 0 {
            match (self.slip, frames.last_mut()) {
                (Slip::Fickle, _) => answer.identifier ^= 1,
                (Slip::FickleState, _) => kept.times += 1,
                (Slip::FickleFrames, Some(last)) => *last ^= 1,
                _ => {}
            }
        }
        (kept, answer)
    }
}

impl Reader for Slipping {
    type State = Kept;

    fn begin(&self, wires: Slice<u64>) -> Kept {
        // SAFETY: `calls` lends live buffers of its own, with guards behind them; so below.
        let wires = unsafe { wires.entries() };
        let table = wires.to_vec();
        if let (Slip::WritesTable, Some(last)) = (self.slip, wires.last_mut()) {
            *last ^= 1;
        }
        self.beside.borrow_mut().clear();
        Kept { table, text: Vec::new(), sampled: 0, settled: None, lines: 0, is_none: true, times: 0 }
    }

    fn piece(&self, state: &Kept, piece: Slice<u8>, frames: Slice<u32>) -> (Kept, Loaded) {
        let (bytes, words) = unsafe { (piece.entries(), frames.entries()) };
        let given = self.call(state, Some(bytes), words);
        if let (Slip::WritesPiece, Some(last)) = (self.slip, bytes.last_mut()) {
            *last ^= 1;
        }
        if self.is(Slip::WritesBehind) && frames.len > 0 {
            unsafe { *frames.pointer.add(frames.len) = 0 };
        }
        self.differ(given, words)
    }

    fn end(&self, state: &Kept, frames: Slice<u32>) -> (Kept, Loaded) {
        let words = unsafe { frames.entries() };
        self.differ(self.call(state, None, words), words)
    }
}

//! A second reader of dumps, slow and plain. It says which situations a dump meets, and it can be told to make a mistake: the
//! comparison is tried with such wrong readers. It shares nothing with the fast reader but the form of the answer.

mod changes;
mod declarations;
mod values;

use super::reader::Loaded;
use super::situations::{Met, Situation};
use super::wrong::Wrong;
use std::collections::BTreeMap;
use values::{Bit, Signal};

#[derive(Clone, Copy)]
struct Word<'a> {
    bytes: &'a [u8],
    line: u64,
    /// The line of the word before it, for a wrong reader.
    previous: u64,
}

#[derive(Clone, Copy)]
struct Refusal {
    number: u32,
    line: u64,
    identifier: u64,
    is_end: bool,
}

type Outcome = Result<(), Refusal>;

struct Plain<'a> {
    words: Vec<Word<'a>>,
    at: usize,
    last_line: u64,
    has_open_line: bool,
    /// Whether the end of the text is that of the dump.
    is_whole: bool,
    wrong: Wrong,
    met: Met,
    table: &'a [u64],
    frames: &'a mut [u32],
    sampled: usize,
    codes: BTreeMap<Vec<u8>, usize>,
    signals: Vec<Signal>,
    scopes: Vec<&'a [u8]>,
    scopes_in_all: usize,
    vars: usize,
    bits: Vec<Bit>,
    stamp: Option<Stamp>,
    has_changes: bool,
}

/// The stamp that is open.
struct Stamp {
    number: u64,
    line: u64,
    /// How often it was written.
    times: usize,
    /// The digits of the connected bits before its changes, the clock's first.
    before: Vec<u8>,
    /// What the clock was after each of its changes.
    clock: Vec<u8>,
}

/// What the text answers, and the situations it meets.
pub fn load(dump: &[u8], table: &[u64], frames: &mut [u32], wrong: Wrong) -> (Loaded, Met) {
    load_part(dump, table, frames, wrong, true)
}

/// What is known of a dump that begins with this text: a word that may go on is not read, and nothing ends.
pub fn load_front(text: &[u8], table: &[u64], frames: &mut [u32]) -> Loaded {
    load_part(text, table, frames, Wrong::Nothing, false).0
}

fn load_part(dump: &[u8], table: &[u64], frames: &mut [u32], wrong: Wrong, is_whole: bool) -> (Loaded, Met) {
    let mut met = Met::none();
    if let Some(refusal) = refused_call(table, frames, wrong, &mut met) {
        if wrong == Wrong::RefusedWrites {
            frames.fill(0);
        }
        return (Loaded { refusal, frames: 0, line: 0, identifier: 0 }, met);
    }
    let (mut words, last_line) = cut(dump, wrong, &mut met);
    if !is_whole && dump.last().is_some_and(|byte| !is_white(*byte, wrong)) {
        words.pop();
    }
    let mut plain = Plain::new(words, last_line, table, frames, wrong, met);
    plain.is_whole = is_whole;
    plain.has_open_line = dump.last().is_some_and(|byte| *byte != b'\n');
    plain.met.meet_if(plain.frames.len() == 8 * 65_536, Situation::Frames65536);
    let read = match plain.read() {
        Err(refusal) if refusal.is_end && !is_whole => Ok(()),
        read => read,
    };
    let answer = plain.answer(read);
    (answer, plain.met)
}

fn refused_call(table: &[u64], frames: &[u32], wrong: Wrong, met: &mut Met) -> Option<u32> {
    let parts = if wrong == Wrong::FramesFour { 4 } else { 8 };
    let most = match wrong {
        Wrong::Frames65537 => 65_537,
        Wrong::Frames65536 => 65_535,
        _ => 65_536,
    };
    let is_ragged = frames.len() % parts != 0;
    let bad_frames = is_ragged || frames.len() > 8 * most;
    let bad_table = table.len() != 258 && !(wrong == Wrong::TableLonger && table.len() > 258);
    met.meet_if(is_ragged, Situation::FramesRagged);
    met.meet_if(frames.len() % 8 == 4, Situation::FramesFour);
    met.meet_if(frames.len() == 8 * 65_537, Situation::FramesTooMany);
    met.meet_if(bad_frames && bad_table, Situation::FramesAndTable);
    if bad_table && (!bad_frames || wrong == Wrong::FiveFirst) {
        met.meet(match table.len() {
            0 => Situation::TableNone,
            257 => Situation::TableShort,
            259 => Situation::TableLong,
            _ => Situation::TableOther,
        });
        return Some(5);
    }
    bad_frames.then_some(4)
}

fn is_white(byte: u8, wrong: Wrong) -> bool {
    match byte {
        11 => wrong != Wrong::SpaceTab,
        9 | 10 | 12 | 13 | 32 => true,
        0..=31 => wrong == Wrong::SpaceControl,
        160 => wrong == Wrong::SpaceHigh,
        _ => false,
    }
}

/// All words with their lines, and the number of lines.
fn cut<'a>(dump: &'a [u8], wrong: Wrong, met: &mut Met) -> (Vec<Word<'a>>, u64) {
    let mut words: Vec<Word> = Vec::new();
    let (mut line, mut begin) = (1, None);
    for (i, byte) in dump.iter().enumerate() {
        if is_white(*byte, wrong) {
            words.extend(begin.take().map(|start| word_of(dump, start, i, line, &words)));
        } else if begin.is_none() {
            begin = Some(i);
        }
        if *byte == 10 || *byte == 13 && wrong == Wrong::LineReturn || *byte == 12 && wrong == Wrong::LineFeedForm {
            line += 1;
        }
        met.meet_if(i > 0 && *byte == 10 && dump[i - 1] == 13, Situation::CarriageReturn);
        met.meet_if([11, 12].contains(byte), Situation::RareSpace);
    }
    words.extend(begin.map(|start| word_of(dump, start, dump.len(), line, &words)));
    met.meet_if(words.iter().any(|word| word.bytes.len() > 300), Situation::LongWord);
    met.meet_if(dump.is_empty(), Situation::EmptyText);
    met.meet_if(!dump.is_empty() && words.is_empty(), Situation::NoWords);
    let is_ended = dump.last().is_none_or(|byte| *byte == 10);
    met.meet_if(!is_ended, Situation::NoWhiteSpaceAtEnd);
    let lines =
        if is_ended && wrong != Wrong::EndLineHigh || !is_ended && wrong == Wrong::EndLineLow { line - 1 } else { line };
    (words, lines)
}

fn word_of<'a>(dump: &'a [u8], start: usize, end: usize, line: u64, words: &[Word]) -> Word<'a> {
    let previous = words.last().map_or(line, |word| word.line);
    Word { bytes: &dump[start..end], line, previous }
}

/// The bytes of a code, the first lowest.
fn identifier(code: &[u8], wrong: Wrong) -> u64 {
    let mut bytes = [0; 8];
    for (i, byte) in code.iter().take(8).enumerate() {
        bytes[i] = *byte;
    }
    if wrong == Wrong::IdentifierReversed {
        bytes[..code.len().min(8)].reverse();
    }
    u64::from_le_bytes(bytes)
}

/// A decimal number with the zeros in front left out; `None` where the bytes are none.
fn decimal(bytes: &[u8]) -> Option<String> {
    let text = std::str::from_utf8(bytes).ok()?;
    if text.is_empty() || text.chars().any(|c| !c.is_ascii_digit()) {
        return None;
    }
    Some(text.trim_start_matches('0').to_string())
}

/// The number, where it has at most 64 bits.
fn fits(number: &str) -> Option<u64> {
    if number.is_empty() {
        Some(0)
    } else {
        number.parse().ok()
    }
}

impl<'a> Plain<'a> {
    fn new(
        words: Vec<Word<'a>>,
        last_line: u64,
        table: &'a [u64],
        frames: &'a mut [u32],
        wrong: Wrong,
        met: Met,
    ) -> Plain<'a> {
        Plain {
            words,
            at: 0,
            last_line,
            has_open_line: false,
            is_whole: true,
            wrong,
            met,
            table,
            frames,
            sampled: 0,
            codes: BTreeMap::new(),
            signals: Vec::new(),
            scopes: Vec::new(),
            scopes_in_all: 0,
            vars: 0,
            bits: Vec::new(),
            stamp: None,
            has_changes: false,
        }
    }

    fn read(&mut self) -> Outcome {
        self.declarations()?;
        self.changes()
    }

    /// Whether the reader is to make this mistake.
    fn is(&self, wrong: Wrong) -> bool {
        self.wrong == wrong
    }

    fn next(&mut self) -> Option<Word<'a>> {
        let word = self.words.get(self.at).copied();
        self.at += 1;
        word
    }

    /// The next word, where the text must not end; if it does, that is this situation.
    fn due(&mut self, end: Situation) -> Result<Word<'a>, Refusal> {
        match self.next() {
            Some(word) => Ok(word),
            None => {
                self.met.meet(end);
                Err(Refusal { number: 10, line: self.last_line, identifier: 0, is_end: true })
            }
        }
    }

    /// The word `$end`; another one is the first situation, the end of the text the second.
    fn due_end(&mut self, other: Situation, end: Situation) -> Result<Word<'a>, Refusal> {
        let word = self.due(end)?;
        if word.bytes == b"$end" {
            Ok(word)
        } else {
            Err(self.refused(10, word, other))
        }
    }

    fn refused(&mut self, number: u32, word: Word, situation: Situation) -> Refusal {
        self.met.meet(situation);
        let line = if self.is(Wrong::LineOfPrevious) { word.previous } else { word.line };
        Refusal { number, line, identifier: 0, is_end: false }
    }

    fn answer(&mut self, read: Outcome) -> Loaded {
        let Err(refusal) = read else {
            self.met.meet_if(self.stamp.is_none(), Situation::NoStamps);
            self.met.meet_if(!self.has_changes && self.stamp.is_none(), Situation::NoChanges);
            self.met.meet_if(self.frames.is_empty(), Situation::FramesNone);
            self.met.meet_if(self.sampled > 0 && 8 * self.sampled == self.frames.len(), Situation::FramesFilled);
            self.write_behind();
            return Loaded { refusal: 0, frames: self.sampled as u64, line: 0, identifier: 0 };
        };
        self.meet_refusal(refusal);
        if refusal.is_end && refusal.number == 10 && self.is(Wrong::EndClosesAlways) {
            let _ = self.close(refusal.line, true);
        }
        self.write_behind();
        let frames = if self.is(Wrong::CountLost) { 0 } else { self.sampled as u64 };
        let line = refusal.line - u64::from(self.is(Wrong::LineLow) && refusal.line > 0);
        Loaded { refusal: refusal.number, frames, line, identifier: refusal.identifier }
    }

    fn meet_refusal(&mut self, refusal: Refusal) {
        let (samples, is_risen) = (self.sampled > 0, self.is_risen());
        self.met.meet_if(samples && refusal.number == 10, Situation::Refused10AfterSamples);
        self.met.meet_if(samples && refusal.number == 12, Situation::Refused12AfterSamples);
        self.met.meet_if(samples && refusal.number == 14, Situation::Refused14AfterSamples);
        self.met.meet_if(is_risen && refusal.number == 14, Situation::BackOnEdge);
        self.met.meet_if(is_risen && refusal.number == 10 && refusal.is_end, Situation::EndsOnEdge);
    }

    fn write_behind(&mut self) {
        if self.is(Wrong::WrittenBehind) {
            let behind = 8 * self.sampled;
            self.frames.iter_mut().skip(behind).take(8).for_each(|word| *word = 0);
        }
    }
}

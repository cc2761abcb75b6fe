//! The connected wires as they are now, and the frames sampled from them.

use super::words::{Place, Word};
use super::{Refusal, FRAME_WORDS};

#[derive(Clone, Copy, PartialEq)]
pub enum Digit {
    Zero,
    One,
    Unknown,
    None,
}

/// What each byte is as a digit of a change.
pub static DIGITS: [Digit; 256] = digits();

const fn digits() -> [Digit; 256] {
    let mut digits = [Digit::None; 256];
    digits[b'0' as usize] = Digit::Zero;
    digits[b'1' as usize] = Digit::One;
    digits[b'x' as usize] = Digit::Unknown;
    digits[b'X' as usize] = Digit::Unknown;
    digits[b'z' as usize] = Digit::Unknown;
    digits[b'Z' as usize] = Digit::Unknown;
    digits
}

/// An entry of the table, and how many places from the right its digit stands in the wire.
pub struct Connection {
    pub place: u32,
    pub entry: u8,
}

/// The clock and the frame's wires.
#[derive(Clone, Copy)]
struct Values {
    clock: Digit,
    frame: [u32; FRAME_WORDS],
}

impl Values {
    #[inline]
    fn set(&mut self, entry: u8, digit: Digit) {
        if entry == 0 {
            self.clock = digit;
            return;
        }
        let (word, bit) = (usize::from(entry - 1) / 32 % 4, (entry - 1) % 32);
        let (value, unknown) = (digit == Digit::One, digit == Digit::Unknown);
        self.frame[word] = self.frame[word] & !(1 << bit) | u32::from(value) << bit;
        self.frame[word + 4] = self.frame[word + 4] & !(1 << bit) | u32::from(unknown) << bit;
    }
}

pub struct Sampler<'s> {
    now: Values,
    /// As they were before the changes of the open stamp.
    before: Values,
    stamp: Option<u64>,
    frames: &'s mut [u32],
    sampled: usize,
}

impl<'s> Sampler<'s> {
    pub fn new(table: &[u64], frames: &'s mut [u32]) -> Sampler<'s> {
        let mut now = Values { clock: Digit::Unknown, frame: [0; FRAME_WORDS] };
        for (entry, pair) in table.chunks_exact(2).enumerate() {
            if pair[0] != 0 {
                now.set(entry as u8, Digit::Unknown);
            }
        }
        Sampler { now, before: now, stamp: None, frames, sampled: 0 }
    }

    pub fn sampled(&self) -> u64 {
        self.sampled as u64
    }

    #[inline]
    pub fn scalar(&mut self, connections: &[Connection], digit: Digit) {
        for connection in connections {
            self.now.set(connection.entry, digit);
        }
    }

    #[inline]
    pub fn vector(&mut self, connections: &[Connection], digits: &[u8]) {
        for connection in connections {
            let place = connection.place as usize;
            let digit = match digits.len().checked_sub(place + 1) {
                Some(from_left) => DIGITS[usize::from(digits[from_left])],
                None => extension(digits[0]),
            };
            self.now.set(connection.entry, digit);
        }
    }

    pub fn stamp(&mut self, stamp: u64, word: Word) -> Result<(), Refusal> {
        match self.stamp {
            Some(open) if stamp == open => return Ok(()),
            Some(open) if stamp < open => return Err(word.refused(14)),
            Some(_) => self.close(word.place())?,
            None => {}
        }
        self.stamp = Some(stamp);
        self.before = self.now;
        Ok(())
    }

    pub fn end(&mut self) -> Result<(), Refusal> {
        match self.stamp {
            Some(_) => self.close(Place::End),
            None => Ok(()),
        }
    }

    fn close(&mut self, place: Place) -> Result<(), Refusal> {
        if self.before.clock != Digit::Zero || self.now.clock != Digit::One {
            return Ok(());
        }
        let at = self.sampled * FRAME_WORDS;
        if at == self.frames.len() {
            return Err(Refusal { number: 16, place, identifier: 0 });
        }
        self.frames[at..at + FRAME_WORDS].copy_from_slice(&self.before.frame);
        self.sampled += 1;
        Ok(())
    }
}

/// What stands in front of a vector's first digit.
fn extension(first: u8) -> Digit {
    match DIGITS[usize::from(first)] {
        Digit::Unknown => Digit::Unknown,
        _ => Digit::Zero,
    }
}

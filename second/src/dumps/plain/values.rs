//! What is declared, what is connected, and the samples.

use super::{Outcome, Plain, Refusal, Word};
use crate::dumps::situations::Situation;
use crate::dumps::wrong::Wrong;

/// Stands for the digit of a wire without a change yet.
pub const UNSET: u8 = b'u';

pub struct Signal {
    pub width: u64,
    pub is_real: bool,
    pub range: Option<(u64, u64)>,
    /// As a vector is written, the leftmost first. A real has none.
    pub digits: Vec<u8>,
}

impl Signal {
    pub fn ends(&self) -> (u64, u64) {
        self.range.unwrap_or((self.width - 1, 0))
    }
}

/// A connected bit.
pub struct Bit {
    /// Its entry in the table.
    pub entry: usize,
    signal: usize,
    /// Its digit's place, from the left.
    from_left: usize,
}

impl Plain<'_> {
    /// Tests every pair of the table; a bad one is refused at the word that is given.
    pub fn connect(&mut self, word: Word) -> Outcome {
        for entry in 0..129 {
            let (code, index) = (self.table[2 * entry], self.table[2 * entry + 1]);
            if let Some(situation) = self.bad_pair(entry, code, index) {
                return Err(self.refused(13, word, situation));
            }
        }
        Ok(())
    }

    /// Connects a pair, or says why it is bad.
    fn bad_pair(&mut self, entry: usize, code: u64, index: u64) -> Option<Situation> {
        let is_clock = entry == 0;
        let either = |clock, wire| Some(if is_clock { clock } else { wire });
        if code == 0 {
            let is_bad = is_clock && !self.is(Wrong::ClockMissing) || self.is(Wrong::IndexUnused) && index != 0;
            return is_bad.then_some(Situation::ClockUnconnected);
        }
        let bytes = code.to_le_bytes();
        let len = bytes.iter().rposition(|byte| *byte != 0).map_or(0, |last| last + 1);
        let Some(&signal) = self.codes.get(&bytes[..len]) else {
            let is_taken = self.is(Wrong::WireMissing) && !is_clock;
            return if is_taken { None } else { either(Situation::ClockUndeclared, Situation::WireUndeclared) };
        };
        if self.signals[signal].is_real {
            let is_taken = self.is(Wrong::WireReal) && !is_clock;
            return if is_taken { None } else { either(Situation::ClockReal, Situation::WireReal) };
        }
        let (left, right) = self.signals[signal].ends();
        let (low, high) = (left.min(right), left.max(right));
        if index < low || index > high || self.is(Wrong::IndexEnd) && index == left && left != right {
            let wire = if index < low { Situation::WireBelow } else { Situation::WireAbove };
            let is_taken = self.is(Wrong::IndexOutside) && !is_clock;
            return if is_taken { None } else { either(Situation::ClockOutside, wire) };
        }
        let from_left = self.from_left(signal, index);
        self.bits.push(Bit { entry, signal, from_left });
        None
    }

    fn from_left(&self, signal: usize, index: u64) -> usize {
        let (signal, (left, right)) = (&self.signals[signal], self.signals[signal].ends());
        let last = signal.width - 1;
        let from_right = match self.wrong {
            Wrong::Ascending => index - left.min(right),
            Wrong::FromZero => index.min(last),
            Wrong::FromLeft => index.abs_diff(left),
            _ => index.abs_diff(right),
        };
        last.saturating_sub(from_right) as usize
    }

    fn digit(&self, bit: &Bit) -> u8 {
        self.signals[bit.signal].digits[bit.from_left]
    }

    pub fn digits(&self) -> Vec<u8> {
        self.bits.iter().map(|bit| self.digit(bit)).collect()
    }

    /// The clock is connected first.
    pub fn clock(&self) -> u8 {
        match self.bits.first() {
            Some(bit) if bit.entry == 0 => self.digit(bit),
            _ => UNSET,
        }
    }

    pub fn set(&mut self, signal: usize, digits: Vec<u8>) {
        let before = self.clock();
        self.has_changes = true;
        self.signals[signal].digits = digits;
        let clock = self.clock();
        match &mut self.stamp {
            Some(stamp) => stamp.clock.push(clock),
            None => {
                self.met.meet(Situation::BeforeStamps);
                self.met.meet_if((before, clock) == (b'0', b'1'), Situation::ClockBeforeStamps);
            }
        }
    }

    /// The clock in the open stamp: before it, and after each of its changes.
    fn clock_in_stamp(&self) -> Vec<u8> {
        match &self.stamp {
            Some(stamp) if !stamp.before.is_empty() => [&stamp.before[..1], &stamp.clock].concat(),
            _ => vec![UNSET],
        }
    }

    pub fn is_risen(&self) -> bool {
        let clock = self.clock_in_stamp();
        clock[0] == b'0' && *clock.last().unwrap() == b'1'
    }

    fn is_edge(&self) -> bool {
        let clock = self.clock_in_stamp();
        let (before, after) = (clock[0], *clock.last().unwrap());
        match self.wrong {
            Wrong::EdgeFromX => before != b'1' && after == b'1',
            Wrong::EdgeToX => before == b'0' && after != b'0',
            Wrong::EdgeInside => clock.windows(2).any(|two| two == b"01"),
            Wrong::EdgeFalling => before == b'1' && after == b'0',
            _ => before == b'0' && after == b'1',
        }
    }

    /// Closes the open stamp, if there is one: `line` is that of what closes it.
    pub fn close(&mut self, line: u64, is_end: bool) -> Outcome {
        let Some(stamp) = &self.stamp else { return Ok(()) };
        let line = match (self.wrong, is_end) {
            (Wrong::FullAtOpened, _) => stamp.line,
            (Wrong::FullAtLastLine, true) => line - u64::from(self.has_open_line),
            _ => line,
        };
        self.meet_clock();
        if !self.is_edge() {
            return Ok(());
        }
        let room = self.frames.len() / 8 - usize::from(self.is(Wrong::FullEarly) && !self.frames.is_empty());
        if self.sampled == room {
            self.met.meet(if is_end { Situation::FullByEnd } else { Situation::FullByStamp });
            self.met.meet_if(is_end && self.has_open_line, Situation::FullByEndUnended);
            self.met.meet(if room == 0 { Situation::FullNone } else { Situation::FullFilled });
            let refused = Refusal { number: 16, line, identifier: 0, is_end };
            return if self.is(Wrong::FullForgotten) { Ok(()) } else { Err(refused) };
        }
        self.sample(is_end);
        Ok(())
    }

    fn sample(&mut self, is_end: bool) {
        self.meet_sample(is_end);
        let digits = match &self.stamp {
            Some(stamp) if !self.is(Wrong::SampleAfter) => stamp.before.clone(),
            _ => self.digits(),
        };
        let mut frame = [0; 8];
        if self.is(Wrong::UnconnectedUnknown) {
            frame[4..].fill(u32::MAX);
        }
        for (bit, digit) in self.bits.iter().zip(&digits).filter(|(bit, _)| bit.entry > 0) {
            let (word, wire) = ((bit.entry - 1) / 32, (bit.entry - 1) % 32);
            let is_known = match digit {
                b'z' => self.is(Wrong::ZIsZero),
                &UNSET => self.is(Wrong::UnsetIsZero),
                b'x' => false,
                _ => true,
            };
            let is_one = *digit == b'1' || !is_known && self.is(Wrong::UnknownIsOne);
            frame[word] |= u32::from(is_one) << wire;
            frame[word + 4] &= !(1 << wire);
            frame[word + 4] |= u32::from(!is_known) << wire;
        }
        let at = 8 * self.sampled;
        self.frames[at..at + 8].copy_from_slice(&frame);
        self.sampled += 1;
    }

    fn meet_clock(&mut self) {
        let clock = self.clock_in_stamp();
        let mut kept = clock.clone();
        kept.dedup();
        let (before, after) = (clock[0], *clock.last().unwrap());
        let is_known = |digit| digit == b'0' || digit == b'1';
        self.met.meet_if(!is_known(before) && after == b'1', Situation::ClockFromX);
        self.met.meet_if(before == b'0' && !is_known(after), Situation::ClockToX);
        self.met.meet_if(kept == b"010", Situation::ClockBack);
        self.met.meet_if(kept == b"0101", Situation::ClockTwice);
        self.met.meet_if(kept == b"101", Situation::ClockDip);
    }

    fn meet_sample(&mut self, is_end: bool) {
        let Some(stamp) = &self.stamp else { return };
        self.met.meet(if is_end { Situation::SampledByEnd } else { Situation::SampledByStamp });
        self.met.meet_if(stamp.times > 1, Situation::SampledOverEqual);
        self.met.meet_if(self.bits.len() == 1, Situation::SampledNone);
        self.met.meet_if(self.bits.len() == 129, Situation::SampledAll);
        let clock = &self.bits[0];
        self.met.meet_if(self.signals[clock.signal].width > 1, Situation::ClockInVector);
        for (bit, digit) in self.bits.iter().zip(&stamp.before).skip(1) {
            let signal = &self.signals[bit.signal];
            let (left, right) = signal.ends();
            self.met.meet_if(*digit == UNSET, Situation::SampledUnset);
            self.met.meet_if(*digit == b'x', Situation::SampledX);
            self.met.meet_if(*digit == b'z', Situation::SampledZ);
            self.met.meet_if(*digit != signal.digits[bit.from_left], Situation::SampledOld);
            self.met.meet_if((bit.signal, bit.from_left) == (clock.signal, clock.from_left), Situation::SampledClock);
            self.met.meet_if(left < right, Situation::SampledUp);
            self.met.meet_if(left.min(right) > 0, Situation::SampledOffset);
            self.met.meet_if(signal.digits.len() - bit.from_left > 65, Situation::SampledWide);
        }
        let mut places: Vec<(usize, usize)> = self.bits[1..].iter().map(|bit| (bit.signal, bit.from_left)).collect();
        places.sort_unstable();
        self.met.meet_if(places.windows(2).any(|two| two[0] == two[1]), Situation::SampledTwice);
    }
}

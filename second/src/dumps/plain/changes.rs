//! What follows the declarations, for the plain reader.

use super::declarations::is_keyword;
use super::values::UNSET;
use super::{decimal, fits, identifier, Outcome, Plain, Refusal, Stamp, Word};
use crate::dumps::situations::Situation;
use crate::dumps::wrong::Wrong;

/// What a code belongs to.
#[derive(Clone, Copy, PartialEq)]
enum Sort {
    Scalar,
    Vector,
    Real,
}

impl<'a> Plain<'a> {
    pub fn changes(&mut self) -> Outcome {
        if self.is(Wrong::FirstIsStamp) {
            self.open(0, 0);
        }
        let mut last = Ok(());
        while let Some(word) = self.next() {
            match self.one(word) {
                Ok(()) => {}
                Err(refusal) if self.is(Wrong::LastPlace) => last = Err(refusal),
                Err(refusal) => return Err(refusal),
            }
        }
        if !self.is_whole || self.is(Wrong::EndClosesNot) || last.is_err() {
            return last;
        }
        self.close(self.last_line, true)
    }

    fn one(&mut self, word: Word<'a>) -> Outcome {
        match word.bytes {
            [b'#', ..] => self.stamp(word),
            b"$comment" => self.skip(Situation::CommentLater, Situation::EndsInCommentLater),
            b"$dumpall" | b"$dumpoff" | b"$dumpon" | b"$dumpvars" => self.block(word),
            b"$var" if self.is(Wrong::LateVar) => self.var(word),
            _ => self.change(word, false),
        }
    }

    fn open(&mut self, number: u64, line: u64) {
        self.stamp = Some(Stamp { number, line, times: 1, before: self.digits(), clock: Vec::new() });
    }

    fn stamp(&mut self, word: Word) -> Outcome {
        let Some(text) = decimal(&word.bytes[1..]) else {
            return Err(self.refused(10, word, Situation::BadStamp));
        };
        let is_refused = self.is(Wrong::StampDigits) && word.bytes.len() > 21;
        let number = fits(&text).filter(|n| !is_refused && !(self.is(Wrong::StampSigned) && n >> 63 != 0));
        let number = if self.is(Wrong::AboveTaken) { number.or(Some(u64::MAX)) } else { number };
        let Some(number) = number else {
            if self.is(Wrong::AboveCloses) {
                self.close(word.line, false)?;
            }
            return Err(self.refused(10, word, Situation::StampAbove));
        };
        self.meet_stamp(word, number);
        let open = self.stamp.as_ref().map_or(number, |stamp| stamp.number);
        if self.stamp.is_some() && number == open && !self.is(Wrong::EqualTwice) {
            return self.equal_stamp(word);
        }
        if number < open && !self.is(Wrong::BackTaken) {
            return Err(self.stamp_back(word, number, open));
        }
        self.close(word.line, false)?;
        self.open(number, word.line);
        Ok(())
    }

    fn meet_stamp(&mut self, word: Word, number: u64) {
        self.met.meet_if(word.bytes.len() > 2 && word.bytes[1] == b'0', Situation::StampZeros);
        self.met.meet_if(word.bytes.len() > 21, Situation::StampLong);
        self.met.meet_if(number >> 63 != 0, Situation::StampHigh);
        self.met.meet_if(number == u64::MAX, Situation::StampHighest);
    }

    fn equal_stamp(&mut self, word: Word) -> Outcome {
        if self.is(Wrong::EqualBack) {
            return Err(self.refused(14, word, Situation::StampEqual));
        }
        self.met.meet(Situation::StampEqual);
        if let Some(stamp) = &mut self.stamp {
            stamp.times += 1;
        }
        Ok(())
    }

    fn stamp_back(&mut self, word: Word, number: u64, open: u64) -> Refusal {
        if self.is(Wrong::BackCloses) {
            if let Err(refusal) = self.close(word.line, false) {
                return refusal;
            }
        }
        let behind = self.words.get(self.at).copied().unwrap_or(word);
        let place = if self.is(Wrong::BackLate) { behind } else { word };
        let met = if open - number == 1 { Situation::StampBack } else { Situation::StampFarBack };
        self.refused(14, place, met)
    }

    fn block(&mut self, keyword: Word) -> Outcome {
        let met = match keyword.bytes {
            b"$dumpall" => Situation::Dumpall,
            b"$dumpoff" => Situation::Dumpoff,
            b"$dumpon" => Situation::Dumpon,
            _ => Situation::Dumpvars,
        };
        if met == Situation::Dumpoff && self.is(Wrong::BlockOff) {
            (0..self.signals.len()).for_each(|i| self.set(i, vec![b'x'; self.signals[i].digits.len()]));
        }
        let first = self.at;
        loop {
            let word = self.due(Situation::EndsInBlock)?;
            match word.bytes {
                b"$end" => break,
                [b'#', ..] if self.is(Wrong::BlockStamp) => self.stamp(word)?,
                b"$comment" if self.is(Wrong::BlockComment) => {
                    self.skip(Situation::CommentLater, Situation::EndsInBlock)?
                }
                b"$dumpall" | b"$dumpoff" | b"$dumpon" | b"$dumpvars" if self.is(Wrong::BlockInBlock) => {
                    self.block(word)?
                }
                _ => self.change(word, true)?,
            }
        }
        self.met.meet(met);
        self.met.meet_if(self.at == first + 1, Situation::BlockEmpty);
        Ok(())
    }

    fn is_digit(&self, byte: u8) -> bool {
        b"01xz".contains(&byte) || b"XZ".contains(&byte) && !self.is(Wrong::UpperDigits)
    }

    fn change(&mut self, word: Word, in_block: bool) -> Outcome {
        match word.bytes[0] {
            b'b' => self.vector(word),
            b'B' if !self.is(Wrong::UpperB) => self.vector(word),
            b'r' | b'R' => self.real(word),
            digit if self.is_digit(digit) => self.scalar(word),
            _ => Err(self.no_change(word, in_block)),
        }
    }

    fn no_change(&mut self, word: Word, in_block: bool) -> Refusal {
        let met = match (in_block, word.bytes) {
            (true, [b'#', ..]) => Situation::StampInBlock,
            (true, b"$comment") => Situation::CommentInBlock,
            (true, b"$dumpall" | b"$dumpoff" | b"$dumpon" | b"$dumpvars") => Situation::BlockInBlock,
            (true, _) => Situation::BadInBlock,
            (false, word) if is_keyword(word) && word != b"$end" => Situation::LateDeclaration,
            (false, _) => Situation::BadChange,
        };
        self.refused(10, word, met)
    }

    fn scalar(&mut self, word: Word) -> Outcome {
        let (digit, code) = (word.bytes[0], &word.bytes[1..]);
        if code.is_empty() {
            return Err(self.refused(10, word, Situation::ScalarAlone));
        }
        if code == b"$end" && self.is(Wrong::ScalarEnd) {
            return Err(self.refused(10, word, Situation::UndeclaredEnd));
        }
        let signal = self.find(word, code, Sort::Scalar)?;
        if self.signals[signal].is_real {
            let refused = self.refused(10, word, Situation::ScalarOfReal);
            return if self.is(Wrong::ScalarReal) { Ok(()) } else { Err(refused) };
        }
        if self.signals[signal].width != 1 && !self.is(Wrong::ScalarWide) {
            let refused = self.refused(10, word, Situation::ScalarOfWide);
            let named = if self.is(Wrong::IdentifierWide) { identifier(code, self.wrong) } else { 0 };
            return Err(Refusal { identifier: named, ..refused });
        }
        self.meet_scalar(digit);
        self.set_extended(signal, &[digit]);
        Ok(())
    }

    fn meet_scalar(&mut self, digit: u8) {
        self.met.meet(match digit {
            b'0' => Situation::Scalar0,
            b'1' => Situation::Scalar1,
            b'x' => Situation::ScalarX,
            b'X' => Situation::ScalarUpperX,
            b'z' => Situation::ScalarZ,
            _ => Situation::ScalarUpperZ,
        });
    }

    fn vector(&mut self, word: Word) -> Outcome {
        let mut digits = &word.bytes[1..];
        if digits.is_empty() || digits.iter().any(|digit| !self.is_digit(*digit)) {
            return Err(self.refused(10, word, Situation::BadVector));
        }
        let code = self.due(Situation::EndsInVector)?;
        if code.bytes == b"$end" && !self.is(Wrong::EndCode) {
            return Err(self.refused(10, code, Situation::VectorEnd));
        }
        let is_above_all = |digits: &[u8]| self.signals.iter().all(|signal| (digits.len() as u64) > signal.width);
        let is_long = code.bytes.len() > 8 && is_above_all(digits);
        self.met.meet_if(is_long, Situation::LongVectorTooLong);
        let signal = self.find(code, code.bytes, Sort::Vector)?;
        if self.signals[signal].is_real {
            let refused = self.refused(10, code, Situation::VectorOfReal);
            return if self.is(Wrong::VectorReal) { Ok(()) } else { Err(refused) };
        }
        let width = self.signals[signal].width as usize;
        while digits.len() > width && (self.is(Wrong::VectorCut) || self.is(Wrong::VectorZeros) && digits[0] == b'0') {
            digits = &digits[1..];
        }
        if digits.len() > width {
            let place = if self.is(Wrong::LongAtValue) { word } else { code };
            return Err(self.refused(10, place, Situation::VectorTooLong));
        }
        self.meet_vector(word, digits.len(), width);
        self.set_extended(signal, digits);
        Ok(())
    }

    fn meet_vector(&mut self, word: Word, len: usize, width: usize) {
        self.met.meet_if(word.bytes[0] == b'B', Situation::VectorUpper);
        self.met.meet_if(width == 1, Situation::VectorOfOne);
        self.met.meet_if(len == 4096, Situation::VectorLongest);
        self.met.meet(match word.bytes[1] {
            _ if len == width => Situation::VectorFull,
            b'0' => Situation::VectorAfter0,
            b'1' => Situation::VectorAfter1,
            b'x' | b'X' => Situation::VectorAfterX,
            _ => Situation::VectorAfterZ,
        });
    }

    /// Gives a wire its digits, with those in front that are not written.
    fn set_extended(&mut self, signal: usize, digits: &[u8]) {
        let old = self.signals[signal].digits.clone();
        let front = match (digits[0], self.wrong) {
            (b'x' | b'X', Wrong::ExtendX) | (b'Z', Wrong::ExtendZ) => b'0',
            (b'1', Wrong::ExtendOne) => b'1',
            (b'0' | b'1', _) => b'0',
            (digit, _) => digit.to_ascii_lowercase(),
        };
        let missing = old.len() - digits.len();
        let mut new = if self.is(Wrong::ExtendNot) { old[..missing].to_vec() } else { vec![front; missing] };
        new.extend(digits.iter().map(u8::to_ascii_lowercase));
        debug_assert!(!new.contains(&UNSET) || self.is(Wrong::ExtendNot));
        self.set(signal, new);
    }

    fn real(&mut self, word: Word) -> Outcome {
        let number = &word.bytes[1..];
        let is_number = std::str::from_utf8(number).is_ok_and(|text| text.parse::<f64>().is_ok());
        if number.is_empty() || self.is(Wrong::RealNumber) && !is_number {
            return Err(self.refused(10, word, Situation::BadReal));
        }
        let code = self.due(Situation::EndsInReal)?;
        if code.bytes == b"$end" && !self.is(Wrong::EndCode) {
            return Err(self.refused(10, code, Situation::RealEnd));
        }
        let signal = self.find(code, code.bytes, Sort::Real)?;
        if !self.signals[signal].is_real {
            let refused = self.refused(10, code, Situation::RealOfBits);
            return if self.is(Wrong::RealBits) { Ok(()) } else { Err(refused) };
        }
        self.has_changes = true;
        self.met.meet(if word.bytes[0] == b'r' { Situation::RealChange } else { Situation::RealChangeUpper });
        Ok(())
    }

    fn find(&mut self, word: Word, code: &[u8], sort: Sort) -> Result<usize, Refusal> {
        if code.len() > self.longest_code() {
            return Err(self.long_code(word, code, sort));
        }
        let nuls = code.iter().rev().take_while(|byte| **byte == 0).count();
        let (short, is_lost) = (&code[..code.len() - nuls], self.is(Wrong::NulLost));
        if let Some(signal) = self.codes.get(if is_lost { short } else { code }) {
            return Ok(*signal);
        }
        let has_bad_byte = code.iter().any(|byte| !(33..=126).contains(byte));
        self.met.meet_if(has_bad_byte, Situation::UndeclaredByte);
        self.met.meet_if(nuls > 0 && self.codes.contains_key(short), Situation::UndeclaredNul);
        self.met.meet_if(code == b"$end", Situation::UndeclaredEnd);
        self.met.meet_if(is_keyword(code) && code != b"$end", Situation::UndeclaredKeyword);
        let met = match sort {
            Sort::Scalar => Situation::UndeclaredScalar,
            Sort::Vector => Situation::UndeclaredVector,
            Sort::Real => Situation::UndeclaredReal,
        };
        let refused = self.refused(10, word, met);
        let last = self.codes.iter().max_by_key(|(_, signal)| **signal);
        let named = match (self.wrong, last) {
            (Wrong::IdentifierByte, _) if has_bad_byte => 0,
            (Wrong::IdentifierLast, Some((last, _))) => identifier(last, self.wrong),
            _ => identifier(code, self.wrong),
        };
        Err(Refusal { identifier: named, ..refused })
    }

    fn long_code(&mut self, word: Word, code: &[u8], sort: Sort) -> Refusal {
        let met = match sort {
            Sort::Scalar => Situation::LongScalar,
            Sort::Vector => Situation::LongVector,
            Sort::Real => Situation::LongReal,
        };
        let number = if self.is(Wrong::LongUndeclared) { 10 } else { 12 };
        let is_named = self.is(Wrong::LongUndeclared) || self.is(Wrong::LongIdentifier);
        let named = if is_named { identifier(code, self.wrong) } else { 0 };
        let refused = self.refused(number, word, met);
        Refusal { identifier: named, ..refused }
    }
}

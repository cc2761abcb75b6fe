//! What follows the declarations: stamps, changes, comments and dump blocks.

use super::codes::{packed, LONGEST};
use super::declarations::{Declared, Wire};
use super::numbers::{decimal, Number};
use super::samples::{Digit, Sampler, DIGITS};
use super::words::{Place, Word, Words};
use super::Refusal;

pub struct Changes<'c, 'a, 's> {
    pub words: Words<'a>,
    pub declared: &'c Declared,
    pub sampler: &'c mut Sampler<'s>,
}

impl<'c, 'a> Changes<'c, 'a, '_> {
    pub fn read(&mut self) -> Result<(), Refusal> {
        while let Some(word) = self.words.next() {
            match word.bytes[0] {
                b'#' => self.stamp(word)?,
                b'$' => self.command(word)?,
                _ => self.change(word)?,
            }
        }
        Ok(())
    }

    fn stamp(&mut self, word: Word) -> Result<(), Refusal> {
        match decimal(&word.bytes[1..]) {
            Some(Number::Fits(stamp)) => self.sampler.stamp(stamp, word),
            _ => Err(word.ill_formed()),
        }
    }

    fn command(&mut self, word: Word) -> Result<(), Refusal> {
        match word.bytes {
            b"$comment" => self.words.skip_to_end(),
            b"$dumpall" | b"$dumpoff" | b"$dumpon" | b"$dumpvars" => self.block(),
            _ => Err(word.ill_formed()),
        }
    }

    /// A change never begins like `$end`, a stamp or a command, so all but `$end` is left to `change`.
    fn block(&mut self) -> Result<(), Refusal> {
        loop {
            let word = self.words.due()?;
            if word.is_end() {
                return Ok(());
            }
            self.change(word)?;
        }
    }

    #[inline]
    fn change(&mut self, word: Word) -> Result<(), Refusal> {
        match word.bytes[0] {
            b'b' | b'B' => self.vector(word),
            b'r' | b'R' => self.real(word),
            first => match DIGITS[usize::from(first)] {
                Digit::None => Err(word.ill_formed()),
                digit => self.scalar(word, digit),
            },
        }
    }

    #[inline]
    fn scalar(&mut self, word: Word, digit: Digit) -> Result<(), Refusal> {
        let code = &word.bytes[1..];
        if code.is_empty() {
            return Err(word.ill_formed());
        }
        let wire = self.find(word, code)?;
        if wire.is_real || wire.width != 1 {
            return Err(word.ill_formed());
        }
        self.sampler.scalar(&wire.connections, digit);
        Ok(())
    }

    #[inline]
    fn vector(&mut self, word: Word) -> Result<(), Refusal> {
        let digits = &word.bytes[1..];
        if digits.is_empty() || digits.iter().any(|byte| DIGITS[usize::from(*byte)] == Digit::None) {
            return Err(word.ill_formed());
        }
        let code = self.code_word()?;
        let wire = self.find(code, code.bytes)?;
        if wire.is_real || digits.len() > wire.width as usize {
            return Err(code.ill_formed());
        }
        self.sampler.vector(&wire.connections, digits);
        Ok(())
    }

    fn real(&mut self, word: Word) -> Result<(), Refusal> {
        if word.bytes.len() == 1 {
            return Err(word.ill_formed());
        }
        let code = self.code_word()?;
        if self.find(code, code.bytes)?.is_real {
            Ok(())
        } else {
            Err(code.ill_formed())
        }
    }

    /// The word behind a vector or a real number.
    #[inline]
    fn code_word(&mut self) -> Result<Word<'a>, Refusal> {
        let code = self.words.due()?;
        if code.is_end() {
            return Err(code.ill_formed());
        }
        Ok(code)
    }

    #[inline]
    fn find(&self, word: Word, code: &[u8]) -> Result<&'c Wire, Refusal> {
        if code.len() > LONGEST {
            return Err(word.refused(12));
        }
        match self.declared.codes.find(code) {
            Some(wire) => Ok(&self.declared.wires[wire]),
            None => Err(undeclared(word.place(), code)),
        }
    }
}

fn undeclared(place: Place, code: &[u8]) -> Refusal {
    Refusal { number: 10, place, identifier: packed(code) }
}

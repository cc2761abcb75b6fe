//! The commands up to `$enddefinitions $end`, and what they declare.

use super::codes::{Codes, LONGEST};
use super::numbers::{decimal, Brackets, Number};
use super::samples::Connection;
use super::words::{Word, Words};
use super::Refusal;

const MOST_SCOPES: usize = 32;
const MOST_VARS: usize = 1_024;
const MOST_WIDTH: u64 = 4_096;

pub struct Wire {
    pub width: u32,
    pub is_real: bool,
    /// The first range that a declaration gives.
    range: Option<(u64, u64)>,
    pub connections: Vec<Connection>,
}

impl Wire {
    /// How many places from the right the digit of an index stands; `None` for an index outside the range.
    fn place(&self, index: u64) -> Option<u32> {
        let (left, right) = self.range.unwrap_or((u64::from(self.width) - 1, 0));
        let is_inside = (left.min(right)..=left.max(right)).contains(&index);
        is_inside.then_some(index.abs_diff(right) as u32)
    }
}

pub struct Declared {
    pub codes: Codes,
    pub wires: Vec<Wire>,
}

impl Declared {
    /// Hands every connection of the table to its wire, and answers whether all of them are good.
    pub fn connect(&mut self, table: &[u64]) -> bool {
        table.chunks_exact(2).enumerate().all(|(entry, pair)| self.connect_one(entry, pair[0], pair[1]))
    }

    fn connect_one(&mut self, entry: usize, code: u64, index: u64) -> bool {
        if code == 0 {
            // All wires but the clock may be left out.
            return entry != 0;
        }
        let Some(wire) = self.codes.find_packed(code) else { return false };
        let wire = &mut self.wires[wire];
        match wire.place(index).filter(|_| !wire.is_real) {
            Some(place) => wire.connections.push(Connection { place, entry: entry as u8 }),
            None => return false,
        }
        true
    }
}

pub struct Declarations<'w, 'a> {
    words: &'w mut Words<'a>,
    scopes: usize,
    vars: usize,
    pub declared: Declared,
}

impl<'w, 'a> Declarations<'w, 'a> {
    pub fn new(words: &'w mut Words<'a>) -> Declarations<'w, 'a> {
        let declared = Declared { codes: Codes::new(), wires: Vec::new() };
        Declarations { words, scopes: 0, vars: 0, declared }
    }

    /// Answers the `$end` of `$enddefinitions`.
    pub fn read(&mut self) -> Result<Word<'a>, Refusal> {
        loop {
            let keyword = self.words.due()?;
            match keyword.bytes {
                b"$comment" | b"$date" | b"$version" => self.words.skip_to_end()?,
                b"$timescale" => self.timescale()?,
                b"$scope" => self.scope(keyword)?,
                b"$upscope" => self.upscope(keyword)?,
                b"$var" => self.var(keyword)?,
                b"$enddefinitions" if self.scopes == 0 => return self.words.end(),
                _ => return Err(keyword.ill_formed()),
            }
        }
    }

    fn timescale(&mut self) -> Result<(), Refusal> {
        let number = self.words.due()?;
        let digits = number.bytes.iter().take_while(|byte| byte.is_ascii_digit()).count();
        if !matches!(&number.bytes[..digits], b"1" | b"10" | b"100") {
            return Err(number.ill_formed());
        }
        if digits < number.bytes.len() {
            is_unit(number, &number.bytes[digits..])?;
        } else {
            let unit = self.words.due()?;
            is_unit(unit, unit.bytes)?;
        }
        self.words.end().map(|_| ())
    }

    fn scope(&mut self, keyword: Word) -> Result<(), Refusal> {
        if self.scopes == MOST_SCOPES {
            return Err(keyword.refused(11));
        }
        let sort = self.words.due()?;
        if !matches!(sort.bytes, b"begin" | b"fork" | b"function" | b"module" | b"task") {
            return Err(sort.ill_formed());
        }
        self.name()?;
        self.scopes += 1;
        self.words.end().map(|_| ())
    }

    fn upscope(&mut self, keyword: Word) -> Result<(), Refusal> {
        self.scopes = self.scopes.checked_sub(1).ok_or(keyword.ill_formed())?;
        self.words.end().map(|_| ())
    }

    fn name(&mut self) -> Result<&'a [u8], Refusal> {
        let name = self.words.due()?;
        if name.is_end() {
            return Err(name.ill_formed());
        }
        Ok(name.bytes)
    }

    fn var(&mut self, keyword: Word) -> Result<(), Refusal> {
        if self.vars == MOST_VARS {
            return Err(keyword.refused(12));
        }
        self.vars += 1;
        let is_real = self.is_real()?;
        let width = self.width()?;
        let wire = self.code(width, is_real)?;
        let name = self.name()?;
        let range = self.range(name, width, is_real)?;
        let wire = &mut self.declared.wires[wire];
        wire.range = wire.range.or(range);
        Ok(())
    }

    fn is_real(&mut self) -> Result<bool, Refusal> {
        let sort = self.words.due()?;
        match sort.bytes {
            b"real" | b"realtime" => Ok(true),
            b"event" | b"integer" | b"parameter" | b"reg" | b"supply0" | b"supply1" | b"time" | b"tri" | b"triand"
            | b"trior" | b"trireg" | b"tri0" | b"tri1" | b"wand" | b"wire" | b"wor" => Ok(false),
            _ => Err(sort.ill_formed()),
        }
    }

    fn width(&mut self) -> Result<u32, Refusal> {
        let word = self.words.due()?;
        match decimal(word.bytes) {
            None | Some(Number::Fits(0)) => Err(word.ill_formed()),
            Some(Number::Fits(width)) if width <= MOST_WIDTH => Ok(width as u32),
            Some(_) => Err(word.refused(12)),
        }
    }

    /// The wire of this code, which may have been declared before.
    fn code(&mut self, width: u32, is_real: bool) -> Result<usize, Refusal> {
        let word = self.words.due()?;
        if word.bytes.len() > LONGEST {
            return Err(word.refused(12));
        }
        if word.is_end() || !word.bytes.iter().all(|byte| (33..=126).contains(byte)) {
            return Err(word.ill_formed());
        }
        let wires = &mut self.declared.wires;
        match self.declared.codes.find(word.bytes) {
            Some(wire) if (wires[wire].width, wires[wire].is_real) == (width, is_real) => Ok(wire),
            Some(_) => Err(word.ill_formed()),
            None => {
                self.declared.codes.insert(word.bytes, wires.len());
                wires.push(Wire { width, is_real, range: None, connections: Vec::new() });
                Ok(wires.len() - 1)
            }
        }
    }

    /// The range by a word of its own or by the end of the name, and the command's `$end`.
    fn range(&mut self, name: &[u8], width: u32, is_real: bool) -> Result<Option<(u64, u64)>, Refusal> {
        let word = self.words.due()?;
        if !word.is_end() {
            let range = Brackets::read(word.bytes).and_then(|brackets| brackets.of_width(width));
            self.words_end_behind(word, range)
        } else if let (false, Some(brackets)) = (is_real, Brackets::at_end_of(name, width)) {
            brackets.of_width(width).map(Some).ok_or(word.ill_formed())
        } else {
            Ok(None)
        }
    }

    fn words_end_behind(&mut self, word: Word, range: Option<(u64, u64)>) -> Result<Option<(u64, u64)>, Refusal> {
        if range.is_none() {
            return Err(word.ill_formed());
        }
        self.words.end()?;
        Ok(range)
    }
}

fn is_unit(word: Word, unit: &[u8]) -> Result<(), Refusal> {
    match unit {
        b"s" | b"ms" | b"us" | b"ns" | b"ps" | b"fs" => Ok(()),
        _ => Err(word.ill_formed()),
    }
}

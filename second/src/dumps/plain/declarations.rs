//! The declarations, for the plain reader.

use super::values::{Signal, UNSET};
use super::{decimal, fits, Outcome, Plain, Refusal, Word};
use crate::dumps::situations::Situation;
use crate::dumps::wrong::Wrong;

const SCOPES: [(&str, Situation); 5] = [
    ("begin", Situation::ScopeBegin),
    ("fork", Situation::ScopeFork),
    ("function", Situation::ScopeFunction),
    ("module", Situation::ScopeModule),
    ("task", Situation::ScopeTask),
];

const TYPES: [(&str, Situation); 18] = [
    ("event", Situation::TypeEvent),
    ("integer", Situation::TypeInteger),
    ("parameter", Situation::TypeParameter),
    ("real", Situation::TypeReal),
    ("realtime", Situation::TypeRealtime),
    ("reg", Situation::TypeReg),
    ("supply0", Situation::TypeSupply0),
    ("supply1", Situation::TypeSupply1),
    ("time", Situation::TypeTime),
    ("tri", Situation::TypeTri),
    ("triand", Situation::TypeTriand),
    ("trior", Situation::TypeTrior),
    ("trireg", Situation::TypeTrireg),
    ("tri0", Situation::TypeTri0),
    ("tri1", Situation::TypeTri1),
    ("wand", Situation::TypeWand),
    ("wire", Situation::TypeWire),
    ("wor", Situation::TypeWor),
];

pub const KEYWORDS: [&str; 13] = [
    "$comment",
    "$date",
    "$version",
    "$timescale",
    "$scope",
    "$upscope",
    "$var",
    "$enddefinitions",
    "$dumpall",
    "$dumpoff",
    "$dumpon",
    "$dumpvars",
    "$end",
];

pub fn is_keyword(word: &[u8]) -> bool {
    KEYWORDS.iter().any(|keyword| keyword.as_bytes() == word)
}

fn has_bad_byte(code: &[u8], most: u8) -> bool {
    code.iter().any(|byte| *byte < 33 || *byte > most)
}

/// i and j of `[i:j]`, or i of `[i]`.
type Indices = (String, Option<String>);

fn brackets(word: &[u8]) -> Option<Indices> {
    let text = std::str::from_utf8(word).ok()?;
    let inside = text.strip_prefix('[')?.strip_suffix(']')?;
    match inside.split_once(':') {
        Some((left, right)) => Some((decimal(left.as_bytes())?, Some(decimal(right.as_bytes())?))),
        None => Some((decimal(inside.as_bytes())?, None)),
    }
}

fn brackets_at_end(name: &[u8]) -> Option<(usize, Indices)> {
    let open = name.iter().rposition(|byte| *byte == b'[')?;
    Some((open, brackets(&name[open..])?))
}

/// What has been read of a `$var`.
struct Var<'a> {
    width: u64,
    is_real: bool,
    name: Word<'a>,
}

impl<'a> Plain<'a> {
    pub fn declarations(&mut self) -> Outcome {
        loop {
            let word = self.due(Situation::EndsBetween)?;
            match word.bytes {
                b"$comment" => self.skip(Situation::Comment, Situation::EndsInComment)?,
                b"$date" => self.skip(Situation::Date, Situation::EndsInDeclaration)?,
                b"$version" => self.skip(Situation::Version, Situation::EndsInDeclaration)?,
                b"$timescale" => self.timescale()?,
                b"$scope" => self.scope(word)?,
                b"$upscope" => self.upscope(word)?,
                b"$var" => self.var(word)?,
                b"$enddefinitions" => return self.enddefinitions(word),
                _ => return Err(self.refused(10, word, Situation::BadDeclaration)),
            }
        }
    }

    pub fn skip(&mut self, met: Situation, end: Situation) -> Outcome {
        while self.due(end)?.bytes != b"$end" {}
        self.met.meet(met);
        Ok(())
    }

    /// As `due_end`, but a wrong reader skips words.
    fn due_end_alone(&mut self, other: Situation, end: Situation) -> Result<Word<'a>, Refusal> {
        while self.is(Wrong::EndExtra) && self.words.get(self.at).is_some_and(|word| word.bytes != b"$end") {
            self.at += 1;
        }
        self.due_end(other, end)
    }

    fn timescale(&mut self) -> Outcome {
        let word = self.due(Situation::EndsInDeclaration)?;
        let text = String::from_utf8_lossy(word.bytes).into_owned();
        let text = if self.is(Wrong::Timescale01) { text.trim_start_matches('0').to_string() } else { text };
        let units = ["s", "ms", "us", "ns", "ps", "fs"];
        let numbers = ["1", "10", "100"];
        let is_whole = numbers.iter().any(|number| units.iter().any(|unit| format!("{number}{unit}") == text));
        if !is_whole {
            if !numbers.contains(&&text[..]) || self.is(Wrong::TimescaleTwo) {
                return Err(self.refused(10, word, Situation::BadTimescale));
            }
            let unit = self.due(Situation::EndsInDeclaration)?;
            if !units.iter().any(|known| known.as_bytes() == unit.bytes) {
                return Err(self.refused(10, unit, Situation::BadUnit));
            }
        }
        self.due_end(Situation::BadTimescaleEnd, Situation::EndsInDeclaration)?;
        self.met.meet(if is_whole { Situation::TimescaleOneWord } else { Situation::TimescaleTwoWords });
        Ok(())
    }

    fn scope(&mut self, keyword: Word) -> Outcome {
        self.scopes_in_all += 1;
        let is_too_deep = match self.wrong {
            Wrong::Scopes33 => self.scopes.len() > 32,
            Wrong::Scopes32 => self.scopes.len() > 30,
            Wrong::ScopesTotal => self.scopes_in_all > 32,
            Wrong::ScopesByEnd => false,
            _ => self.scopes.len() > 31,
        };
        if is_too_deep {
            return Err(self.refused(11, keyword, Situation::TooManyScopes));
        }
        let sort = self.due(Situation::EndsInDeclaration)?;
        let Some((_, met)) = SCOPES.iter().find(|(name, _)| name.as_bytes() == sort.bytes) else {
            return Err(self.refused(10, sort, Situation::BadScopeType));
        };
        let name = self.due(Situation::EndsInDeclaration)?;
        if name.bytes == b"$end" {
            return Err(self.refused(10, name, Situation::BadScopeName));
        }
        let end = self.due_end(Situation::BadScopeEnd, Situation::EndsInDeclaration)?;
        if self.scopes.len() == 32 && self.is(Wrong::ScopesByEnd) {
            return Err(self.refused(11, end, Situation::TooManyScopes));
        }
        self.scopes.push(name.bytes);
        self.met.meet(*met);
        self.met.meet_if(self.scopes.len() > 1, Situation::ScopeInside);
        self.met.meet_if(self.scopes.len() == 32, Situation::Scopes32);
        Ok(())
    }

    fn upscope(&mut self, keyword: Word) -> Outcome {
        let is_alone = self.scopes.pop().is_none();
        if is_alone && !self.is(Wrong::UpscopeAlone) && !self.is(Wrong::UpscopeLate) {
            return Err(self.refused(10, keyword, Situation::UpscopeAlone));
        }
        let end = self.due_end_alone(Situation::BadUpscopeEnd, Situation::EndsInDeclaration)?;
        if is_alone && self.is(Wrong::UpscopeLate) {
            return Err(self.refused(10, end, Situation::UpscopeAlone));
        }
        Ok(())
    }

    fn enddefinitions(&mut self, keyword: Word<'a>) -> Outcome {
        let is_open = !self.scopes.is_empty() && !self.is(Wrong::ScopeOpen);
        if is_open && !self.is(Wrong::ScopeOpenLate) {
            return Err(self.refused(10, keyword, Situation::ScopeOpen));
        }
        let end = self.due_end_alone(Situation::BadEnddefinitions, Situation::EndsInEnddefinitions)?;
        if is_open {
            return Err(self.refused(10, end, Situation::ScopeOpen));
        }
        let behind = self.words.get(self.at).copied().unwrap_or(end);
        self.connect(match self.wrong {
            Wrong::ThirteenEarly => keyword,
            Wrong::ThirteenLate => behind,
            _ => end,
        })
    }

    pub fn var(&mut self, keyword: Word) -> Outcome {
        let is_too_many = match self.wrong {
            Wrong::Vars1025 => self.vars > 1024,
            Wrong::Vars1024 => self.vars > 1022,
            Wrong::VarsCodes => self.codes.len() > 1023,
            Wrong::VarsLate => false,
            _ => self.vars > 1023,
        };
        if is_too_many {
            return Err(self.refused(12, keyword, Situation::TooManyVars));
        }
        let is_real = self.var_type()?;
        let width = self.width(is_real)?;
        let (signal, is_new) = self.var_code(width, is_real)?;
        let name = self.due(Situation::EndsInDeclaration)?;
        if name.bytes == b"$end" {
            return Err(self.refused(10, name, Situation::BadVarName));
        }
        let (range, end) = self.range(&Var { width, is_real, name })?;
        self.give_range(signal, range, is_new);
        if self.vars > 1023 && self.is(Wrong::VarsLate) {
            return Err(self.refused(12, end, Situation::TooManyVars));
        }
        self.vars += 1;
        self.met.meet_if(self.vars == 1024, Situation::Vars1024);
        self.met.meet_if(self.scopes.is_empty(), Situation::OutsideScope);
        Ok(())
    }

    fn var_type(&mut self) -> Result<bool, Refusal> {
        let word = self.due(Situation::EndsInDeclaration)?;
        if word.bytes == b"string" && self.is(Wrong::TypeString) {
            return Ok(false);
        }
        let Some((name, met)) = TYPES.iter().find(|(name, _)| name.as_bytes() == word.bytes) else {
            return Err(self.refused(10, word, Situation::BadVarType));
        };
        self.met.meet(*met);
        Ok(*name == "real" || *name == "realtime" && !self.is(Wrong::Realtime))
    }

    fn width(&mut self, is_real: bool) -> Result<u64, Refusal> {
        let word = self.due(Situation::EndsInDeclaration)?;
        let Some(number) = decimal(word.bytes) else {
            return Err(self.refused(10, word, Situation::BadWidth));
        };
        if is_real && self.is(Wrong::WidthReal) {
            return Ok(fits(&number).unwrap_or(u64::MAX));
        }
        let most = match self.wrong {
            Wrong::Width4097 => 4097,
            Wrong::Width4096 => 4095,
            _ => 4096,
        };
        match fits(&number) {
            None if self.is(Wrong::WidthLong) => Err(self.refused(10, word, Situation::TooWideLong)),
            None => Err(self.refused(12, word, Situation::TooWideLong)),
            Some(0) => Err(self.refused(10, word, Situation::Width0)),
            Some(width) if width > most => Err(self.refused(12, word, Situation::TooWide)),
            Some(width) => {
                self.met.meet_if(width == 4096, Situation::Width4096);
                self.met.meet_if(word.bytes[0] == b'0', Situation::WidthZeros);
                Ok(width)
            }
        }
    }

    pub fn longest_code(&self) -> usize {
        match self.wrong {
            Wrong::CodeNine => 9,
            Wrong::CodeSeven => 7,
            _ => 8,
        }
    }

    fn var_code(&mut self, width: u64, is_real: bool) -> Result<(usize, bool), Refusal> {
        let word = self.due(Situation::EndsInDeclaration)?;
        let code = word.bytes;
        let is_bad = has_bad_byte(code, if self.is(Wrong::Code127) { 127 } else { 126 });
        if code.len() > self.longest_code() && !(is_bad && self.is(Wrong::TenFirst)) {
            let met = if is_bad { Situation::LongCodeByte } else { Situation::LongCode };
            return Err(self.refused(12, word, met));
        }
        if code == b"$end" {
            return Err(self.refused(10, word, Situation::BadCodeEnd));
        }
        if is_bad || self.is(Wrong::CodeKeyword) && is_keyword(code) {
            return Err(self.refused(10, word, Situation::BadCode));
        }
        self.met.meet_if(code.len() == 8, Situation::Code8);
        self.met.meet_if(is_keyword(code), Situation::CodeKeyword);
        let Some(&signal) = self.codes.get(code) else {
            self.codes.insert(code.to_vec(), self.signals.len());
            let digits = if is_real { Vec::new() } else { vec![UNSET; width as usize] };
            self.signals.push(Signal { width, is_real, range: None, digits });
            return Ok((self.signals.len() - 1, true));
        };
        let (other_width, other_sort) = (self.signals[signal].width != width, self.signals[signal].is_real != is_real);
        if other_sort && !self.is(Wrong::AliasSort) || self.is(Wrong::AliasRefused) {
            return Err(self.refused(10, word, Situation::OtherSort));
        }
        if other_width && !self.is(Wrong::AliasWidth) {
            return Err(self.refused(10, word, Situation::OtherWidth));
        }
        self.met.meet(if is_real { Situation::AliasOfReal } else { Situation::Alias });
        Ok((signal, false))
    }

    /// The range that the declaration gives, and its `$end`.
    fn range(&mut self, var: &Var<'a>) -> Result<(Option<(u64, u64)>, Word<'a>), Refusal> {
        let word = self.due(Situation::EndsInDeclaration)?;
        if word.bytes == b"$end" {
            return Ok((self.name_range(var, word)?, word));
        }
        let Some((left, right)) = brackets(word.bytes).filter(|two| two.1.is_some() || !self.is(Wrong::RangeOne)) else {
            return Err(self.refused(10, word, Situation::BadRange));
        };
        let is_one = right.is_none();
        let right = right.unwrap_or(left.clone());
        let cut = |number: &str| number.bytes().fold(0u64, |n, d| n.wrapping_mul(10).wrapping_add(u64::from(d - b'0')));
        let range = match (fits(&left), fits(&right)) {
            (Some(left), Some(right)) => (left, right),
            _ if self.is(Wrong::RangeAbove) => (cut(&left), cut(&right)),
            _ => return Err(self.refused(10, word, Situation::RangeAbove)),
        };
        if !self.has_width(range, var) {
            let met = if var.is_real { Situation::RangeWidthOfReal } else { Situation::RangeWidth };
            return Err(self.refused(10, word, met));
        }
        let end = self.due_end(Situation::BadVarEnd, Situation::EndsInDeclaration)?;
        self.meet_range(range, is_one, var.is_real);
        self.met.meet_if(word.bytes.starts_with(b"[0") && word.bytes[2].is_ascii_digit(), Situation::RangeZeros);
        self.met.meet_if(brackets_at_end(var.name.bytes).is_some(), Situation::NameAndWord);
        if self.is(Wrong::NameBeside) {
            self.name_range(var, end)?;
        }
        Ok((Some(range), end))
    }

    fn has_width(&self, (left, right): (u64, u64), var: &Var) -> bool {
        let is_free = self.is(Wrong::RangeWidth) || self.is(Wrong::RangeReal) && var.is_real;
        is_free || u128::from(left.abs_diff(right)) + 1 == u128::from(var.width)
    }

    fn meet_range(&mut self, (left, right): (u64, u64), is_one: bool, is_real: bool) {
        self.met.meet_if(is_real, Situation::RangeOfReal);
        self.met.meet_if(is_one, Situation::RangeOne);
        self.met.meet_if(left > right, Situation::RangeDown);
        self.met.meet_if(left < right, Situation::RangeUp);
        self.met.meet_if(left.max(right) >> 32 != 0, Situation::RangeHigh);
        self.met.meet_if(left.max(right) == u64::MAX, Situation::RangeHighest);
    }

    /// Whether the brackets at this place belong to the name, whatever is between them.
    fn is_part_of_name(&mut self, var: &Var, open: usize) -> bool {
        let name = var.name.bytes;
        let is_escaped = name[0] == b'\\';
        let (wrong, met) = if var.is_real {
            (self.is(Wrong::NameReal), Situation::NameOfReal)
        } else if open == 0 {
            (self.is(Wrong::NameAlone), Situation::NameAlone)
        } else if is_escaped && open == 1 {
            (self.is(Wrong::NameBackslash) || self.is(Wrong::NameEscaped), Situation::NameBackslash)
        } else if is_escaped && name[open - 1] != b'\\' {
            (self.is(Wrong::NameEscaped), Situation::NameEscapedPlain)
        } else {
            return self.is(Wrong::NameNever) || is_escaped && self.is(Wrong::NameEscapedNot);
        };
        self.met.meet(met);
        !wrong
    }

    fn name_range(&mut self, var: &Var<'a>, end: Word<'a>) -> Result<Option<(u64, u64)>, Refusal> {
        let name = var.name.bytes;
        let Some((open, (left, right))) = brackets_at_end(name) else {
            self.met.meet_if(name.contains(&b'[') && name.ends_with(b"]"), Situation::NameOther);
            return Ok(None);
        };
        if self.is_part_of_name(var, open) {
            return Ok(None);
        }
        let place = if self.is(Wrong::NameEarly) { var.name } else { end };
        let is_one = right.is_none();
        let right = right.unwrap_or(left.clone());
        let ends = fits(&left).zip(fits(&right));
        if is_one && var.width != 1 && !self.is(Wrong::NameWide) {
            self.met.meet(if ends.is_some() { Situation::NameWide } else { Situation::NameWideAbove });
            let is_bad = ends.is_none() && self.is(Wrong::NameWideAbove);
            return if is_bad { Err(self.refused(10, place, Situation::NameAbove)) } else { Ok(None) };
        }
        let Some(range) = ends else {
            let refused = self.refused(10, place, Situation::NameAbove);
            return if self.is(Wrong::NameAbove) { Ok(None) } else { Err(refused) };
        };
        if !self.has_width(range, var) {
            return Err(self.refused(10, place, Situation::NameWidth));
        }
        self.meet_name_range(name, range, is_one);
        Ok(Some(range))
    }

    fn meet_name_range(&mut self, name: &[u8], (left, right): (u64, u64), is_one: bool) {
        self.met.meet_if(left > right, Situation::NameDown);
        self.met.meet_if(left < right, Situation::NameUp);
        self.met.meet_if(is_one, Situation::NameOne);
        self.met.meet_if(name[0] == b'\\', Situation::NameEscaped);
    }

    fn give_range(&mut self, signal: usize, range: Option<(u64, u64)>, is_new: bool) {
        let before = self.signals[signal].range;
        self.met.meet_if(!is_new && before.is_none() && range.is_some(), Situation::AliasGivesRange);
        self.met.meet_if(before.is_some() && range.is_some() && before != range, Situation::AliasOtherRange);
        self.signals[signal].range = match self.wrong {
            Wrong::AliasLast => range.or(before),
            Wrong::AliasFirst if !is_new => before,
            _ => before.or(range),
        };
    }
}

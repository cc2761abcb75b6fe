//! The text as words. Only the place of a word is kept: its line is counted where a refusal names it.

use super::Refusal;

#[derive(Clone, Copy, Debug)]
pub enum Place {
    /// The offset of a word's first byte.
    At(usize),
    End,
}

#[derive(Clone, Copy)]
pub struct Word<'a> {
    pub bytes: &'a [u8],
    start: usize,
}

impl Word<'_> {
    pub fn place(&self) -> Place {
        Place::At(self.start)
    }

    pub fn refused(&self, number: u32) -> Refusal {
        Refusal { number, place: self.place(), identifier: 0 }
    }

    pub fn ill_formed(&self) -> Refusal {
        self.refused(10)
    }

    pub fn is_end(&self) -> bool {
        self.bytes == b"$end"
    }
}

const fn is_space(byte: u8) -> bool {
    byte <= b' ' && (byte == b' ' || (byte >= 9 && byte <= 13))
}

/// The text without a last word that nothing stands behind.
pub fn ended(text: &[u8]) -> &[u8] {
    let end = text.iter().rposition(|byte| is_space(*byte)).map_or(0, |last| last + 1);
    &text[..end]
}

pub struct Words<'a> {
    text: &'a [u8],
    at: usize,
}

impl<'a> Words<'a> {
    pub fn new(text: &'a [u8]) -> Words<'a> {
        Words { text, at: 0 }
    }

    /// A word where the text must not end yet.
    pub fn due(&mut self) -> Result<Word<'a>, Refusal> {
        self.next().ok_or(Refusal { number: 10, place: Place::End, identifier: 0 })
    }

    /// The word `$end` and no other.
    pub fn end(&mut self) -> Result<Word<'a>, Refusal> {
        let word = self.due()?;
        if word.is_end() {
            Ok(word)
        } else {
            Err(word.ill_formed())
        }
    }

    pub fn skip_to_end(&mut self) -> Result<(), Refusal> {
        while !self.due()?.is_end() {}
        Ok(())
    }
}

impl<'a> Iterator for Words<'a> {
    type Item = Word<'a>;

    #[inline]
    fn next(&mut self) -> Option<Word<'a>> {
        let rest = &self.text[self.at..];
        let front = rest.iter().position(|byte| !is_space(*byte))?;
        let rest = &rest[front..];
        let len = rest.iter().position(|byte| is_space(*byte)).unwrap_or(rest.len());
        let start = self.at + front;
        self.at = start + len;
        Some(Word { bytes: &rest[..len], start })
    }
}

/// The line that a place is named by; at the end it is the number of lines.
pub fn line(text: &[u8], place: Place) -> u64 {
    let ends = |text: &[u8]| text.iter().filter(|byte| **byte == b'\n').count() as u64;
    match place {
        Place::At(start) => 1 + ends(&text[..start]),
        Place::End => ends(text) + u64::from(text.last().is_some_and(|byte| *byte != b'\n')),
    }
}

//! A dump as words with what each of them is, so that a fault can be put in a certain place, and how it becomes text.

use crate::generate::Random;

#[derive(Clone, Copy, PartialEq, Debug)]
pub enum Role {
    /// The keyword of a declaration.
    Keyword,
    Timescale,
    ScopeType,
    ScopeName,
    Type,
    Width,
    Code,
    Name,
    Range,
    /// A word of a comment.
    Text,
    End,
    Stamp,
    Scalar,
    Vector,
    VectorCode,
    Real,
    RealCode,
    /// The keyword of a dump block.
    Block,
    /// The keyword of a comment among the changes.
    LateComment,
}

#[derive(Clone)]
pub struct Token {
    pub role: Role,
    pub bytes: Vec<u8>,
}

impl Token {
    pub fn new(role: Role, bytes: impl Into<Vec<u8>>) -> Token {
        Token { role, bytes: bytes.into() }
    }

    fn begins_line(&self) -> bool {
        use Role::*;
        matches!(self.role, Keyword | Stamp | Scalar | Vector | Real | Block | LateComment)
    }
}

/// A place of a token of one of these roles.
pub fn pick(random: &mut Random, tokens: &[Token], roles: &[Role]) -> Option<usize> {
    let places: Vec<usize> = (0..tokens.len()).filter(|i| roles.contains(&tokens[*i].role)).collect();
    if places.is_empty() {
        None
    } else {
        Some(random.pick(&places))
    }
}

/// A place of a keyword.
pub fn pick_word(random: &mut Random, tokens: &[Token], word: &[u8]) -> Option<usize> {
    let is_keyword = |token: &Token| token.role == Role::Keyword && token.bytes == word;
    let places: Vec<usize> = (0..tokens.len()).filter(|i| is_keyword(&tokens[*i])).collect();
    if places.is_empty() {
        None
    } else {
        Some(random.pick(&places))
    }
}

/// The place of the first `$end` behind a place.
pub fn end_behind(tokens: &[Token], place: usize) -> Option<usize> {
    (place..tokens.len()).find(|i| tokens[*i].role == Role::End)
}

#[derive(Clone, Copy, PartialEq)]
enum Layout {
    Lines,
    ReturnsAndLines,
    OneLine,
    WordALine,
    Wild,
}

fn space(random: &mut Random, layout: Layout, token: &Token) -> Vec<u8> {
    match layout {
        Layout::OneLine => b" ".to_vec(),
        Layout::WordALine => b"\n".to_vec(),
        Layout::Lines if token.begins_line() => b"\n".to_vec(),
        Layout::ReturnsAndLines if token.begins_line() => b"\r\n".to_vec(),
        Layout::Lines | Layout::ReturnsAndLines => b" ".to_vec(),
        Layout::Wild => {
            let len = random.pick(&[1, 1, 1, 2, 3, 5]);
            (0..len).map(|_| random.pick(&[9, 10, 10, 11, 12, 13, 32, 32])).collect()
        }
    }
}

/// The tokens as text, the white space of one sort or of all.
pub fn text(random: &mut Random, tokens: &[Token]) -> Vec<u8> {
    use Layout::*;
    let layout = random.pick(&[Lines, Lines, Lines, ReturnsAndLines, OneLine, WordALine, WordALine, Wild, Wild]);
    let mut text = Vec::new();
    for (i, token) in tokens.iter().enumerate() {
        if i > 0 || random.chance(100) {
            text.extend(space(random, layout, token));
        }
        text.extend(&token.bytes);
    }
    match random.below(8) {
        0..=3 => text.extend(b"\n"),
        4 => text.extend(b"\r\n"),
        5 => text.extend(random.pick(&[&b" "[..], b"\n\n\n", b"\t", b"\n ", b"\r", b"\x0c"])),
        _ => {}
    }
    text
}

//! What stands where a dump is cut. Only accepted dumps are looked at, so that every word is what its place says.

use crate::dumps::tokens::Role;
use std::ops::Range;

#[derive(Clone)]
pub struct Word {
    pub place: Range<usize>,
    pub role: Role,
    pub is_in_block: bool,
}

/// What the next word is.
#[derive(Clone, Copy)]
enum Due {
    Declaration,
    /// The words of a command, one after the other; behind them the last one again, up to `$end`.
    Inside(&'static [Role]),
    EndOfDeclarations,
    Change,
    Code(Role),
    LateText,
}

fn is_white(byte: u8) -> bool {
    matches!(byte, 9..=13 | 32)
}

fn words(dump: &[u8]) -> Vec<Range<usize>> {
    let mut words = Vec::new();
    let mut start = None;
    for (at, byte) in dump.iter().enumerate() {
        match (is_white(*byte), start) {
            (true, Some(first)) => {
                words.push(first..at);
                start = None;
            }
            (false, None) => start = Some(at),
            _ => {}
        }
    }
    words.extend(start.map(|first| first..dump.len()));
    words
}

fn declaration(word: &[u8]) -> Due {
    Due::Inside(match word {
        b"$enddefinitions" => return Due::EndOfDeclarations,
        b"$timescale" => &[Role::Timescale],
        b"$scope" => &[Role::ScopeType, Role::ScopeName],
        b"$var" => &[Role::Type, Role::Width, Role::Code, Role::Name, Role::Range],
        _ => &[Role::Text],
    })
}

fn change(word: &[u8]) -> (Role, Due) {
    match word[0] {
        b'#' => (Role::Stamp, Due::Change),
        b'b' | b'B' => (Role::Vector, Due::Code(Role::VectorCode)),
        b'r' | b'R' => (Role::Real, Due::Code(Role::RealCode)),
        b'$' if word == b"$comment" => (Role::LateComment, Due::LateText),
        b'$' if word == b"$end" => (Role::End, Due::Change),
        b'$' => (Role::Block, Due::Change),
        _ => (Role::Scalar, Due::Change),
    }
}

/// The words of an accepted dump with what each of them is.
pub fn roles(dump: &[u8]) -> Vec<Word> {
    let mut due = Due::Declaration;
    let mut is_in_block = false;
    let role = |place: Range<usize>| {
        let word = &dump[place.clone()];
        let (role, next) = match due {
            Due::Declaration => (Role::Keyword, declaration(word)),
            Due::Inside(_) if word == b"$end" => (Role::End, Due::Declaration),
            Due::Inside([role, rest @ ..]) if !rest.is_empty() => (*role, Due::Inside(rest)),
            Due::Inside(roles) => (roles[0], due),
            Due::EndOfDeclarations => (Role::End, Due::Change),
            Due::LateText if word == b"$end" => (Role::End, Due::Change),
            Due::LateText => (Role::Text, due),
            Due::Code(role) => (role, Due::Change),
            Due::Change => change(word),
        };
        let ends_block = role == Role::End;
        is_in_block = (is_in_block || role == Role::Block) && !ends_block;
        due = next;
        Word { place, role, is_in_block }
    };
    words(dump).into_iter().map(role).collect()
}

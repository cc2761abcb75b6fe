//! Damage without a plan: words and bytes of a dump that are lost, doubled, exchanged or made up.

use super::tokens::{Role, Token};
use crate::generate::Random;

/// Words that mean something to a reader of dumps.
const VOCABULARY: [&str; 48] = [
    "$comment",
    "$date",
    "$version",
    "$timescale",
    "$scope",
    "$upscope",
    "$var",
    "$enddefinitions",
    "$end",
    "$dumpall",
    "$dumpoff",
    "$dumpon",
    "$dumpvars",
    "module",
    "begin",
    "wire",
    "reg",
    "real",
    "realtime",
    "event",
    "1",
    "8",
    "0",
    "4096",
    "4097",
    "1ns",
    "10",
    "ps",
    "clk",
    "!",
    "\"",
    "#",
    "#0",
    "#1",
    "#10",
    "#18446744073709551615",
    "#18446744073709551616",
    "0!",
    "1!",
    "x!",
    "z\"",
    "b0",
    "b1",
    "bx",
    "b10",
    "r1.5",
    "[0]",
    "[7:0]",
];

fn word(random: &mut Random, tokens: &[Token]) -> Token {
    if tokens.is_empty() || random.chance(512) {
        return Token::new(Role::Text, random.pick(&VOCABULARY));
    }
    tokens[random.below(tokens.len())].clone()
}

pub fn damage_words(random: &mut Random, tokens: &mut Vec<Token>) {
    if tokens.is_empty() {
        return;
    }
    let place = random.below(tokens.len());
    let another = random.below(tokens.len());
    match random.below(7) {
        0 => _ = tokens.remove(place),
        1 => tokens.insert(place, tokens[place].clone()),
        2 => tokens.swap(place, (place + 1).min(another.max(place))),
        3 => tokens.swap(place, another),
        4 => tokens[place] = word(random, tokens),
        5 => tokens.insert(place, word(random, tokens)),
        _ => drop(tokens.drain(place.min(another)..place.max(another).min(place.min(another) + 6))),
    }
}

/// A text of such words alone, seldom of any sense.
pub fn nonsense(random: &mut Random) -> Vec<Token> {
    let words = random.pick(&[0, 0, 1, 2, 4, 8, 12]);
    let mut tokens: Vec<Token> = (0..words).map(|_| word(random, &[])).collect();
    if random.chance(512) {
        let front = "$var wire 1 ! a $end $var real 8 \" b $end $enddefinitions $end".split(' ');
        tokens.splice(0..0, front.map(|word| Token::new(Role::Text, word)));
    }
    tokens
}

fn lengthen_number(random: &mut Random, text: &mut Vec<u8>) {
    let digits: Vec<usize> = (0..text.len()).filter(|i| text[*i].is_ascii_digit()).collect();
    if !digits.is_empty() {
        let place = random.pick(&digits);
        let (more, digit) = (random.pick(&[1, 3, 19, 20, 21, 80]), random.pick(b"0019"));
        text.splice(place..place, vec![digit; more]);
    }
}

pub fn damage_bytes(random: &mut Random, text: &mut Vec<u8>) {
    if text.is_empty() {
        return;
    }
    let place = random.below(text.len());
    let any = random.next() as u8;
    let byte = random
        .pick(&[any, b' ', b'\n', b'\r', 11, 12, 0, 31, 127, 160, 255, b'$', b'#', b'b', b'0', b'1', b'x', b'[', b'\\']);
    match random.below(8) {
        0 => text[place] ^= 1 << random.below(8),
        1 => text[place] = byte,
        2 => _ = text.remove(place),
        3 => text.insert(place, byte),
        4 | 5 => text.truncate(place),
        6 => lengthen_number(random, text),
        _ => {
            let end = (place + 1 + random.below(30)).min(text.len());
            let copy = text[place..end].to_vec();
            text.splice(place..place, copy);
        }
    }
}

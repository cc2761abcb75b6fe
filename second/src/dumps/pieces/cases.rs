//! Dumps in pieces whose answers were worked out by hand, call by call, from the sentences on pieces.

use super::calls::{Arrival, Reader};
use super::ways::{piece, Lending, Step, END};
use super::wrong::{Slip, Slipping};
use crate::cases::{same, same_entries};
use crate::dumps::inputs::Input;
use crate::dumps::reader::{Loaded, FRAME_WORDS, MOST_FRAMES, TABLE_WORDS};
use crate::dumps::tables::number_of;

/// What stands in the frames before the first call.
const BEFORE: u32 = 0x5a5a_5a5a;

struct Case {
    name: &'static str,
    table: Vec<u64>,
    /// Words of frames that are lent each time.
    words: usize,
    calls: Vec<(Step<'static>, Loaded)>,
    frames: Vec<[u32; FRAME_WORDS]>,
}

/// Three lines; what follows begins in line 4.
pub const HEAD: &[u8] = b"$var wire 1 ! clk $end\n$var reg 4 \" d $end\n$enddefinitions $end\n";

/// The clock is `!`, and wires 0 to 3 of P are the indices 0 to 3 of `"`.
pub fn table() -> Vec<u64> {
    let mut table = vec![0; TABLE_WORDS];
    table[0] = number_of(b"!");
    for index in 0..4 {
        (table[2 * (33 + index)], table[2 * (33 + index) + 1]) = (number_of(b"\""), index as u64);
    }
    table
}

const fn p(value: u32, unknown: u32) -> [u32; FRAME_WORDS] {
    [0, value, 0, 0, 0, unknown, 0, 0]
}

const fn done(frames: u64) -> Loaded {
    Loaded { refusal: 0, frames, line: 0, identifier: 0 }
}

const fn over(frames: u64) -> Loaded {
    Loaded { refusal: 17, frames, line: 0, identifier: 0 }
}

const fn refused(refusal: u32, frames: u64, line: u64) -> Loaded {
    Loaded { refusal, frames, line, identifier: 0 }
}

const fn at(text: &'static str) -> Step<'static> {
    piece(text.as_bytes())
}

/// The call with other frames, of so many words.
const fn other(step: Step<'static>, words: usize) -> Step<'static> {
    Step { lending: Lending::Others(words), ..step }
}

/// A piece that is accepted, without a sample so far.
const fn taken(text: &'static str) -> (Step<'static>, Loaded) {
    (at(text), done(0))
}

/// A dump of which nothing is sampled.
fn case(name: &'static str, calls: &[(Step<'static>, Loaded)]) -> Case {
    Case { name, table: table(), words: 2 * FRAME_WORDS, calls: calls.to_vec(), frames: Vec::new() }
}

/// A dump whose declarations have arrived, and the frames that it leaves.
fn later(name: &'static str, calls: &[(Step<'static>, Loaded)], frames: &[[u32; FRAME_WORDS]]) -> Case {
    let calls = [&[(piece(HEAD), done(0))], calls].concat();
    Case { frames: frames.to_vec(), ..case(name, &calls) }
}

impl Case {
    fn with_frames(self, frames: usize) -> Case {
        Case { words: FRAME_WORDS * frames, ..self }
    }

    fn with_table(mut self, words: usize) -> Case {
        self.table.resize(words, 0);
        self
    }
}

fn changes_cut() -> Vec<Case> {
    let x = p(0, 15);
    let rise = taken("0! #1 1! #");
    let back = (at("0! #5 1! #6 #1"), done(1));
    let vector = [taken("0! b0"), taken("101"), taken(" "), taken("\" #1 1! "), (END, done(1))];
    let comment = [taken("0! $comment #1 1"), taken("! $e"), taken("nd #2"), taken(" 1!"), (END, done(1))];
    vec![
        later("clock cut", &[taken("0"), taken("! #1 1"), taken("! #2"), (at(" "), done(1))], &[x]),
        later("stamp cut", &[rise, taken("1"), taken("0"), (at("\n"), done(1)), (END, done(1))], &[x]),
        later("stamp cut, equal", &[rise, taken("1"), taken("\n"), (END, done(1))], &[x]),
        later("stamp cut, greater by its end", &[back, (at("0 "), done(1)), (END, done(1))], &[x]),
        later("stamp cut, back", &[back, (at("\n"), refused(14, 1, 4))], &[x]),
        later("vector and identifier", &vector, &[p(5, 0)]),
        later("comment cut", &comment, &[x]),
        later("empty piece in a word", &[taken("0! #1 1"), taken(""), taken("!"), (END, done(1))], &[x]),
        later("unfinished vector", &[taken("0! #1 1! b1 "), (END, refused(10, 0, 4)), (at("\""), refused(10, 0, 4))], &[]),
    ]
}

fn declarations_cut() -> Vec<Case> {
    let range = taken("$var wire 4 ! a [3:");
    let returns = [taken("$comment a\r"), taken("\n$end\r"), taken("\nx"), (at("\r"), refused(10, 0, 3))];
    vec![
        case("keyword cut", &[taken("$com"), taken("ment a $en"), (at("d x "), refused(10, 0, 1))]),
        case("cut between 13 and 10", &returns),
        case("width cut", &[taken("\n\n$var wire 40"), taken("9"), (at("7\n"), refused(12, 0, 3))]),
        case("width cut, good", &[taken("$var wire 40"), taken("9"), taken("6\n"), (END, refused(10, 0, 1))]),
        case("range cut", &[range, taken("0"), taken("]"), taken(" "), (END, refused(10, 0, 1))]),
        case("range cut, bad", &[range, taken("1"), (at("]\n"), refused(10, 0, 1))]),
    ]
}

/// What only the end shows.
fn ends() -> Vec<Case> {
    let at_once = refused(10, 0, 0);
    vec![
        case("no piece", &[(END, at_once), (END, at_once), (piece(HEAD), at_once)]),
        case("empty pieces", &[taken(""), taken(""), (END, at_once)]),
        case("lines", &[taken("\n"), taken("\n"), taken(" "), (END, refused(10, 0, 3))]),
        case("lines, all ended", &[taken("\n"), taken("\n"), taken(""), (END, refused(10, 0, 2))]),
        case("last line, empty piece", &[taken("\n$var"), taken(""), (END, refused(10, 0, 2))]),
        case("13 at the end", &[taken("$enddefinitions\n$end"), (END, refused(13, 0, 2)), (at(" "), refused(13, 0, 2))]),
        later("16 at the end", &[taken("0!\n#1\n1!"), (END, refused(16, 0, 6))], &[]).with_frames(0),
    ]
}

fn refusals() -> Vec<Case> {
    let x = p(0, 15);
    let named = Loaded { identifier: number_of(b"??"), ..refused(10, 0, 5) };
    let full = [(at("0! #1 1! #2 0! #3 1! "), done(1)), (at("#4"), done(1)), (at("\n"), refused(16, 1, 4))];
    let mut scopes = [taken("$sco"), taken("pe"), (at("\n"), refused(11, 0, 33))].to_vec();
    scopes.splice(0..0, vec![taken("$scope module a $end\n"); 32]);
    vec![
        later("identifier", &[taken("\n0?"), taken("?"), (at("\n0! "), named), (END, named), (at("\n"), named)], &[]),
        case("11", &scopes),
        later("12", &[taken("0123456789"), (at("\n"), refused(12, 0, 4)), (END, refused(12, 0, 4))], &[]),
        case("13", &[taken("$enddef"), taken("initions $e"), taken("nd"), (at(" "), refused(13, 0, 1))]),
        later("16", &full, &[x]).with_frames(1),
        later("samples of a refused piece", &[taken("0! #1 1! "), (at("#2 0! #3 1! #4 x y"), refused(10, 2, 4))], &[x, x]),
        later("more behind the refusal", &[(at("#2 #1 #3 x"), refused(14, 0, 4)), (at("\n\n"), refused(14, 0, 4))], &[]),
    ]
}

fn over_or_bad_lengths() -> Vec<Case> {
    let x = p(0, 15);
    let (ragged, long) = (FRAME_WORDS + 1, FRAME_WORDS * (MOST_FRAMES + 1));
    let (four, five, ten) = (refused(4, 0, 0), refused(5, 0, 0), refused(10, 0, 1));
    let sample = (at("0! #1 1! #2 "), done(1));
    let end = (END, done(1));
    vec![
        later("over", &[sample, end, (END, over(1)), (at(""), over(1)), (at("? "), over(1)), (END, over(1))], &[x]),
        later("over, no frames", &[(END, done(0)), (at("\n"), over(0)), (END, over(0))], &[]),
        later("17 ahead of 4", &[sample, end, (other(at(""), 3), over(1)), (other(END, long), over(1))], &[x]),
        case("4", &[(other(piece(HEAD), ragged), four), (piece(HEAD), four), (END, four)]),
        case("4 by the end", &[(other(END, long), four), (END, four)]),
        later("4 behind a sample", &[sample, (other(at("0! "), 4), four), (END, four), (at("0! "), four)], &[x]),
        case("10 ahead of 4", &[(at("x "), ten), (other(END, 1), ten)]),
        case("5", &[(at(""), five), (piece(HEAD), five), (other(END, 1), five)]).with_table(257),
        case("5 by the end", &[(END, five), (other(at(""), 1), five)]).with_table(0),
        case("4 ahead of 5", &[(other(at(""), 1), four), (at(""), four), (END, four)]).with_table(259),
    ]
}

fn other_frames() -> Vec<Case> {
    let x = p(0, 15);
    let fewer = [
        (at("0! #1 1! #2 0! #3 1! #4 "), done(2)),
        (other(at("0! "), FRAME_WORDS), done(2)),
        (other(at("#5 1! "), 0), done(2)),
        (other(at("#6 "), FRAME_WORDS), refused(16, 2, 4)),
        (END, refused(16, 2, 4)),
    ];
    let more = [
        (at("0! #1 1! #2 "), done(1)),
        (other(at("0! #3 1! #4 0! #5 1! #6 "), 5 * FRAME_WORDS), done(3)),
        (END, done(3)),
        (END, over(3)),
    ];
    vec![later("fewer than were sampled", &fewer, &[x, x]), later("others, and more", &more, &[x])]
}

fn compare_case<R: Reader>(reader: &R, case: &Case) -> Result<(), String> {
    let input = Input { dump: Vec::new(), table: case.table.clone(), frames: vec![BEFORE; case.words], is_good: false };
    let mut arrival = Arrival::begin(reader, &input)?;
    for (i, (step, answer)) in case.calls.iter().enumerate() {
        let made = arrival.call(*step).map_err(|difference| format!("call {i}: {difference}"))?;
        same(&format!("call {i} and by hand"), made.answer, *answer)?;
    }
    let mut frames = case.frames.concat();
    frames.resize(case.words, BEFORE);
    same_entries("frames and by hand", &arrival.frames, &frames)
}

/// Every word of a state altered: before the declarations end, among the changes, and in a word.
#[cfg(pieces)]
fn each_word() -> Result<u64, String> {
    let behind = b" 5 % c [4:0] $end $enddefinitions $end 0! #5 1! b10 \" #6 0! x";
    let changes = [HEAD, b"0! b0101 \" #1 1! #2 0! #3 "].concat();
    let fronts = [&HEAD[..35], &changes, b"$comment a $end\n$var wire"];
    super::spoilt::compare_each_word(&table(), fronts, behind)
}

#[cfg(not(pieces))]
fn each_word() -> Result<u64, String> {
    Ok(0)
}

/// Answers how many cases there are, and how many altered states got an answer.
pub fn compare() -> Result<String, String> {
    let parts = [changes_cut(), declarations_cut(), ends(), refusals(), over_or_bad_lengths(), other_frames()];
    let cases: Vec<Case> = parts.into_iter().flatten().collect();
    for case in &cases {
        let named = |difference| format!("dump in pieces by hand, {}: {difference}", case.name);
        compare_case(&super::library(), case).map_err(named)?;
        compare_case(&Slipping::new(Slip::Nothing), case).map_err(|d| named(format!("plain reader: {d}")))?;
    }
    Ok(format!("{}, and {} states with a word altered", cases.len(), each_word()?))
}

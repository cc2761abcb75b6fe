//! Dumps whose answers and frames were worked out by hand from the sentences on dumps. Both readers and the library are held
//! against them, and against each other on every beginning of each of these texts.

use super::compare::{self, Due, Loader};
use super::inputs::Input;
use super::pieces;
use super::reader::{Loaded, FRAME_WORDS, MOST_FRAMES, TABLE_WORDS};
use super::tables::number_of;
use super::wrong::Wrong;

/// Entries of the table: the clock, and the first wire of each word.
const CLOCK: usize = 0;
const RESET: usize = 1;
const P: usize = 33;
const Q: usize = 65;
const R: usize = 97;

/// What stands in the frames before a call.
const BEFORE: u32 = 0x5a5a_5a5a;

type Pair = (usize, &'static str, u64);

struct Case {
    name: &'static str,
    dump: Vec<u8>,
    table: Vec<u64>,
    /// Words of frames that are lent.
    words: usize,
    loaded: Loaded,
    frames: Vec<[u32; FRAME_WORDS]>,
}

/// The clock is `!`, and wires 0 to 3 of P are the indices 0 to 3 of `"`.
const PAIRS: [Pair; 5] = [(CLOCK, "!", 0), (P, "\"", 0), (P + 1, "\"", 1), (P + 2, "\"", 2), (P + 3, "\"", 3)];

fn table(pairs: &[Pair]) -> Vec<u64> {
    let mut table = vec![0; TABLE_WORDS];
    for (entry, code, index) in pairs {
        (table[2 * entry], table[2 * entry + 1]) = (number_of(code.as_bytes()), *index);
    }
    table
}

/// A frame with these values and unknown bits of P, and all else 0.
const fn p(value: u32, unknown: u32) -> [u32; FRAME_WORDS] {
    [0, value, 0, 0, 0, unknown, 0, 0]
}

/// A dump that is accepted, with a frame of room behind those sampled.
fn done(name: &'static str, dump: impl Into<Vec<u8>>, pairs: &[Pair], frames: &[[u32; FRAME_WORDS]]) -> Case {
    let loaded = Loaded { refusal: 0, frames: frames.len() as u64, line: 0, identifier: 0 };
    let words = FRAME_WORDS * (frames.len() + 1);
    Case { name, dump: dump.into(), table: table(pairs), words, loaded, frames: frames.to_vec() }
}

/// A dump that is refused at a line, without a sample, and perhaps with an identifier.
fn refused(name: &'static str, dump: impl Into<Vec<u8>>, refusal: u32, line: u64, identifier: &str) -> Case {
    let loaded = Loaded { refusal, frames: 0, line, identifier: number_of(identifier.as_bytes()) };
    Case { name, dump: dump.into(), table: table(&PAIRS), words: 2 * FRAME_WORDS, loaded, frames: Vec::new() }
}

/// Four lines of declarations, with a real too; what follows begins in line 5.
fn later(changes: &str) -> Vec<u8> {
    let head = "$var wire 1 ! clk $end\n$var reg 4 \" d $end\n$var real 64 % level $end\n$enddefinitions $end\n";
    [head, changes].concat().into()
}

/// The declaration of `"` as given, a clock, and one sample where `"` has the digits 0011.
fn sampled(declaration: &str) -> Vec<u8> {
    format!("$var wire 1 ! clk $end\n{declaration}\n$enddefinitions $end\n0!\nb0011 \"\n#1\n1!\n").into()
}

fn samples() -> Vec<Case> {
    let x = p(0, 15);
    vec![
        done("before the changes", later("#0\n0!\nb0101 \"\n#5\n1!\nb1010 \"\n#10\n0!\n"), &PAIRS, &[p(5, 0)]),
        done("no value yet", later("#0\n0!\n#1\n1!\n#2\n"), &PAIRS, &[x]),
        done("at the end, without byte 10", later("#0 0! #1 1!"), &PAIRS, &[x]),
        done("changes before the first stamp", later("0! b11 \" #0 1!"), &PAIRS, &[p(3, 0)]),
        done("a rise before the first stamp", later("0! 1! #0 b11 \" #1"), &PAIRS, &[]),
        done("equal stamps", later("#0 0! b1000 \" #1 b1 \" #1 1! #1 b111 \" #2 0!"), &PAIRS, &[p(8, 0)]),
        done("equal stamps, risen before", later("#0 0! #1 1! #01 0! #1 b1 \" #2"), &PAIRS, &[]),
        done("x clock", later("#0 x! #1 1! #2 0! #3 x! #4 1! #5 0! #6 z! #7 Z! 1! #8"), &PAIRS, &[]),
        done("several edges in a stamp", later("#0 0! #1 1! 0! #2 1! 0! 1! #3 0! 1! #4"), &PAIRS, &[x]),
        done("no stamps", later("0! 1! b1 \""), &PAIRS, &[]),
        done("no changes", later(""), &PAIRS, &[]),
        done("an empty stamp behind an edge", later("#0 0! #1 1! #2 #3"), &PAIRS, &[x]),
        done("greatest stamps", later("#18446744073709551614 0! #0018446744073709551615 1!"), &PAIRS, &[x]),
        done("z and Z", later("0! bzZ10 \" #1 1!"), &PAIRS, &[p(2, 12)]),
        done(
            "extended vectors",
            later("0! b1 \" #1 1! #2 0! bx1 \" #3 1! #4 0! bz \" #5 1! #6 0! b01 \" #7 1! #8 0! BX \" #9 1!"),
            &PAIRS,
            &[p(1, 0), p(1, 14), p(0, 15), p(1, 0), p(0, 15)],
        ),
        done(
            "comments, blocks and reals",
            later("$dumpvars 0! b1001 \" r0.5 % $end #1 $comment #9 1! $end $dumpon $end Rx % #2 $dumpall 1! $end"),
            &PAIRS,
            &[p(9, 0)],
        ),
        done("dumpoff changes nothing itself", later("0! b1001 \" #1 $dumpoff $end #2 1!"), &PAIRS, &[p(9, 0)]),
        done("white space", later("\t#0\x0b0!\x0cb0101\r\n\"\r\n\n#5 1!\t"), &PAIRS, &[p(5, 0)]),
    ]
}

fn connections() -> Vec<Case> {
    let clock_in_vector = [(CLOCK, "\"", 2), (P, "!", 0)];
    let spread =
        [(CLOCK, "!", 0), (RESET, "!", 0), (RESET + 1, "\"", 0), (Q + 31, "\"", 1), (R, "\"", 1), (R + 31, "\"", 3)];
    let high = u64::MAX;
    let keyword = [(CLOCK, "$comment", 0), (P, "$var", 0)];
    let strange =
        "$var wire 1 $comment c $end $var wire 1 $var v $end $enddefinitions $end 0$comment b1 $var #1 b1 $comment";
    vec![
        done(
            "clock as a bit of a vector",
            later("b1011 \" 1! #1 b1111 \" #2 b11 \" #3 b100 \""),
            &clock_in_vector,
            &[p(1, 0), p(1, 0)],
        ),
        // Digits 0x11: indices 3 to 0.
        done("wires of all words", later("0! b0x11 \" #1 1!"), &spread, &[[2, 0, 1 << 31, 1, 0, 0, 0, 0]]),
        done("unknown in all words", later("0! bx0xz \" #1 1!"), &spread, &[[0, 0, 0, 0, 2, 0, 1 << 31, 1 << 31 | 1]]),
        done("codes that are keywords", strange, &keyword, &[p(1, 0)]),
        done(
            "one index",
            "$var wire 1 ! c [3] $end $var wire 1 \" c[18446744073709551615] $end $enddefinitions $end 0! Z\" #1 1!",
            &[(CLOCK, "!", 3), (P, "\"", high)],
            &[p(0, 1)],
        ),
    ]
}

fn ranges() -> Vec<Case> {
    let highest = "$var wire 4 \" d [18446744073709551615:18446744073709551612] $end";
    let high = u64::MAX;
    let last =
        [(CLOCK, "!", 0), (P, "\"", high), (P + 1, "\"", high - 1), (P + 2, "\"", high - 2), (P + 3, "\"", high - 3)];
    let from_4 = [(CLOCK, "!", 0), (P, "\"", 4), (P + 1, "\"", 5), (P + 2, "\"", 6), (P + 3, "\"", 7)];
    vec![
        done("descending range", sampled("$var wire 4 \" d [3:0] $end"), &PAIRS, &[p(3, 0)]),
        done("ascending range", sampled("$var wire 4 \" d [0:3] $end"), &PAIRS, &[p(12, 0)]),
        done("range above 0", sampled("$var wire 4 \" d [7:4] $end"), &from_4, &[p(3, 0)]),
        done("ascending range above 0", sampled("$var wire 4 \" d [004:07] $end"), &from_4, &[p(12, 0)]),
        done("highest range", sampled(highest), &last, &[p(12, 0)]),
        done("range in a name", sampled("$var wire 4 \" d[7:4] $end"), &from_4, &[p(3, 0)]),
        done("ascending range in a name", sampled("$var wire 4 \" mem[0][4:7] $end"), &from_4, &[p(12, 0)]),
        done("range in an escaped name", sampled("$var wire 4 \" \\odd\\[4:7] $end"), &from_4, &[p(12, 0)]),
        done("range behind two backslashes", sampled("$var wire 4 \" \\\\[0:3] $end"), &PAIRS, &[p(12, 0)]),
        done("range behind the only backslash", sampled("$var wire 4 \" \\[0:3] $end"), &PAIRS, &[p(3, 0)]),
        done("escaped name with brackets", sampled("$var wire 4 \" \\a[0:3] $end"), &PAIRS, &[p(3, 0)]),
        done("name of brackets alone", sampled("$var wire 4 \" [0:3] $end"), &PAIRS, &[p(3, 0)]),
        done("word of a memory", sampled("$var wire 4 \" mem[7] $end"), &PAIRS, &[p(3, 0)]),
        done("word of a memory and a range", sampled("$var wire 4 \" mem[9:0] [0:3] $end"), &PAIRS, &[p(12, 0)]),
        done(
            "alias, range given later",
            sampled("$var wire 4 \" d $end $var reg 4 \" e [0:3] $end $var tri 4 \" f [7:4] $end"),
            &PAIRS,
            &[p(12, 0)],
        ),
        done("real's brackets", sampled("$var wire 4 \" d $end $var realtime 8 % levels[0] $end"), &PAIRS, &[p(3, 0)]),
        done("real with a range", sampled("$var wire 4 \" d $end $var real 8 % l [0:7] $end"), &PAIRS, &[p(3, 0)]),
    ]
}

fn declarations() -> Vec<Case> {
    let vars = |count: usize| "$var wire 1 ! clk $end\n".repeat(count);
    let down = |count: usize| "$scope fork s $end\n".repeat(count);
    let up = |count: usize| "$upscope $end\n".repeat(count);
    let end = "$enddefinitions $end\n";
    let clock = [(CLOCK, "!", 0)];
    let many = "$date a $end $version 1 $end $comment $var $end $timescale 100 fs $end $timescale 1s $end ";
    vec![
        done("1,024 vars", vars(1024) + end, &clock, &[]),
        refused("1,025 vars", vars(1025) + end, 12, 1025, ""),
        done("32 scopes", down(32) + &vars(1) + &up(32) + end, &clock, &[]),
        done("scopes one after the other", (down(1) + &up(1)).repeat(40) + &vars(1) + end, &clock, &[]),
        refused("33 scopes", down(33) + &up(33) + end, 11, 33, ""),
        done("all commands", format!("{many}{}{end}", vars(1)), &clock, &[]),
        refused("empty", "", 10, 0, ""),
        refused("no words", "\n \n", 10, 2, ""),
        refused("no words, last line without byte 10", "\n\n ", 10, 3, ""),
        refused("ends between declarations", vars(3), 10, 3, ""),
        refused("ends in a comment", "$comment a\nb", 10, 2, ""),
        refused("ends in $enddefinitions", "$enddefinitions\n", 10, 1, ""),
        refused("no declaration", "$comment $end\n$dumpvars", 10, 2, ""),
        refused("$end alone", "\n\n$end", 10, 3, ""),
        refused("number of $timescale", "$timescale\n01ns $end", 10, 2, ""),
        refused("unit of $timescale", "$timescale 10\nNS $end", 10, 2, ""),
        refused("$timescale without a unit", "$timescale 10\n$end", 10, 2, ""),
        refused("type of $scope", "$scope\nModule a $end", 10, 2, ""),
        refused("no name of $scope", "$scope module\n$end", 10, 2, ""),
        refused("two names of $scope", "$scope module a\nb $end", 10, 2, ""),
        refused("$upscope alone", "\n$upscope\n$end", 10, 2, ""),
        refused("$upscope with a word", "$scope module a $end\n$upscope\na $end", 10, 3, ""),
        refused("open scope", "$scope module a $end\n$enddefinitions\n$end", 10, 2, ""),
        refused("$enddefinitions with a word", "$enddefinitions\na $end", 10, 2, ""),
    ]
}

fn vars() -> Vec<Case> {
    let first = "$var wire 4 ! a $end\n";
    vec![
        refused("type", "$var\nstring 1 ! a $end", 10, 2, ""),
        refused("width 0", "$var wire\n00 ! a $end", 10, 2, ""),
        refused("width no number", "$var wire\n1x ! a $end", 10, 2, ""),
        refused("width 4,097", "$var wire\n4097 ! a $end", 12, 2, ""),
        refused("width above 64 bits, real", "$var real\n184467440737095516160 ! a $end", 12, 2, ""),
        refused("code of 9 bytes", "$var wire 1\n123456789 a $end", 12, 2, ""),
        refused("code of 9 bytes, one bad", b"$var wire 1\n12345678\x7f a $end", 12, 2, ""),
        refused("byte in a code", b"$var wire 1\n\x7f a $end", 10, 2, ""),
        refused("$end for a code", "$var wire 1\n$end", 10, 2, ""),
        refused("$end for a name", "$var wire 1 !\n$end", 10, 2, ""),
        refused("another width", format!("{first}$var wire 5\n! b $end"), 10, 3, ""),
        refused("another sort", format!("{first}$var real 4\n! b $end"), 10, 3, ""),
        refused("range word of another width", "$var wire 4 ! a\n[4:0]\n$end", 10, 2, ""),
        refused("one index of a wider wire", "$var wire 4 ! a\n[3]\n$end", 10, 2, ""),
        refused("range word of a real", "$var real 64 ! a\n[7:0]\n$end", 10, 2, ""),
        refused("range word above 64 bits", "$var wire 1 ! a\n[18446744073709551616]\n$end", 10, 2, ""),
        refused("widest range", "$var wire 1 ! a\n[18446744073709551615:0]\n$end", 10, 2, ""),
        refused("sign in a range", "$var wire 2 ! a\n[-1:0]\n$end", 10, 2, ""),
        refused("word behind a range", "$var wire 4 ! a [3:0]\nb $end", 10, 2, ""),
        refused("range in a name of another width", "$var wire 4 !\na[4:0]\n$end", 10, 3, ""),
        refused("range in a name above 64 bits", "$var wire 1 !\na[18446744073709551616]\n$end", 10, 3, ""),
        refused("no range in a wider wire's name", "$var wire 2 ! a[18446744073709551616] $end\n", 10, 1, ""),
        refused("alias with a bad range in its name", format!("{first}$var wire 4 !\na[0:2]\n$end"), 10, 4, ""),
        refused("ends behind a bad range in a name", "$var wire 4 !\na[4:0]\n", 10, 2, ""),
    ]
}

fn changes() -> Vec<Case> {
    vec![
        refused("word", later("#0\n0!\n#1\n1!\nfoo"), 10, 9, ""),
        refused("keyword of a declaration", later("#0\n$var"), 10, 6, ""),
        refused("$end", later("$end"), 10, 5, ""),
        refused("scalar alone", later("\n0"), 10, 6, ""),
        refused("undeclared scalar", later("#0\n0?"), 10, 6, "?"),
        refused("undeclared vector", later("b1\n12345678"), 10, 6, "12345678"),
        refused("undeclared real", later("r1\n#5"), 10, 6, "#5"),
        refused("undeclared $end", later("0$end"), 10, 5, "$end"),
        refused("undeclared keyword", later("b1\n$comment"), 10, 6, "$comment"),
        refused("byte 0 behind a code", later("0!\0"), 10, 5, "!"),
        refused("byte 255 in a code", [&later("0!")[..], b"\xff"].concat(), 10, 5, "").with_identifier(0xff21),
        refused("long keyword", later("b1\n$dumpvars"), 12, 6, ""),
        refused("long scalar", later("0123456789"), 12, 5, ""),
        refused("long real, one byte bad", later("r1\n12345678\0"), 12, 6, ""),
        refused("scalar of a wider wire", later("0\""), 10, 5, ""),
        refused("scalar of a real", later("0%"), 10, 5, ""),
        refused("vector too long", later("b00000\n\""), 10, 6, ""),
        refused("vector of a real", later("b0\n%"), 10, 6, ""),
        refused("digits of a vector", later("b012\n\""), 10, 5, ""),
        refused("$end for a vector's code", later("b0\n$end"), 10, 6, ""),
        refused("real of bits", later("r0\n!"), 10, 6, ""),
        refused("r alone", later("r\n%"), 10, 5, ""),
        refused("$end for a real's code", later("r0\n$end"), 10, 6, ""),
        refused("stamp in a block", later("$dumpvars\n#1"), 10, 6, ""),
        refused("comment in a block", later("$dumpvars\n$comment $end"), 10, 6, ""),
        refused("block in a block", later("$dumpvars\n$dumpon $end $end"), 10, 6, ""),
        refused("ends in a vector", later("0!\n#1\n1!\nb1"), 10, 8, ""),
        refused("ends in a real", later("r1\n\n"), 10, 6, ""),
        refused("ends in a comment later", later("$comment a\n"), 10, 5, ""),
        refused("ends in a block", later("$dumpvars\n0!\n"), 10, 6, ""),
    ]
}

fn stamps() -> Vec<Case> {
    let x = p(0, 15);
    let none = |case: Case| Case { words: 0, ..case };
    let one =
        |case: Case| Case { words: FRAME_WORDS, frames: vec![x], loaded: Loaded { frames: 1, ..case.loaded }, ..case };
    vec![
        refused("stamp without a number", later("#\n0"), 10, 5, ""),
        refused("stamp above 64 bits", later("0!\n#5\n1!\n#18446744073709551616"), 10, 8, ""),
        refused("stamp one less", later("0!\n#5\n1!\n#4"), 14, 8, ""),
        refused("stamp far less", later("#18446744073709551615\n#1\n#18446744073709551615"), 14, 6, ""),
        none(refused("no frame, at a stamp", later("0!\n#5\n1!\n\n#6"), 16, 9, "")),
        none(refused("no frame, at the end", later("0!\n#5\n1!"), 16, 7, "")),
        none(refused("no frame, at the end behind byte 10", later("0!\n#5\n1!\n"), 16, 7, "")),
        none(refused("no frame, at the end behind white space", later("0!\n#5\n1!\n "), 16, 8, "")),
        one(refused("one frame for two", later("0!\n#5\n1!\n#6\n0!\n#7\n1!\n#8\nfoo"), 16, 12, "")),
        one(refused("word behind a sample", later("0!\n#5\n1!\n#6\n0"), 10, 9, "")),
        one(refused("stamp back behind a sample", later("0!\n#5\n1!\n#6\n0!\n#5\n"), 14, 10, "")),
        one(refused("long code behind a sample", later("0!\n#5\n1!\n#6\nr0 $timescale"), 12, 9, "")),
        none(done("no frame and no sample", later("0!\n#5\nx!\n#6"), &PAIRS, &[])),
    ]
}

/// Tables that are refused with 13 in line 4, where the declarations end, and calls that are refused before that.
fn calls() -> Vec<Case> {
    let spoilt = |name, pairs: &[Pair]| Case { table: table(pairs), ..refused(name, later("0"), 13, 4, "") };
    let lent = |name, refusal, words, table_words: usize| {
        let case = refused(name, later("0!\n#5\n1!"), refusal, 0, "");
        let mut table = case.table.clone();
        table.resize(table_words, 0);
        Case { table, words, ..case }
    };
    vec![
        spoilt("clock not connected", &[(P, "!", 0)]),
        spoilt("clock not declared", &[(CLOCK, "$", 0)]),
        spoilt("clock is a real", &[(CLOCK, "%", 0)]),
        spoilt("clock's index outside", &[(CLOCK, "!", 1)]),
        spoilt("wire not declared", &[(CLOCK, "!", 0), (R + 31, "!!", 0)]),
        spoilt("wire is a real", &[(CLOCK, "!", 0), (RESET, "%", 0)]),
        spoilt("wire's index outside", &[(CLOCK, "!", 0), (Q, "\"", 4)]),
        lent("frames and a word", 4, FRAME_WORDS + 1, TABLE_WORDS),
        lent("frame and a half", 4, FRAME_WORDS + 4, TABLE_WORDS),
        lent("65,537 frames", 4, FRAME_WORDS * (MOST_FRAMES + 1), TABLE_WORDS),
        lent("bad frames and table", 4, 1, 0),
        lent("short table", 5, FRAME_WORDS, TABLE_WORDS - 1),
        lent("long table", 5, FRAME_WORDS, TABLE_WORDS + 1),
        lent("no table", 5, 0, 0),
        Case { words: FRAME_WORDS * MOST_FRAMES, ..done("65,536 frames", later("0!\n#5\n1!"), &PAIRS, &[p(0, 15)]) },
    ]
}

impl Case {
    fn with_identifier(self, identifier: u64) -> Case {
        Case { loaded: Loaded { identifier, ..self.loaded }, ..self }
    }

    fn input(&self) -> Input {
        let frames = vec![BEFORE; self.words];
        Input { dump: self.dump.clone(), table: self.table.clone(), frames, is_good: false }
    }

    fn due(&self) -> Due {
        let mut frames = vec![BEFORE; self.words];
        frames[..FRAME_WORDS * self.frames.len()].copy_from_slice(&self.frames.concat());
        Due { loaded: self.loaded, frames }
    }
}

/// Answers how many beginnings of the case were compared, and how many ways of cutting it.
fn compare_case(case: &Case, loaders: &[(&str, Loader)]) -> Result<(u64, u64), String> {
    let named = |difference| format!("dump by hand, {}: {difference}", case.name);
    let mut input = case.input();
    for (name, loader) in loaders {
        compare::compare(loader, &input, &case.due()).map_err(|d| named(format!("{name}: {d}")))?;
    }
    let ways = pieces::compare_small(&input, &case.due()).map_err(named)?;
    // Every beginning of the text. A long one repeats itself, and so does what is compared.
    let len = input.dump.len();
    let step = 1 + len / 2_000;
    if case.words > 100 * FRAME_WORDS {
        return Ok((0, ways));
    }
    for cut in (0..len).rev().step_by(step) {
        input.dump.truncate(cut);
        let due = compare::due(&input);
        for (name, loader) in loaders {
            compare::compare(loader, &input, &due).map_err(|d| named(format!("its first {cut} bytes: {name}: {d}")))?;
        }
    }
    Ok(((len / step) as u64, ways))
}

/// Answers how many cases there are, how many beginnings of them were compared, and how many ways of cutting them.
pub fn compare(library: Option<Loader>) -> Result<String, String> {
    let plain = compare::plain_with(Wrong::Nothing);
    let mut loaders: Vec<(&str, Loader)> = vec![("fast reader", &compare::right), ("plain reader", &plain)];
    loaders.extend(library.map(|library| ("library", library)));
    let parts = [samples(), connections(), ranges(), declarations(), vars(), changes(), stamps(), calls()];
    let cases: Vec<Case> = parts.into_iter().flatten().collect();
    let (mut beginnings, mut ways) = (0, 0);
    for case in &cases {
        let compared = compare_case(case, &loaders)?;
        (beginnings, ways) = (beginnings + compared.0, ways + compared.1);
    }
    Ok(format!("{}, {beginnings} beginnings of them, and {ways} ways of cutting them", cases.len()))
}

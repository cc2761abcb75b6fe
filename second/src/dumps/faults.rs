//! Faults that are put in a certain place of a valid dump, so that each refusal comes up at each of its places.

use super::generate::{code, Dump, Wire};
use super::tokens::{end_behind, pick, pick_word, Role, Token};
use crate::generate::Random;

type Fault = fn(&mut Random, &mut Dump) -> Option<()>;

/// Those with more to vary, or whose place is rare, come more often.
const FAULTS: [Fault; 36] = [
    keyword,
    timescale,
    scope_words,
    word_before_end,
    var_type,
    width,
    bad_code,
    long_code,
    declared_otherwise,
    var_name,
    range_word,
    range_in_name,
    upscopes,
    deep_scopes,
    many_vars,
    stamp,
    stamp_back,
    stamp_back,
    scalar,
    scalar,
    scalar,
    vector,
    vector,
    vector_code,
    vector_code,
    vector_code,
    real,
    real,
    real,
    word_among_changes,
    word_in_block,
    word_in_block,
    word_in_block,
    cut_behind,
    cut_behind,
    cut_behind,
];

/// Puts in one fault. Where the dump has no place for it, another is taken.
pub fn put_in(random: &mut Random, dump: &mut Dump) {
    for _ in 0..20 {
        let fault = random.pick(&FAULTS);
        if fault(random, dump).is_some() {
            return;
        }
    }
}

fn replace(dump: &mut Dump, place: usize, bytes: impl Into<Vec<u8>>) -> Option<()> {
    dump.tokens[place].bytes = bytes.into();
    Some(())
}

fn insert(dump: &mut Dump, place: usize, words: &[&str]) -> Option<()> {
    let tokens = words.iter().map(|word| Token::new(if *word == "$end" { Role::End } else { Role::Text }, *word));
    dump.tokens.splice(place..place, tokens);
    Some(())
}

fn keyword(random: &mut Random, dump: &mut Dump) -> Option<()> {
    let place = pick(random, &dump.tokens, &[Role::Keyword])?;
    let word = random.pick(&["$foo", "$end", "$dumpvars", "$Var", "var", "#0", "$enddefinitions", "0!", "$"]);
    replace(dump, place, word)
}

fn timescale(random: &mut Random, dump: &mut Dump) -> Option<()> {
    let place = pick(random, &dump.tokens, &[Role::Timescale])?;
    let word = random.pick(&["01ns", "001", "2ns", "1NS", "1000", "ns", "$end", "1 ns", "10m", "1as", "100ns1", "0ns"]);
    replace(dump, place, word)
}

fn scope_words(random: &mut Random, dump: &mut Dump) -> Option<()> {
    if random.chance(512) {
        let place = pick(random, &dump.tokens, &[Role::ScopeType])?;
        return replace(dump, place, random.pick(&["interface", "Module", "$end", "modul", "module1"]));
    }
    let place = pick(random, &dump.tokens, &[Role::ScopeName])?;
    if random.chance(512) {
        return replace(dump, place, "$end");
    }
    dump.tokens.remove(place);
    Some(())
}

fn word_before_end(random: &mut Random, dump: &mut Dump) -> Option<()> {
    let word = random.pick(&[&b"$timescale"[..], b"$scope", b"$upscope", b"$var", b"$enddefinitions"]);
    let keyword = pick_word(random, &dump.tokens, word)?;
    let end = end_behind(&dump.tokens, keyword)?;
    let extra = random.pick(&["more", "[0]", "$END", "$comment", "$var", "#0", "$end.", "[0:0]"]);
    insert(dump, end, &[extra])
}

fn var_type(random: &mut Random, dump: &mut Dump) -> Option<()> {
    let place = pick(random, &dump.tokens, &[Role::Type])?;
    replace(dump, place, random.pick(&["string", "Wire", "bit", "$end", "logic", "uwire", "wire1", "real"]))
}

fn width(random: &mut Random, dump: &mut Dump) -> Option<()> {
    let place = pick(random, &dump.tokens, &[Role::Width])?;
    let words = [
        "0",
        "000",
        "0",
        "4097",
        "04097",
        "5000",
        "18446744073709551616",
        "99999999999999999999999999999",
        "65536",
        "8x",
        "-1",
        "+1",
        "$end",
        "1.0",
        "wire",
        "4096",
    ];
    replace(dump, place, random.pick(&words))
}

/// Some bytes of which one cannot stand in a declared code.
fn odd_code(random: &mut Random, code: &[u8], most: usize) -> Vec<u8> {
    let odd = random.pick(&[0, 0, 1, 8, 14, 31, 127, 127, 128, 160, 255]);
    let mut code = code.to_vec();
    let place = random.pick(&[0, code.len(), code.len()]);
    code.insert(place, odd);
    code.truncate(most);
    code
}

fn bad_code(random: &mut Random, dump: &mut Dump) -> Option<()> {
    let place = pick(random, &dump.tokens, &[Role::Code])?;
    let odd = odd_code(random, &dump.tokens[place].bytes.clone(), 8);
    let bytes = if random.chance(250) { b"$end".to_vec() } else { odd };
    replace(dump, place, bytes)
}

/// More than 8 bytes; sometimes with one that no code has.
fn too_long(random: &mut Random, code: &[u8]) -> Vec<u8> {
    let len = random.pick(&[9, 9, 9, 10, 16, 300]);
    let mut long = code.to_vec();
    long.resize(len, b'!');
    if random.chance(300) {
        long = odd_code(random, &long, usize::MAX);
    }
    if random.chance(100) {
        long = random.pick(&[&b"$dumpvars"[..], b"$timescale", b"$enddefinitions"]).to_vec();
    }
    long
}

fn long_code(random: &mut Random, dump: &mut Dump) -> Option<()> {
    let place = pick(random, &dump.tokens, &[Role::Code])?;
    let long = too_long(random, &dump.tokens[place].bytes.clone());
    replace(dump, place, long)
}

/// A code that is declared once more with the width or the sort of another.
fn declared_otherwise(random: &mut Random, dump: &mut Dump) -> Option<()> {
    let place = pick(random, &dump.tokens, &[Role::Code])?;
    let another = random.below(dump.wires.len());
    if random.chance(512) {
        return replace(dump, place, dump.wires[another].code.clone());
    }
    let wire = &dump.wires[another];
    let (sort, width) = if random.chance(512) {
        (if wire.is_real { "reg" } else { "real" }, wire.width)
    } else {
        (if wire.is_real { "real" } else { "reg" }, wire.width % 4096 + 1)
    };
    let code = dump.wires[another].code.clone();
    let end = pick_word(random, &dump.tokens, b"$enddefinitions")?;
    let width = width.to_string();
    let words =
        [(Role::Keyword, b"$var".to_vec()), (Role::Type, sort.into()), (Role::Width, width.into()), (Role::Code, code)];
    let tokens = words.into_iter().chain([(Role::Name, b"again".to_vec()), (Role::End, b"$end".to_vec())]);
    dump.tokens.splice(end..end, tokens.map(|(role, bytes)| Token::new(role, bytes)));
    Some(())
}

fn var_name(random: &mut Random, dump: &mut Dump) -> Option<()> {
    let place = pick(random, &dump.tokens, &[Role::Name])?;
    if random.chance(512) {
        return replace(dump, place, "$end");
    }
    dump.tokens.remove(place);
    Some(())
}

/// Brackets of another width, or with a number above 64 bits.
fn wrong_brackets(random: &mut Random) -> &'static str {
    random.pick(&[
        "[0:1]",
        "[9:0]",
        "[65:0]",
        "[0:65]",
        "[4096:0]",
        "[18446744073709551616]",
        "[18446744073709551616:18446744073709551616]",
        "[99999999999999999999999:0]",
        "[0:18446744073709551616]",
        "[18446744073709551615:0]",
        "[3]",
        "[1:2]",
    ])
}

fn range_word(random: &mut Random, dump: &mut Dump) -> Option<()> {
    let place = pick(random, &dump.tokens, &[Role::Range])?;
    let bad =
        random.pick(&["[", "[]", "[:]", "[1:]", "[:1]", "[-1:0]", "[+0]", "7:0", "[0:0", "[0:0]]", "[0:0:0]", "x", "[x]"]);
    let word = if random.chance(400) { bad } else { wrong_brackets(random) };
    replace(dump, place, word)
}

fn range_in_name(random: &mut Random, dump: &mut Dump) -> Option<()> {
    let place = pick(random, &dump.tokens, &[Role::Name])?;
    let front = random.pick(&["a", "a", "\\a\\", "\\a", "\\", "", "m[0]"]);
    replace(dump, place, format!("{front}{}", wrong_brackets(random)))
}

/// A place where a declaration begins, often the last.
fn border(random: &mut Random, dump: &Dump) -> Option<usize> {
    let end = pick_word(random, &dump.tokens, b"$enddefinitions")?;
    let any = pick(random, &dump.tokens[..=end], &[Role::Keyword])?;
    Some(random.pick(&[end, any]))
}

/// A scope closed too much, or left open.
fn upscopes(random: &mut Random, dump: &mut Dump) -> Option<()> {
    let place = border(random, dump)?;
    match random.below(4) {
        0 | 1 => insert(dump, place, &["$upscope", "$end"]),
        2 => insert(dump, place, &["$scope", "module", "open", "$end"]),
        _ => {
            let up = pick_word(random, &dump.tokens, b"$upscope")?;
            dump.tokens.drain(up..=(up + 1).min(dump.tokens.len() - 1));
            Some(())
        }
    }
}

fn deep_scopes(random: &mut Random, dump: &mut Dump) -> Option<()> {
    let place = border(random, dump)?;
    let scopes = random.pick(&[33, 33, 40]);
    (0..scopes).for_each(|_| _ = insert(dump, place, &["$scope", "module", "deep", "$end"]));
    Some(())
}

/// 1,025 `$var` or more. That is a long text, so it does not come as often as it is drawn.
fn many_vars(random: &mut Random, dump: &mut Dump) -> Option<()> {
    if random.chance(800) {
        return None;
    }
    let mut behind = dump.tokens.split_off(pick_word(random, &dump.tokens, b"$enddefinitions")?);
    let vars = random.pick(&[1024, 1025, 1025, 1026]);
    dump.fill_vars(random, vars);
    dump.tokens.append(&mut behind);
    Some(())
}

fn stamp(random: &mut Random, dump: &mut Dump) -> Option<()> {
    let place = pick(random, &dump.tokens, &[Role::Stamp])?;
    let words = [
        "#",
        "#x",
        "#1x",
        "#-1",
        "#+1",
        "#1.5",
        "##1",
        "#18446744073709551616",
        "#18446744073709551616",
        "#99999999999999999999999999",
        "#0018446744073709551616",
        "#36893488147419103232",
    ];
    replace(dump, place, random.pick(&words))
}

/// A stamp that goes back, by 1 or by more.
fn stamp_back(random: &mut Random, dump: &mut Dump) -> Option<()> {
    let stamps: Vec<usize> = (0..dump.tokens.len()).filter(|i| dump.tokens[*i].role == Role::Stamp).collect();
    let number = |place: usize| {
        let digits = std::str::from_utf8(&dump.tokens[place].bytes[1..]).ok()?;
        digits.parse::<u128>().ok()
    };
    let at = stamps.len().checked_sub(2).map(|most| random.below(most + 1))?;
    let before = number(stamps[at])?;
    let back = random.pick(&[before.checked_sub(1)?, before / 2, 0]);
    let place = random.pick(&[stamps[at + 1], stamps[stamps.len() - 1]]);
    replace(dump, place, format!("#{back}"))
}

fn code_of(random: &mut Random, dump: &Dump, is_wanted: fn(&Wire) -> bool) -> Option<Vec<u8>> {
    let wires: Vec<&Wire> = dump.wires.iter().filter(|wire| is_wanted(wire)).collect();
    if wires.is_empty() {
        return None;
    }
    Some(random.pick(&wires).code.clone())
}

/// A code that does not belong in a change: undeclared, too long, or of the wrong wire.
fn wrong_code(random: &mut Random, dump: &Dump, old: &[u8]) -> Option<Vec<u8>> {
    match random.below(12) {
        0 => Some(code(random)),
        1 => Some([old, b"'"].concat()).filter(|code| code.len() < 9),
        2 => Some(odd_code(random, old, 8)),
        3 => Some([old, b"\0"].concat()).filter(|code| code.len() < 9),
        4 | 5 => Some(too_long(random, old)),
        6 => Some(b"$end".to_vec()),
        7 => Some(random.pick(&[&b"$end"[..], b"$comment", b"$var", b"$dumpvars", b"#5", b"$dumpon"]).to_vec()),
        8 | 9 => code_of(random, dump, |wire| wire.is_real),
        10 => code_of(random, dump, |wire| !wire.is_real && wire.width > 1),
        _ => code_of(random, dump, |wire| !wire.is_real && wire.width == 1),
    }
}

fn scalar(random: &mut Random, dump: &mut Dump) -> Option<()> {
    let place = pick(random, &dump.tokens, &[Role::Scalar])?;
    let old = dump.tokens[place].bytes.clone();
    if random.chance(60) {
        return replace(dump, place, &old[..1]);
    }
    let code = wrong_code(random, dump, &old[1..])?;
    replace(dump, place, [&old[..1], &code].concat())
}

fn vector(random: &mut Random, dump: &mut Dump) -> Option<()> {
    let place = pick(random, &dump.tokens, &[Role::Vector])?;
    let old = dump.tokens[place].bytes.clone();
    if random.chance(400) {
        let bad = random.pick(&["b", "B", "b2", "b01h", "b-1", "b0_1", "bU", "b1.", "bb1", "c1", "h0", "b0W"]);
        return replace(dump, place, bad);
    }
    // The digits themselves often stay the same: zeros in front count too.
    let more = random.pick(&[1, 1, 64, 4096]);
    let digit = random.pick(b"001xz");
    replace(dump, place, [&old[..1], &vec![digit; more], &old[1..]].concat())
}

fn vector_code(random: &mut Random, dump: &mut Dump) -> Option<()> {
    let place = pick(random, &dump.tokens, &[Role::VectorCode])?;
    let old = dump.tokens[place].bytes.clone();
    let code = wrong_code(random, dump, &old)?;
    if random.chance(250) {
        let digits = 4097 + random.below(10);
        dump.tokens[place - 1].bytes.resize(digits, b'1');
    }
    replace(dump, place, code)
}

fn real(random: &mut Random, dump: &mut Dump) -> Option<()> {
    if random.chance(150) {
        let place = pick(random, &dump.tokens, &[Role::Real])?;
        return replace(dump, place, random.pick(&["r", "R"]));
    }
    let place = pick(random, &dump.tokens, &[Role::RealCode])?;
    let old = dump.tokens[place].bytes.clone();
    let code = wrong_code(random, dump, &old)?;
    replace(dump, place, code)
}

/// Where a stamp or a change begins, or a block.
const BEGINS: [Role; 6] = [Role::Stamp, Role::Scalar, Role::Vector, Role::Real, Role::Block, Role::LateComment];

fn word_among_changes(random: &mut Random, dump: &mut Dump) -> Option<()> {
    let place = pick(random, &dump.tokens, &BEGINS)?;
    let words = [
        "$end",
        "$var",
        "$scope",
        "$date",
        "$version",
        "$timescale",
        "$upscope",
        "$enddefinitions",
        "$dump",
        "$DUMPVARS",
        "-",
        "2!",
        "h!",
        "B",
        "r",
        "1",
        "\u{e9}",
        "!",
        "$comments",
    ];
    if random.chance(150) {
        return insert(dump, place, &["$var", "wire", "1", "late~", "late", "$end"]);
    }
    let word = random.pick(&words);
    insert(dump, place, &[word])
}

fn word_in_block(random: &mut Random, dump: &mut Dump) -> Option<()> {
    let place = pick(random, &dump.tokens, &[Role::Block])?;
    match random.below(5) {
        0 => insert(dump, place + 1, &["#1"]),
        1 => insert(dump, place + 1, &["#99999999999999"]),
        2 => insert(dump, place + 1, &["$comment", "in", "$end"]),
        3 => insert(dump, place + 1, &["$dumpvars", "$end"]),
        _ => {
            let word = random.pick(&["$var", "x", "-", "$dumpvar", "2!", "$END", "b"]);
            insert(dump, place + 1, &[word])
        }
    }
}

/// Cuts the text behind a word: of a certain role or any.
fn cut_behind(random: &mut Random, dump: &mut Dump) -> Option<()> {
    use Role::*;
    let role = random.pick(&[Vector, Real, Block, Text, LateComment, End, Keyword, Name, Scalar, Stamp]);
    let place = match random.below(8) {
        0 => pick_word(random, &dump.tokens, b"$enddefinitions")?,
        1 => random.below(dump.tokens.len()),
        _ => pick(random, &dump.tokens, &[role])?,
    };
    dump.tokens.truncate(place + 1);
    Some(())
}

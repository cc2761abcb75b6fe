//! Dumps with words that are longer than all that a reader may keep of them, and with more samples than frames can be lent.

use super::cases::{table, HEAD};
use crate::dumps::inputs::Input;
use crate::dumps::reader::{FRAME_WORDS, MOST_FRAMES};

/// Bytes of a long word: more than a state has.
const LONG: usize = 100_000;

fn declared(var: String) -> Vec<u8> {
    format!("$var wire 1 ! c $end\n{var} $end\n$enddefinitions $end\n0! b0011 \"\n#1\n1!\n").into()
}

fn later(changes: String) -> Vec<u8> {
    [HEAD, b"0!\nb0011 \"\n#1\n1!\n", changes.as_bytes(), b"\n#9\n"].concat()
}

/// Long words among the declarations: names with and without a range, numbers with zeros in front, and others.
fn long_declarations() -> Vec<Vec<u8>> {
    let (letters, zeros, nines) = ("a".repeat(LONG), "0".repeat(LONG), "9".repeat(LONG));
    let brackets = ["[", "]", "[0]", "[3:0]", "\\[0:3]", ":"].map(|part| part.repeat(LONG / part.len()));
    let names = ["", "[0:3]", "\\[0:3]", "[4:0]", "[0]"].map(|end| format!("{letters}{end}"));
    let escaped = ["[4:0]", "\\[0:3]", "\\[4:0]"].map(|end| format!("\\{letters}{end}"));
    let numbers = [format!("a[{zeros}0:{zeros}3]"), format!("a[{nines}:0]"), format!("a[{nines}]"), format!("a[0:{zeros}")];
    let ended = brackets.clone().map(|front| format!("{front}[0:3]"));
    let all = names.into_iter().chain(escaped).chain(numbers).chain(brackets).chain(ended);
    let vars = all.map(|name| declared(format!("$var wire 4 \" {name}")));
    let others = [
        format!("$var wire {zeros}4 \" d"),
        format!("$var wire {nines} \" d"),
        format!("$var wire {zeros} \" d"),
        format!("$var wire 4 {letters} d"),
        format!("$var wire 4 \" d [{zeros}0:{zeros}3]"),
        format!("$var wire 4 \" d [{zeros}3:{nines}]"),
        format!("$var wire 4 \" d $end $comment {letters} {zeros}"),
        format!("$var wire 4 \" d $end $scope module {letters} $end $upscope"),
        format!("$var wire 4 \" d $end ${letters}"),
    ];
    vars.chain(others.map(declared)).collect()
}

fn long_changes() -> Vec<Vec<u8>> {
    let (letters, zeros, nines) = ("a".repeat(LONG), "0".repeat(LONG), "9".repeat(LONG));
    let changes = [
        format!("#{zeros}5"),
        format!("#{zeros}1"),
        format!("#{zeros}"),
        format!("#{nines}"),
        format!("#{zeros}18446744073709551615"),
        format!("b{zeros} \""),
        format!("b{zeros} ?"),
        format!("b{zeros} $dumpvars"),
        format!("b{zeros} $end"),
        format!("b{zeros}2 $dumpvars"),
        format!("r{nines} \""),
        format!("0{letters}"),
        format!("b1 {letters}"),
        format!("$comment {letters} $end"),
        format!("${letters}"),
        letters.clone(),
    ];
    changes.map(later).into_iter().collect()
}

/// More samples than there can be frames, one to three lines each.
fn many_samples() -> Vec<u8> {
    let sample = |time: usize| format!("0!\n#{}\n1! #{}\n", 2 * time, 2 * time + 1);
    [HEAD, (0..=MOST_FRAMES).map(sample).collect::<String>().as_bytes()].concat()
}

/// All of them, with the connections of the dumps by hand.
pub fn inputs() -> Vec<Input> {
    let few = |dump| Input { dump, table: table(), frames: vec![0x5a5a_5a5a; 3 * FRAME_WORDS], is_good: false };
    let frames = vec![0x5a5a_5a5a; FRAME_WORDS * MOST_FRAMES];
    let many = Input { dump: many_samples(), table: table(), frames, is_good: false };
    long_declarations().into_iter().chain(long_changes()).map(few).chain([many]).collect()
}

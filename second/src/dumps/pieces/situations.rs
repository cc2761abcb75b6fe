//! The situations that the dumps in pieces of a run have to meet.

use super::calls::Made;
use super::places::Word;
use super::ways::Lending;
use crate::dumps::reader::FRAME_WORDS;
use crate::dumps::situations::list;
use crate::dumps::tokens::Role;
use std::ops::Range;

list! { Seen, SEEN,
    InKeyword: "cut in a keyword of the declarations",
    InEnddefinitions: "cut in $enddefinitions",
    BehindEnddefinitions: "cut between $enddefinitions and its $end",
    InEnd: "cut in an $end",
    InTimescale: "cut in the number or unit of $timescale",
    InScopeName: "cut in the name of a scope",
    InType: "cut in the type of a $var",
    InWidth: "cut in a width",
    InCode: "cut in the identifier of a $var",
    InName: "cut in the name of a $var",
    InNameRange: "cut in brackets at the end of a name",
    InRange: "cut in a range",
    BeforeRange: "cut between a name and a range",
    InComment: "cut in a comment",
    InStamp: "cut in a stamp",
    BehindHash: "cut between # and the number",
    InScalar: "cut between a scalar's value and its identifier",
    InScalarCode: "cut in the identifier of a scalar change",
    InVector: "cut in a vector",
    BehindVector: "cut between a vector and its identifier",
    InVectorCode: "cut in the identifier of a vector",
    InReal: "cut in the number of a real change",
    BehindReal: "cut between a real change and its identifier",
    InRealCode: "cut in the identifier of a real change",
    InBlockKeyword: "cut in the keyword of a dump block",
    InBlock: "cut in a dump block",
    InLastWord: "cut in the last word, nothing behind it",
    InLongWord: "cut in a word of more than 300 bytes",
    InRefused: "cut in the word that is refused",
    BehindRefused: "cut directly behind the word that is refused",
    AmongDeclarations: "cut between words of the declarations",
    AmongChanges: "cut between words of the changes",
    BehindDeclarations: "cut between declarations and changes",
    BeforeNewline: "cut before a byte 10",
    BehindNewline: "cut behind a byte 10",
    InReturn: "cut between bytes 13 and 10",
    BehindReturn: "cut behind a byte 13, no byte 10 there",
    BeforeBlank: "cut before a blank",
    BehindBlank: "cut behind a blank",
    InSpaces: "cut between two bytes of white space",
    NoneFirst: "empty piece first",
    NoneInWord: "empty piece in a word",
    NoneBetween: "empty piece between two words",
    NoneLast: "empty piece before the end",
    NoPieces: "no piece but the end, dump of no bytes",
    WholePiece: "one piece of the whole dump",
    ManyPieces: "more than 100 pieces",
    ThriceInWord: "word cut three times or more",
    LongPiece: "piece of more than 4,096 bytes",
    WordOverPiece: "piece without white space, in a word that goes on",
    DoneByEnd: "last word read by the end, done",
    SampledByPieces: "samples by several pieces",
    SampledTwo: "several samples by one piece that is not the first",
    SampledByEnd: "sample by the end, and others by pieces",
    RefusedSampled: "samples by the piece that is refused",
    RefusedRest: "words behind the one that is refused, in the same piece",
    RefusedBySpace: "refusal by a piece that begins with white space",
    OverSampled: "17 with frames sampled",
    OverNone: "17 without a frame sampled",
    OverTwice: "17 three times running",
    OverBadFrames: "17 with frames that 4 would be for",
    AgainIdentifier: "refusal with an identifier again",
    AgainSampled: "refusal with frames sampled again",
    AgainBadFrames: "refusal of the text again, with frames that 4 would be for",
    FourSampled: "4 behind samples",
    FourGood: "4 again with frames that are good",
    FourTable: "4, the table of a wrong length too, again with frames that are good",
    FiveBadFrames: "5 again with frames that 4 would be for",
    FewerTaken: "fewer frames lent than sampled so far, no sample",
    FewerFull: "16 where fewer frames are lent than sampled so far",
    OthersSampled: "samples into other frames than the last ones",
    LongerSampled: "samples into more frames than before",
    CopySame: "two ways on from one state, the same answer",
    CopyOther: "two ways on from one state, other answers",
    CopyRefused: "two ways on from one state, one of them refused",
    CutAtRefusal: "dump that ends with the word that is refused",
}

/// The places of a dump at which cuts are looked at.
pub struct Map<'a> {
    pub dump: &'a [u8],
    /// Its words, where it is accepted.
    pub words: Vec<Word>,
    /// The word that is refused, where it is known.
    pub refused: Option<Range<usize>>,
}

fn is_white(byte: u8) -> bool {
    matches!(byte, 9..=13 | 32)
}

/// What stands on both sides of a cut.
fn bytes_around(map: &Map, at: usize, seen: &mut Vec<Seen>) {
    let (before, behind) = (map.dump[at - 1], map.dump[at]);
    let mut meet = |condition, situation| {
        if condition {
            seen.push(situation);
        }
    };
    meet(behind == 10, Seen::BeforeNewline);
    meet(before == 10, Seen::BehindNewline);
    meet((before, behind) == (13, 10), Seen::InReturn);
    meet(before == 13 && behind != 10, Seen::BehindReturn);
    meet(behind == 32, Seen::BeforeBlank);
    meet(before == 32, Seen::BehindBlank);
    meet(is_white(before) && is_white(behind), Seen::InSpaces);
    if let Some(word) = &map.refused {
        meet(word.start < at && at < word.end, Seen::InRefused);
        meet(word.end == at, Seen::BehindRefused);
    }
}

/// A cut inside a word.
fn in_word(map: &Map, word: &Word, at: usize, seen: &mut Vec<Seen>) {
    let bytes = &map.dump[word.place.clone()];
    let is_second = at == word.place.start + 1;
    let bracket = bytes.iter().rposition(|byte| *byte == b'[').filter(|_| bytes.ends_with(b"]"));
    seen.extend(match word.role {
        Role::Keyword if bytes == b"$enddefinitions" => Some(Seen::InEnddefinitions),
        Role::Keyword => Some(Seen::InKeyword),
        Role::End => Some(Seen::InEnd),
        Role::Timescale => Some(Seen::InTimescale),
        Role::ScopeName => Some(Seen::InScopeName),
        Role::Type => Some(Seen::InType),
        Role::Width => Some(Seen::InWidth),
        Role::Code => Some(Seen::InCode),
        Role::Name if bracket.is_some_and(|open| at > word.place.start + open) => Some(Seen::InNameRange),
        Role::Name => Some(Seen::InName),
        Role::Range => Some(Seen::InRange),
        Role::Text => Some(Seen::InComment),
        Role::Stamp if is_second => Some(Seen::BehindHash),
        Role::Stamp => Some(Seen::InStamp),
        Role::Scalar if is_second => Some(Seen::InScalar),
        Role::Scalar => Some(Seen::InScalarCode),
        Role::Vector => Some(Seen::InVector),
        Role::VectorCode => Some(Seen::InVectorCode),
        Role::Real => Some(Seen::InReal),
        Role::RealCode => Some(Seen::InRealCode),
        Role::Block => Some(Seen::InBlockKeyword),
        Role::ScopeType | Role::LateComment => None,
    });
    seen.extend((word.place.end == map.dump.len()).then_some(Seen::InLastWord));
    seen.extend((bytes.len() > 300).then_some(Seen::InLongWord));
}

/// A cut between two words.
fn between(map: &Map, before: &Word, behind: &Word, seen: &mut Vec<Seen>) {
    let is_last = |word: &Word| word.role == Role::Keyword && map.dump[word.place.clone()] == *b"$enddefinitions";
    let end = map.words.iter().position(is_last);
    let changes = end.and_then(|end| map.words.get(end + 2)).map_or(map.dump.len(), |word| word.place.start);
    seen.push(match behind.place.start {
        start if start < changes => Seen::AmongDeclarations,
        start if start == changes => Seen::BehindDeclarations,
        _ => Seen::AmongChanges,
    });
    seen.extend(before.is_in_block.then_some(Seen::InBlock));
    seen.extend(match (before.role, behind.role) {
        (Role::Keyword, Role::End) => is_last(before).then_some(Seen::BehindEnddefinitions),
        (Role::Vector, _) => Some(Seen::BehindVector),
        (Role::Real, _) => Some(Seen::BehindReal),
        (_, Role::Range) => Some(Seen::BeforeRange),
        _ => None,
    });
}

/// What is met by a cut in front of this byte, which has others before it.
pub fn cut(map: &Map, at: usize, seen: &mut Vec<Seen>) {
    bytes_around(map, at, seen);
    let next = map.words.partition_point(|word| word.place.end <= at);
    match (next.checked_sub(1).map(|before| &map.words[before]), map.words.get(next)) {
        (_, Some(word)) if word.place.start < at => in_word(map, word, at, seen),
        (Some(before), Some(behind)) => between(map, before, behind, seen),
        _ => {}
    }
}

/// The pieces that arrived before the dump was over or refused, and the cuts between them.
pub fn pieces(map: &Map, made: &[Made], seen: &mut Vec<Seen>) {
    let open = made.iter().filter(|made| made.settled.is_none());
    let pieces: Vec<&[u8]> = open.filter_map(|made| made.step.piece).collect();
    let (mut at, mut cuts_in_word) = (0, 0);
    let is_word = |at: usize| map.dump.get(at).is_some_and(|byte| !is_white(*byte));
    for (i, piece) in pieces.iter().enumerate() {
        let is_in_word = at > 0 && is_word(at - 1) && is_word(at);
        if at > 0 && at < map.dump.len() && i > 0 {
            cut(map, at, seen);
        }
        let is_empty = piece.is_empty();
        seen.extend((is_empty && i == 0).then_some(Seen::NoneFirst));
        seen.extend((is_empty && is_in_word).then_some(Seen::NoneInWord));
        seen.extend((is_empty && at > 0 && at < map.dump.len() && !is_in_word).then_some(Seen::NoneBetween));
        seen.extend((is_empty && i > 0 && at == map.dump.len()).then_some(Seen::NoneLast));
        seen.extend((piece.len() > 4096).then_some(Seen::LongPiece));
        let is_all_word = !is_empty && !piece.iter().any(|byte| is_white(*byte));
        at += piece.len();
        let goes_on = is_all_word && is_in_word && is_word(at);
        cuts_in_word = if goes_on { cuts_in_word + 1 } else { 0 };
        seen.extend(goes_on.then_some(Seen::WordOverPiece));
        seen.extend((cuts_in_word > 1).then_some(Seen::ThriceInWord));
    }
    seen.extend((pieces.is_empty() && map.dump.is_empty()).then_some(Seen::NoPieces));
    seen.extend((!map.dump.is_empty() && pieces.first() == Some(&map.dump)).then_some(Seen::WholePiece));
    seen.extend((pieces.len() > 100).then_some(Seen::ManyPieces));
}

/// The samples, by which calls they were taken and into which frames.
pub fn samples(map: &Map, made: &[Made], seen: &mut Vec<Seen>) {
    let more = |made: &Made| (made.answer.frames as usize).saturating_sub(made.sampled);
    let open: Vec<&Made> = made.iter().filter(|made| made.settled.is_none()).collect();
    let by_pieces = open.iter().filter(|made| made.step.piece.is_some() && more(made) > 0).count();
    seen.extend((by_pieces > 1).then_some(Seen::SampledByPieces));
    let mut most = 0;
    for (i, made) in open.iter().enumerate() {
        let (is_end, samples, frames) = (made.step.piece.is_none(), more(made), made.words / FRAME_WORDS);
        let is_fewer = made.words % FRAME_WORDS == 0 && frames < made.sampled;
        let is_other = made.step.lending != Lending::Same;
        seen.extend((i > 0 && !is_end && samples > 1).then_some(Seen::SampledTwo));
        seen.extend((is_end && by_pieces > 0 && samples > 0).then_some(Seen::SampledByEnd));
        seen.extend((samples > 0 && made.answer.refusal >= 10 && !is_end).then_some(Seen::RefusedSampled));
        seen.extend((is_fewer && made.answer.refusal == 0).then_some(Seen::FewerTaken));
        seen.extend((is_fewer && made.answer.refusal == 16).then_some(Seen::FewerFull));
        seen.extend((is_other && samples > 0).then_some(Seen::OthersSampled));
        seen.extend((i > 0 && samples > 0 && frames > most).then_some(Seen::LongerSampled));
        seen.extend((made.answer.refusal == 4 && made.sampled > 0).then_some(Seen::FourSampled));
        let is_unended = map.dump.last().is_some_and(|byte| !is_white(*byte));
        seen.extend((is_end && made.answer.refusal == 0 && is_unended).then_some(Seen::DoneByEnd));
        most = most.max(frames);
    }
}

/// The call that was refused first, and what the calls behind it gave again.
pub fn refusals(map: &Map, table: usize, made: &[Made], seen: &mut Vec<Seen>) {
    let mut at = 0;
    for one in made.iter().filter(|made| made.settled.is_none()) {
        let piece = one.step.piece.unwrap_or_default();
        let is_refused = (10..17).contains(&one.answer.refusal) && !piece.is_empty();
        let behind = map.refused.as_ref().map_or(usize::MAX, |word| word.end);
        let has_rest = map.dump.get(behind..at + piece.len()).is_some_and(|rest| rest.iter().any(|byte| !is_white(*byte)));
        seen.extend((is_refused && has_rest).then_some(Seen::RefusedRest));
        seen.extend((is_refused && at == behind).then_some(Seen::RefusedBySpace));
        at += piece.len();
    }
    let again: Vec<&Made> = made.iter().filter(|made| made.settled.is_some()).collect();
    let is_over = |made: &&&Made| made.answer.refusal == 17;
    seen.extend((again.iter().filter(is_over).count() > 2).then_some(Seen::OverTwice));
    for made in again {
        let is_bad = made.words % FRAME_WORDS != 0 || made.words / FRAME_WORDS > 65_536;
        let samples = made.answer.frames > 0;
        seen.extend((made.answer.identifier != 0).then_some(Seen::AgainIdentifier));
        seen.extend(match (made.answer.refusal, is_bad) {
            (17, true) => Some(Seen::OverBadFrames),
            (17, false) => Some(if samples { Seen::OverSampled } else { Seen::OverNone }),
            (4, false) => Some(if table == 258 { Seen::FourGood } else { Seen::FourTable }),
            (5, true) => Some(Seen::FiveBadFrames),
            (10.., true) => Some(Seen::AgainBadFrames),
            (10.., false) if samples => Some(Seen::AgainSampled),
            _ => None,
        });
    }
}

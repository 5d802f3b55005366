//! What each call answers: reading and plain writing by the original, all else by 01's words and 02's.

use crate::attach;
use crate::jkf::{JsonKifuFormat, MoveFormat};
use crate::lost::lost;
use crate::original::converter::kif::ToKif;
use crate::original::parser::kakinoki::read_head;
use crate::original::parser::kif::{parse, read_lines, read_moves};
use crate::position::{self, Reason, Stopped};
use crate::record::{decode, encode, position_bytes, u16_at, Entry, Line, Position, Record, What, LIMIT};
use crate::sound::sound;
use crate::translate::{self, nest, Play};
use crate::trees::{chain, hang};
use crate::whole::{self, width, Mode};
use nom::error::VerboseError;
use std::str;

/// The longest buffer that is lent: no block is written to so long a text.
pub const LONGEST: usize = 200_000;
static ZEROS: [u8; LONGEST] = [0; LONGEST];

/// A number of 01's table, 0 on success, and the two figures; of filling also how many move lines lost a time (02, iv), and of a
/// stop the figures from the third to the sixth (02, ii).
#[derive(Clone, Copy, Debug, PartialEq, Eq)]
pub struct Answer {
    pub number: u64,
    pub first: u64,
    pub second: u64,
    pub lost: u64,
    pub more: [u64; 4],
}

/// What a call comes to before the lent buffer's length is looked at.
#[derive(Clone, Debug, PartialEq, Eq)]
pub enum Outcome {
    /// An answer that changes no buffer, whatever its length.
    Answered(Answer),
    /// Refusal 6 in a buffer as long as the block would be.
    Unattached { needed: usize, answer: Answer },
    /// A result and the answer that goes with it.
    Made { result: Vec<u8>, answer: Answer },
}

impl Outcome {
    /// The length that the buffer must have, where it is asked for.
    pub fn needed(&self) -> Option<usize> {
        match self {
            Outcome::Answered(_) => None,
            Outcome::Unattached { needed, .. } => Some(*needed),
            Outcome::Made { result, .. } => Some(result.len()),
        }
    }

    /// The answer with a buffer of this length lent.
    pub fn answer_in(&self, room: usize) -> Answer {
        match self {
            _ if self.needed().is_some_and(|needed| needed > room) => answer(5, self.needed().unwrap() as u64, 0),
            Outcome::Answered(answer) | Outcome::Unattached { answer, .. } | Outcome::Made { answer, .. } => *answer,
        }
    }

    /// What a buffer of this length begins with afterwards; all behind it stays as it was.
    pub fn front_in(&self, room: usize) -> &[u8] {
        match self {
            _ if self.needed().is_none_or(|needed| needed > room) => &[],
            Outcome::Made { result, .. } => result,
            _ => &ZEROS[..room],
        }
    }

    /// The answer with this buffer lent, and what becomes of the buffer.
    pub fn deliver(&self, out: &mut [u8]) -> Answer {
        let front = self.front_in(out.len());
        out[..front.len()].copy_from_slice(front);
        self.answer_in(out.len())
    }
}

/// An answer that tells of no lost time and has two figures: a refusal's, and that of any call but filling and stopping.
pub fn answer(number: u64, first: u64, second: u64) -> Answer {
    Answer { number, first, second, lost: 0, more: [0; 4] }
}

/// An answer with six figures: a stop's.
pub fn long_answer([number, first, second, more @ ..]: [u64; 7]) -> Answer {
    Answer { more, ..answer(number, first, second) }
}

fn refused(number: u64, first: u64, second: u64) -> Outcome {
    Outcome::Answered(answer(number, first, second))
}

/// A text that refusals 1 to 3 let pass: its record, whose parents are still to be put in; these, or the first variation that has
/// no entry to hang on and its ply; its lines as they stand there; how many bytes its head has, and how many are taken.
pub struct Taken<'a> {
    pub record: Record,
    pub parents: Result<Vec<usize>, (u64, u64)>,
    pub plays: Vec<&'a str>,
    pub head: usize,
    pub bytes: usize,
}

/// What is taken of a text, or refusals 1 to 3.
pub fn taken(text: &[u8]) -> Result<Taken<'_>, Answer> {
    if text.len() > LIMIT {
        return Err(answer(1, text.len() as u64, 0));
    }
    let text = str::from_utf8(text).map_err(|error| answer(2, error.valid_up_to() as u64, 0))?;
    let (past_head, head) = read_head(text).map_err(|error| answer(3, hand_line(text, error), 0))?;
    let (rest, read) = read_lines(past_head).expect("no line at all is a main line without moves");
    let (plays, lines): (_, Vec<Play>) =
        read.into_iter().map(|(play, (start, moves))| (play, (start as u64, moves))).unzip();
    let record = translate::record(&head, &lines);
    let parents = attach::parents(&record.shape());
    confirm_attaching(text, rest, head, lines, parents.as_deref().ok());
    Ok(Taken { record, parents, plays, head: text.len() - past_head.len(), bytes: text.len() - rest.len() })
}

/// The same, or refusals 1 to 4.
fn storable(text: &[u8]) -> Result<Taken<'_>, Answer> {
    taken(text).and_then(|taken| match taken.record.length() {
        needed if needed > LIMIT => Err(answer(4, needed as u64, 0)),
        _ => Ok(taken),
    })
}

/// The length needed and the bytes taken, or refusals 1 to 4 (02, vii).
pub fn measure(text: &[u8]) -> Outcome {
    let measured = storable(text).map(|taken| answer(0, taken.record.length() as u64, taken.bytes as u64));
    Outcome::Answered(measured.unwrap_or_else(|refusal| refusal))
}

pub fn fill(text: &[u8]) -> Outcome {
    let Taken { mut record, parents, plays, bytes, .. } = match storable(text) {
        Ok(taken) => taken,
        Err(refusal) => return Outcome::Answered(refusal),
    };
    let needed = record.length();
    match parents {
        Err((variation, ply)) => Outcome::Unattached { needed, answer: answer(6, variation, ply) },
        Ok(parents) => {
            record.lines.iter_mut().zip(parents).for_each(|(line, parent)| line.parent = parent);
            let lost = lost(&plays, record.entries().count() - 1);
            let answer = Answer { lost, ..answer(0, bytes as u64, needed as u64) };
            Outcome::Made { result: encode(&record), answer }
        }
    }
}

/// The first byte of the hand line in which the reading failed.
fn hand_line(text: &str, error: nom::Err<VerboseError<&str>>) -> u64 {
    let nom::Err::Failure(VerboseError { errors }) = error else {
        panic!("only a hand line makes the information block fail");
    };
    let failed_at = text.len() - errors[0].0.len();
    text[..failed_at].rfind('\n').map_or(0, |at| at as u64 + 1)
}

/// Holds the attaching rule against the tree that the original's `parse` makes, or does not make, of the same text.
fn confirm_attaching(text: &str, rest: &str, mut head: JsonKifuFormat, lines: Vec<Play>, parents: Option<&[usize]>) {
    let by_rule = parents.map(|parents| {
        head.moves = nest(lines, parents);
        (rest, head)
    });
    assert!(parse(text).ok() == by_rule, "the attaching rule and the original's tree differ");
}

pub fn write(block: &[u8]) -> Outcome {
    let Some(record) = record_of(block) else {
        return refused(7, 0, 0);
    };
    if let Some((side, kind)) = count_over_99(&record) {
        return refused(8, side, kind);
    }
    let written = written_lines(&record);
    if let Some((line, entry)) = unwritable(&record.lines[..written], Mode::Plain) {
        return refused(9, line, entry);
    }
    let result = translate::original(&record).to_kif_owned().into_bytes();
    let answer = answer(0, result.len() as u64, (record.lines.len() - written) as u64);
    Outcome::Made { result, answer }
}

/// Writing in the mode with this number (02, xi). Those that lose nothing leave no line out: a variation with start 0 is refused.
pub fn write_as(block: &[u8], mode: u64) -> Outcome {
    let mode = match Mode::of(mode) {
        Mode::Plain => return write(block),
        mode => mode,
    };
    let Some(record) = record_of(block) else {
        return refused(7, 0, 0);
    };
    if let Some(variation) = record.lines[1..].iter().position(|line| line.start == 0) {
        return refused(20, 1 + variation as u64, 0);
    }
    if let Some((side, kind)) = count_over_99(&record) {
        return refused(8, side, kind);
    }
    if let Some((line, entry)) = unwritable(&record.lines, mode) {
        return refused(9, line, entry);
    }
    let result = whole::text(&record, mode).into_bytes();
    let answer = answer(0, result.len() as u64, 0);
    Outcome::Made { result, answer }
}

fn record_of(block: &[u8]) -> Option<Record> {
    sound(block).then(|| decode(block).expect("a sound block holds a record"))
}

/// Side and kind of the first hand count that kanji cannot spell.
fn count_over_99(record: &Record) -> Option<(u64, u64)> {
    let hands = record.position.diagram.as_ref()?.hands;
    let place = hands.iter().position(|&count| count > 99)? as u64;
    Some((place / 7, place % 7))
}

/// The lines before the first variation with start 0.
pub fn written_lines(record: &Record) -> usize {
    let variations = &record.lines[1..];
    1 + variations.iter().position(|line| line.start == 0).unwrap_or(variations.len())
}

/// Line and entry of the first move that cannot be written.
fn unwritable(lines: &[Line], mode: Mode) -> Option<(u64, u64)> {
    let in_line = |line: &Line| line.entries.iter().position(|entry| is_unwritable(entry, mode));
    lines.iter().enumerate().find_map(|(k, line)| Some((k as u64, in_line(line)? as u64)))
}

/// A target off the board, or a time with no room before it.
pub fn is_unwritable(entry: &Entry, mode: Mode) -> bool {
    let What::Move(m) = &entry.what else {
        return false;
    };
    let off_board = |place: u8| !(1..=9).contains(&place);
    let to_off_board = m.to.is_some_and(|(file, rank)| off_board(file) || off_board(rank));
    to_off_board || (entry.time.is_some() && width(&entry.what, mode) == 14)
}

pub fn put_in(block: &[u8], line: u64, text: &[u8]) -> Outcome {
    let Some(mut record) = record_of(block) else {
        return refused(7, 0, 0);
    };
    let Some((parent, target)) = line_numbered(&record, line) else {
        return refused(10, line, 0);
    };
    let Some((ply, entries)) = variation(text) else {
        return refused(11, 0, 0);
    };
    if ply == 0 || ply < target.start || ply - target.start >= target.entries.len() as u64 {
        return refused(12, line, ply);
    }
    let is_taken = record.lines[1..].iter().any(|other| other.parent == parent && other.start == ply);
    if record.version == 1 && is_taken {
        return refused(13, line, ply);
    }
    let later = &record.lines[parent + 1..];
    let place = parent + 1 + later.iter().position(|other| other.start <= ply).unwrap_or(later.len());
    for other in &mut record.lines {
        other.parent += usize::from(other.parent >= place);
    }
    record.lines.insert(place, Line { start: ply, parent, entries });
    assert!(hang(record.version, &record.rows()), "a line hangs otherwise afterwards: {block:?} {line} {text:?}");
    let needed = record.length();
    if needed > LIMIT {
        return refused(4, needed as u64, 0);
    }
    Outcome::Made { result: encode(&record), answer: answer(0, needed as u64, place as u64) }
}

/// The line with this number, and the number as an index.
fn line_numbered(record: &Record, line: u64) -> Option<(usize, &Line)> {
    let index = usize::try_from(line).ok()?;
    Some((index, record.lines.get(index)?))
}

/// Ply and entries of a text that is wholly move lines with comments, numbered one by one from the first, as 02 (iii) asks.
fn variation(text: &[u8]) -> Option<(u64, Vec<Entry>)> {
    let text = str::from_utf8(text).ok().filter(|text| text.len() <= LIMIT)?;
    let (rest, moves) = read_moves(text).ok()?;
    if moves.windows(2).any(|pair| pair[0].0.checked_add(1) != Some(pair[1].0)) {
        return None;
    }
    let entries = moves.iter().map(|(_, entry): &(usize, MoveFormat)| translate::entry(entry)).collect();
    rest.is_empty().then_some((moves[0].0 as u64, entries))
}

pub fn cut(block: &[u8], line: u64) -> Outcome {
    let Some(mut record) = record_of(block) else {
        return refused(7, 0, 0);
    };
    let Some((first, _)) = line_numbered(&record, line).filter(|&(index, _)| index > 0) else {
        return refused(10, line, 0);
    };
    let gone = removed(&record, first);
    let number = |line: usize| line - gone.partition_point(|&other| other < line);
    let kept = record.lines.iter().enumerate().filter(|(line, _)| gone.binary_search(line).is_err());
    record.lines = kept.map(|(_, kept)| Line { parent: number(kept.parent), ..kept.clone() }).collect();
    let result = encode(&record);
    let answer = answer(0, result.len() as u64, gone.len() as u64);
    Outcome::Made { result, answer }
}

/// The numbers of the lines that go with one that is cut: 01's run by starts, or 02's "those whose chain of parents leads to it" (vi).
fn removed(record: &Record, first: usize) -> Vec<usize> {
    let (rows, lines) = (record.rows(), first..record.lines.len());
    match record.version {
        1 => lines.take_while(|&line| rows[line].start >= rows[first].start).collect(),
        _ => lines.filter(|&line| line == first || chain(&rows, line).any(|above| above == first)).collect(),
    }
}

/// A sound version 1 block as version 2 (02, vi); what is anything else is refused.
pub fn restate(block: &[u8]) -> Outcome {
    let Some(record) = record_of(block).filter(|record| record.version == 1) else {
        return refused(7, 0, 0);
    };
    let result = encode(&Record { version: 2, ..record });
    let answer = answer(0, result.len() as u64, 0);
    Outcome::Made { result, answer }
}

/// The position after a chosen entry (02, i), as a block has it; the figures are its length and the side to move.
pub fn position(block: &[u8], line: u64, entry: u64) -> Outcome {
    match played(block, line, entry) {
        Err(refusal) => Outcome::Answered(refusal),
        Ok(Err(stopped)) => refused(17, stopped.line as u64, stopped.entry as u64),
        Ok(Ok(play)) => {
            let turn = play.diagram.turn.into();
            let result = position_bytes(&Position { preset: 16, diagram: Some(play.diagram) }).to_vec();
            Outcome::Made { answer: answer(0, result.len() as u64, turn), result }
        }
    }
}

/// Why play stops before a chosen entry or with it, if nothing else is refused before that.
pub fn stop_of_play(block: &[u8], line: u64, entry: u64) -> Option<Reason> {
    played(block, line, entry).ok()?.err().map(|stopped| stopped.reason)
}

/// The play up to a chosen entry, or where it stopped; or refusals 7, 10, 15 and 16.
fn played(block: &[u8], line: u64, entry: u64) -> Result<Result<position::Play, Stopped>, Answer> {
    let record = record_of(block).ok_or(answer(7, 0, 0))?;
    let (index, target) = line_numbered(&record, line).ok_or(answer(10, line, 0))?;
    let start = position::start(&record.position).ok_or(answer(15, record.position.preset.into(), 0))?;
    if entry >= target.entries.len() as u64 {
        return Err(answer(16, line, entry));
    }
    Ok(position::after(&record, start, index, entry as usize))
}

/// How many lines there are.
pub fn lines(block: &[u8]) -> Answer {
    record_of(block).map_or(answer(7, 0, 0), |record| answer(0, record.lines.len() as u64, 0))
}

/// A line's start, and how many entries it has.
pub fn line(block: &[u8], k: u64) -> Answer {
    of_line(block, k, |_, line| answer(0, line.start, line.entries.len() as u64))
}

/// The line that a line hangs on.
pub fn parent(block: &[u8], k: u64) -> Answer {
    of_line(block, k, |_, line| answer(0, line.parent as u64, 0))
}

/// Where the 20 bytes of an entry stand, behind those of all lines before its own.
pub fn entry(block: &[u8], k: u64, entry: u64) -> Answer {
    of_line(block, k, |before, line| match entry < line.entries.len() as u64 {
        true => {
            let earlier: usize = before.iter().map(|line| line.entries.len()).sum();
            answer(0, u16_at(block, 18).unwrap() as u64 + 20 * (earlier as u64 + entry), 20)
        }
        false => answer(16, k, entry),
    })
}

/// What is asked of a line, given those before it; or refusals 7 and 10.
fn of_line(block: &[u8], k: u64, asked: impl Fn(&[Line], &Line) -> Answer) -> Answer {
    let Some(record) = record_of(block) else {
        return answer(7, 0, 0);
    };
    line_numbered(&record, k).map_or(answer(10, k, 0), |(index, line)| asked(&record.lines[..index], line))
}

pub fn comment(block: &[u8], k: u64) -> (Answer, &[u8]) {
    look_up(block, k, 12, |k| u16_at(block, 20).unwrap() + 4 * k)
}

pub fn key(block: &[u8], k: u64) -> (Answer, &[u8]) {
    look_up(block, k, 6, |k| u16_at(block, 14).unwrap() + 8 * k)
}

pub fn value(block: &[u8], k: u64) -> (Answer, &[u8]) {
    look_up(block, k, 6, |k| u16_at(block, 14).unwrap() + 8 * k + 4)
}

/// The part whose offset and length stand at `field(k)`, if the count at this place of the head goes so far.
fn look_up(block: &[u8], k: u64, count_at: usize, field: impl Fn(usize) -> usize) -> (Answer, &[u8]) {
    if !sound(block) {
        return (answer(7, 0, 0), &[]);
    }
    let number = |at| u16_at(block, at).expect("tables lie within a sound block");
    if k >= number(count_at) as u64 {
        return (answer(10, k, 0), &[]);
    }
    let at = field(k as usize);
    let (start, length) = (number(22) + number(at), number(at + 2));
    (answer(0, start as u64, length as u64), &block[start..start + length])
}

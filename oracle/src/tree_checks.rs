//! What must hold of version 2, by a second set of words.   (02, vi)

use crate::call::Call;
use crate::jkf::MoveFormat;
use crate::judge::{self, Outcome};
use crate::left::read_again;
use crate::original::converter::kif::ToKif;
use crate::record::{decode, encode, Line, Record};
use crate::sound::sound;
use crate::translate::{self, move_format};
use crate::trees::{has_equal_before, has_two, on_entry, Row};

/// Lines are sound as version 1 exactly if they are as version 2 and no entry has two.
pub fn one_is_two(record: &Record) {
    let as_version = |version| sound(&encode(&Record { version, ..record.clone() }));
    assert_eq!(as_version(1), as_version(2) && !has_two(&record.rows()), "{:?}", record.rows());
}

/// Restating changes the version and nothing else, and no text; and only a sound version 1 block is restated.
pub fn restated(block: &[u8], outcome: &Outcome) {
    let is_one = sound(block) && block[2] == 1;
    let Outcome::Made { result, answer } = outcome else {
        return assert_eq!((*outcome == Outcome::Answered(judge::answer(7, 0, 0)), is_one), (true, false));
    };
    assert_eq!((is_one, *answer), (true, judge::answer(0, block.len() as u64, 0)));
    assert!(sound(result) && *result == as_version_two(block));
    (0..3).for_each(|mode| assert_eq!(judge::write_as(result, mode), judge::write_as(block, mode)));
    assert_eq!(judge::restate(result), Outcome::Answered(judge::answer(7, 0, 0)));
}

fn as_version_two(block: &[u8]) -> Vec<u8> {
    [&block[..2], &[2], &block[3..]].concat()
}

/// What an edit of a sound version 1 block comes to, it comes to restated, but for the version and refusal 13.
pub fn alike(call: &Call, outcome: &Outcome) {
    let restated = match call {
        Call::PutIn { block, line, text, .. } => judge::put_in(&as_version_two(block), *line, text),
        Call::Cut { block, line, .. } => judge::cut(&as_version_two(block), *line),
        _ => unreachable!("no edit"),
    };
    match outcome {
        Outcome::Answered(refusal) if refusal.number == 13 => assert_ne!(restated, *outcome),
        Outcome::Made { result, answer } => {
            assert_eq!(restated, Outcome::Made { result: as_version_two(result), answer: *answer })
        }
        _ => assert_eq!(restated, *outcome),
    }
}

/// The new line is the first of its equals; in the original's tree it is pushed behind the forks of its entry, and the text is that of
/// the block afterwards.
pub fn pushed(before: &Record, place: usize, new: &Line, after: &[u8]) {
    assert!(!has_equal_before(&decode(after).unwrap().rows(), place), "an equal stands before the new line");
    let mut tree = translate::original(before);
    let rows = before.rows();
    let at = (new.start - rows[new.parent].start) as usize;
    let entry = &mut line_in(&mut tree.moves, &rows, new.parent)[at];
    entry.forks.get_or_insert_with(Vec::new).push(new.entries.iter().map(move_format).collect());
    if let Outcome::Made { result, .. } = judge::write(after) {
        assert!(result == tree.to_kif_owned().into_bytes(), "the original writes another text of the new line");
    }
}

/// In the original's tree the line is one fork that goes, with all that it holds.
pub fn pruned(before: &Record, line: usize, after: &[u8]) {
    let mut tree = translate::original(before);
    let (forks, at) = forks_with(&mut tree.moves, &before.rows(), line);
    forks.remove(at);
    if let Outcome::Made { result, .. } = judge::write(after) {
        assert!(result == tree.to_kif_owned().into_bytes(), "the original writes another text without the line");
    }
}

/// A line in the original's tree.
fn line_in<'a>(moves: &'a mut Vec<MoveFormat>, rows: &[Row], line: usize) -> &'a mut Vec<MoveFormat> {
    if line == 0 {
        return moves;
    }
    let (forks, at) = forks_with(moves, rows, line);
    &mut forks[at]
}

/// The forks of the entry that a line hangs on, and its place: they are the lines on it from the last in the file to the first.
fn forks_with<'a>(moves: &'a mut Vec<MoveFormat>, rows: &[Row], line: usize) -> (&'a mut Vec<Vec<MoveFormat>>, usize) {
    let Row { start, parent, .. } = rows[line];
    let later = on_entry(rows, rows[line].entry()).filter(|&other| other > line).count();
    let entry = &mut line_in(moves, rows, parent)[(start - rows[parent].start) as usize];
    (entry.forks.as_mut().expect("a line hangs there"), later)
}

/// How many lines go with one that is cut: it and the run after it whose parents are not before it.
pub fn run_by_parents(rows: &[Row], line: usize) -> usize {
    1 + rows[line + 1..].iter().take_while(|row| row.parent >= line).count()
}

/// What is left out hangs from the slot: without it the original writes the same text.
pub fn left_out(record: &Record, outcome: &Outcome) {
    let Outcome::Made { result, answer } = outcome else {
        return;
    };
    let mut shown = record.clone();
    shown.lines.truncate(record.lines.len() - answer.second as usize);
    let due = Outcome::Made { result: result.clone(), answer: judge::answer(0, answer.first, 0) };
    assert_eq!(judge::write(&encode(&shown)), due);
}

/// The moves up to an entry are the same where its line's equals are nested, so that both versions have one position.
pub fn played_alike(block: &[u8], line: u64, entry: u64) {
    if sound(block) {
        let nested = encode(&read_again(&decode(block).unwrap()));
        assert_eq!(judge::position(block, line, entry), judge::position(&nested, line, entry));
    }
}

/// Reading what was written of a record changes no parent but that of a line with an equal before it, which is then the nearest line with
/// its start; so the record comes back, the version apart, exactly if no entry has two.
pub fn nests(record: &Record) {
    let (rows, again) = (record.rows(), read_again(record));
    for (line, nested) in again.lines.iter().enumerate().skip(1) {
        let due = match has_equal_before(&rows, line) {
            true => rows[..line].iter().rposition(|row| row.start == nested.start).expect("its equal has that start"),
            false => rows[line].parent,
        };
        assert_eq!(nested.parent, due, "line {line} hangs elsewhere: {rows:?}");
    }
    assert_eq!(Record { version: record.version, ..again } == *record, !has_two(&rows));
}

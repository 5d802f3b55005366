//! Version 2 blocks: of records made by hand, spoiled, and with as many lines as a block can hold, as deep and as wide.   (02, vi)

use crate::blocks;
use crate::call::Call;
use crate::player;
use crate::record::{decode, encode, Line, Record, LIMIT};
use crate::rng::Rng;
use crate::small::Digits;
use crate::sound::sound;
use crate::trees::choices;

/// A sound one.
pub fn made(r: &mut Rng) -> Vec<u8> {
    let record = match r.below(300) {
        0 => blocks::many_lines(r, 1, 1, |_| (1, 0)),
        1 => blocks::most_lines(r),
        2..=4 => {
            let record = record(r);
            blocks::filled_of(r, record)
        }
        5..=150 => {
            let record = record(r);
            blocks::amended_of(r, record)
        }
        _ => record(r),
    };
    let record = if r.one_in(8) { record } else { rehung(r, record) };
    let block = encode(&Record { version: 2, ..record });
    assert!(sound(&block), "not as sound as it should be");
    block
}

/// A record of play that mostly fits the board, its lines hung anew.
pub fn played(r: &mut Rng) -> Vec<u8> {
    let record = decode(&player::block(r)).expect("a player's block holds a record");
    encode(&Record { version: 2, ..rehung(r, record) })
}

/// A record with variations at few plies, so that many are equals.
fn record(r: &mut Rng) -> Record {
    let mut record = Record { version: 2, ..blocks::record(r) };
    for _ in 0..[r.below(6), r.below(12), r.below(60)][r.below(3)] {
        let rows = record.rows();
        let start = if r.one_in(3) { r.below(8) as u64 } else { rows[r.below(rows.len())].start };
        let choices = choices(&rows, start);
        if !choices.is_empty() {
            record.lines.push(Line { start, parent: choices[r.below(choices.len())], entries: blocks::variation(r) });
        }
    }
    record
}

/// The same lines, each under any line that it may hang from.
fn rehung(r: &mut Rng, mut record: Record) -> Record {
    let mut rows = record.rows();
    for k in 1..rows.len() {
        let choices = choices(&rows[..k], rows[k].start);
        rows[k].parent = choices[r.below(choices.len())];
    }
    record.lines.iter_mut().zip(rows).for_each(|(line, row)| line.parent = row.parent);
    record
}

/// One with a byte altered: seeds in turn go through the values of a byte, then the bytes of a block.
pub fn altered(seed: u64) -> Vec<u8> {
    blocks::altered_of(encode(&record(&mut Rng::new(seed >> 17))), seed)
}

/// A damaged copy of one: a parent or a start that is another, or anything else.
pub fn spoiled(r: &mut Rng) -> Vec<u8> {
    let mut record = record(r);
    let lines = record.lines.len();
    let line = &mut record.lines[r.below(lines)];
    match r.below(6) {
        0..=1 => line.parent = r.below(lines + 1),
        2 => line.start = (line.start + 1).saturating_sub(2 * r.below(2) as u64),
        3 => record.version = [0, 1, 3, 257, 258, 512, 65_535][r.below(7)],
        4 => record.lines.swap(lines / 2, lines - 1),
        _ => return blocks::spoiled_of(r, encode(&record)),
    }
    encode(&record)
}

/// Where a line stands, by its number: its start and its parent.
type Place = fn(usize) -> (usize, usize);

/// How many plies line 0 has, how many each of the others, and where these stand: all at one ply, each on the one before, or all on line 0;
/// each a ply higher and on the one before, or a ply lower and on line 0; half on the one before and half on line 0, or on the last of these;
/// two by two; all at 0, or half of them.
const PLACES: [(usize, usize, Place); 9] = [
    (1, 1, |k| (1, k - 1)),
    (1, 1, |_| (1, 0)),
    (1, 2, |k| (k, k - 1)),
    (1_362, 1, |k| (1_363 - k, 0)),
    (1, 1, |k| (1, if k < 1_167 { k - 1 } else { 0 })),
    (1, 1, |k| (1, k.min(1_167) - 1)),
    (1, 1, |k| (1, if k % 2 == 0 { k - 1 } else { 0 })),
    (1, 1, |_| (0, 0)),
    (1, 1, |k| (usize::from(k < 1_167), if k == 1_167 { 0 } else { k - 1 })),
];
const CALLS: usize = 16;

/// A record with so many lines that a block has no room for one more.
fn most_lines((plies, each, place): (usize, usize, Place)) -> Record {
    let mut drawn = (0..).map(|seed| blocks::many_lines(&mut Rng::new(seed), plies, each, place));
    let most = drawn.find(|record| record.length() + 8 + 20 * each > LIMIT).expect("one in two has the most");
    Record { version: 2, ..most }
}

/// How many calls there are for these.
pub const DEEP: u64 = (PLACES.len() * CALLS) as u64;

/// The n-th of them.
pub fn deep(n: u64) -> Call {
    let n = &mut Digits(n % DEEP);
    let (call, mut record) = (n.below(CALLS), most_lines(PLACES[n.below(PLACES.len())]));
    // A put-in has room for its line.
    if (3..=5).contains(&call) {
        record.lines.pop();
    }
    let (rows, block) = (record.rows(), encode(&record));
    let last = rows.len() - 1;
    let put_in = |line: usize| {
        let text = format!("{}同歩打\n", rows[line].start.max(1)).into_bytes();
        Call::PutIn { block: block.clone(), line: line as u64, text, from_text: false }
    };
    let cut = |line: usize| Call::Cut { block: block.clone(), line: line as u64, from_text: false };
    match call {
        0..=2 => Call::WriteAs { block, mode: call as u64 },
        3..=5 => put_in([0, last / 2, last][call - 3]),
        6..=8 => cut([1, last / 2, last][call - 6]),
        9 => Call::Restate { block, from_text: false },
        10 => Call::Restate { block: encode(&Record { version: 1, ..record }), from_text: false },
        11 => Call::Sound { block },
        12 => Call::Position { block, line: last as u64, entry: 0 },
        13 => Call::Comment { block, k: 0 },
        14 => Call::Write { block },
        _ => Call::Key { block, k: 0 },
    }
}

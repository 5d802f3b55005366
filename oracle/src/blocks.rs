//! Blocks: of records that a reader gives and of records that none gives, spoiled, and round every limit.

use crate::attach;
use crate::judge::{self, Outcome};
use crate::record::{encode, Clock, Diagram, Entry, Line, Move, Position, Record, Time, What, LIMIT};
use crate::rng::Rng;
use crate::sound::sound;
use crate::texts;
use crate::whole::Mode;
use std::iter;

/// Texts as a reader never gives them among those it does.
pub const TEXTS: [&str; 16] =
    ["", "a", "b", "ab", "先手", "後手", "開始日時", "a：b", "#c", "a\rb", "a\nb", "&x", "*", "手合割", "🀄", "\0"];
/// The keys that are written before all others.
pub const LEADING: [&str; 12] =
    ["開始日時", "終了日時", "表題", "棋戦", "戦型", "持ち時間", "秒読み", "場所", "先手", "下手", "後手", "上手"];
/// Keys and values of which some are read as a preset or a hand, and some only nearly.
const NEAR_KEYS: [&str; 16] = [
    "手合割", "手合割", "手合割 ", "先手の持駒", "下手の持駒", "先手の持駒 ", "の持駒", "先手番", "後手番", " #", "&",
    "*", " 1 ７六歩(77) ", "変化", "\u{feff}手合割", "\u{feff}#",
];
const NEAR_VALUES: [&str; 10] =
    ["", "平手", "平手　 ", "平手x", " 平手", "平手\t", "：その他", "なし", "#", "\u{feff}"];
const BYTES: [u8; 8] = [0, 1, 9, 10, 25, 99, 100, 255];

/// Any slice at all: mostly a sound block.
pub fn block(r: &mut Rng) -> Vec<u8> {
    block_and_origin(r).0
}

/// And whether it came of reading a text.
pub fn block_and_origin(r: &mut Rng) -> (Vec<u8>, bool) {
    match r.below(10) {
        0..=1 => (spoiled(r), false),
        _ => sound_block_and_origin(r),
    }
}

pub fn sound_block(r: &mut Rng) -> Vec<u8> {
    sound_block_and_origin(r).0
}

fn sound_block_and_origin(r: &mut Rng) -> (Vec<u8>, bool) {
    let (block, from_text) = match r.below(300) {
        0 => (crowded(r), false),
        1 => (full(r), false),
        2 => (encode(&most_moves(r)), false),
        3..=150 => (read_block(r), true),
        _ => (encode(&record(r)), false),
    };
    assert!(sound(&block), "not as sound as it should be");
    (block, from_text)
}

/// A block with as many lines as one can hold, or one fewer.
pub fn crowded(r: &mut Rng) -> Vec<u8> {
    encode(&most_lines(r))
}

/// A block with as many bytes as one can have, or up to two fewer.
pub fn full(r: &mut Rng) -> Vec<u8> {
    encode(&filled(r))
}

/// A block that the reader answered, and so one that can be written and read back.
pub fn read_block(r: &mut Rng) -> Vec<u8> {
    read_from(r, texts::text)
}

/// The block of the first of these texts that is read.
pub fn read_from(r: &mut Rng, text: fn(&mut Rng) -> Vec<u8>) -> Vec<u8> {
    loop {
        if let Outcome::Made { result, .. } = judge::fill(&text(r)) {
            return result;
        }
    }
}

/// The block of a record made by hand that mostly comes back when it is written.
pub fn amended(r: &mut Rng) -> Vec<u8> {
    let record = record(r);
    encode(&amended_of(r, record))
}

/// The record, amended where 02 asks something of one made by hand.
pub fn amended_of(r: &mut Rng, mut record: Record) -> Record {
    record.lines.truncate(judge::written_lines(&record));
    for line in &mut record.lines {
        line.entries.iter_mut().zip(line.start..).for_each(|(entry, ply)| amend(r, entry, ply));
    }
    record.header.iter_mut().for_each(|(key, value)| (*key, *value) = (amended_key(key), without_breaks(value)));
    record.header.push((r.pick(&NEAR_KEYS).into(), r.pick(&NEAR_VALUES).into()));
    record.header.sort();
    record.header.dedup_by(|later, earlier| later.0 == earlier.0);
    if let Some(diagram) = &mut record.position.diagram {
        diagram.hands = diagram.hands.map(|count| count.min(99));
    }
    record
}

/// Its colour by the ply, a place on the board, an origin and a special that the reader gives, and no time without room.
fn amend(r: &mut Rng, entry: &mut Entry, ply: u64) {
    match &mut entry.what {
        What::Slot => {}
        What::Move(m) => {
            let origin = [0, r.byte(), BYTES[r.below(8)]][r.below(3)];
            m.colour = u8::from(ply % 2 == 0);
            m.to = m.to.filter(|(file, rank)| (1..=9).contains(file) && (1..=9).contains(rank));
            m.from = Some((origin / 10, origin % 10));
        }
        What::Special(number) => *number = [0, 1, 2, 3, 4, 7, 8, 11][usize::from(*number) % 8],
    }
    if judge::is_unwritable(entry, Mode::Shared) {
        entry.time = None;
    }
    entry.comments.iter_mut().for_each(|comment| *comment = without_breaks(comment));
}

fn amended_key(key: &str) -> String {
    let key = without_breaks(key).replace('：', "");
    let key = key.trim_start_matches('#');
    if key.is_empty() { "k" } else { key }.into()
}

fn without_breaks(text: &str) -> String {
    text.replace(['\r', '\n'], "")
}

/// A well-formed record.
pub fn record(r: &mut Rng) -> Record {
    let keys = [r.below(6), r.below(24)][usize::from(r.one_in(8))];
    let mut header: Vec<_> = (0..keys).map(|_| (key(r), text(r))).collect();
    header.sort();
    header.dedup_by(|later, earlier| later.0 == earlier.0);
    let mut lines = vec![Line { start: 0, parent: 0, entries: entries(r, What::Slot) }];
    for _ in 0..r.below(8) {
        let start = r.below(8) as u64;
        lines.push(Line { start, parent: 0, entries: variation(r) });
        let shape: Vec<_> = lines.iter().map(|line| (line.start, line.entries.len())).collect();
        match attach::parents(&shape) {
            Ok(parents) => lines.last_mut().unwrap().parent = parents[lines.len() - 1],
            Err(_) => drop(lines.pop()),
        }
    }
    Record { version: 1, header, position: position(r), lines }
}

/// Up to seven entries of a variation.
pub fn variation(r: &mut Rng) -> Vec<Entry> {
    let first = what(r);
    entries(r, first)
}

/// Up to seven entries, the first of them this.
fn entries(r: &mut Rng, first: What) -> Vec<Entry> {
    let mut entries = vec![entry(r, first)];
    for _ in 0..r.below(7) {
        let what = what(r);
        entries.push(entry(r, what));
    }
    entries
}

fn entry(r: &mut Rng, what: What) -> Entry {
    let timed = what != What::Slot && r.one_in(2);
    let time = timed.then(|| Time { now: clock(r), total: clock(r) });
    let comments = (0..[0, 0, 0, 1, r.below(4)][r.below(5)]).map(|_| text(r)).collect();
    Entry { what, time, comments }
}

fn clock(r: &mut Rng) -> Clock {
    Clock { h: r.one_in(2).then(|| number(r)), m: number(r), s: number(r) }
}

fn what(r: &mut Rng) -> What {
    if r.one_in(5) {
        return What::Special(r.below(14) as u8);
    }
    What::Move(Move {
        colour: r.below(2) as u8,
        piece: 1 + r.below(14) as u8,
        promote: r.below(3) as u8,
        to: (!r.one_in(4)).then(|| to(r)),
        from: (!r.one_in(4)).then(|| (number(r), number(r))),
    })
}

/// A square, rarely one off the board.
fn to(r: &mut Rng) -> (u8, u8) {
    match r.below(40) {
        0 => (number(r), 5),
        1 => (5, number(r)),
        _ => (1 + r.below(9) as u8, 1 + r.below(9) as u8),
    }
}

fn number(r: &mut Rng) -> u8 {
    let usual = r.below(60) as u8;
    [BYTES[r.below(8)], usual, usual][r.below(3)]
}

/// One that leads, one that only begins so, or any text.
fn key(r: &mut Rng) -> String {
    match r.below(4) {
        0 => text(r),
        1 => [r.pick(&LEADING), r.pick(&TEXTS)].concat(),
        _ => r.pick(&LEADING).into(),
    }
}

fn text(r: &mut Rng) -> String {
    (0..1 + r.below(2)).map(|_| r.pick(&TEXTS)).collect()
}

fn position(r: &mut Rng) -> Position {
    if r.one_in(2) {
        return Position { preset: r.below(17) as u8, diagram: None };
    }
    let cell = |r: &mut Rng| [0, 1 + r.below(14) as u8, 17 + r.below(14) as u8][r.below(3)];
    let most = [2, 20, 100, 101, 256][r.below(5)];
    let diagram = Diagram {
        turn: r.below(2) as u8,
        cells: std::array::from_fn(|_| cell(r)),
        hands: std::array::from_fn(|_| if r.one_in(4) { r.below(most) as u8 } else { 0 }),
    };
    Position { preset: 16, diagram: Some(diagram) }
}

/// As many lines as a block can hold, or one fewer: each a ply higher than the one before it and on it; or each a ply
/// lower and on line 0; or all at one ply, each on the one before it, and from some line on at 0, if not all of them.
pub fn most_lines(r: &mut Rng) -> Record {
    let zeros = [usize::MAX, 1, 1 + r.below(2_333)][r.below(3)];
    match r.below(4) {
        0 => many_lines(r, 1, 2, |k| (k, k - 1)),
        1 => many_lines(r, 1_362, 1, |k| (1_363 - k, 0)),
        _ => many_lines(r, 1, 1, |k| (usize::from(k < zeros), if k == zeros { 0 } else { k - 1 })),
    }
}

/// So many plies in line 0 and so many in each of the others, whose starts and parents are given.
pub fn many_lines(r: &mut Rng, plies: usize, each: usize, place: impl Fn(usize) -> (usize, usize)) -> Record {
    let mut record = bare(writable_entries(r, plies));
    let lines = (LIMIT - record.length()) / (8 + 20 * each) - r.below(2);
    for k in 1..=lines {
        let (start, parent) = place(k);
        record.lines.push(Line { start: start as u64, parent, entries: writable_entries(r, each) });
    }
    record
}

/// As many moves in line 0 as a block can hold, or fewer, and variations at its last plies.
fn most_moves(r: &mut Rng) -> Record {
    let plies = [98 + r.below(4), 998 + r.below(4), 3_263][r.below(3)];
    let mut record = bare(writable_entries(r, plies));
    for start in (plies - r.below(3)..=plies).rev() {
        record.lines.push(Line { start: start as u64, parent: 0, entries: writable_entries(r, 1) });
    }
    if r.one_in(4) {
        let entries = record.lines[0].entries.len();
        record.lines[0].entries[1 + r.below(entries - 1)].what = what(r);
    }
    record
}

/// A record of line 0 alone, with these entries behind its slot.
fn bare(entries: Vec<Entry>) -> Record {
    let slot = Entry { what: What::Slot, time: None, comments: vec![] };
    let main = Line { start: 0, parent: 0, entries: [vec![slot], entries].concat() };
    Record { version: 1, header: vec![], position: Position { preset: 0, diagram: None }, lines: vec![main] }
}

/// Entries without comments, none of which keeps a block from being written.
fn writable_entries(r: &mut Rng, count: usize) -> Vec<Entry> {
    let drawn = iter::repeat_with(|| {
        let what = what(r);
        Entry { comments: vec![], ..entry(r, what) }
    });
    drawn.filter(|entry| !judge::is_unwritable(entry, Mode::Plain)).take(count).collect()
}

/// A record whose block is as long as a block can be, or nearly so.
fn filled(r: &mut Rng) -> Record {
    let record = record(r);
    filled_of(r, record)
}

/// The record with so long a comment that its block is.
pub fn filled_of(r: &mut Rng, mut record: Record) -> Record {
    let short_by = LIMIT - record.length() - r.below(3);
    let slot = &mut record.lines[0].entries[0];
    slot.comments.push("x".repeat(short_by - 4));
    record
}

/// A block with one byte altered: seeds in turn go through the values of a byte, then the bytes of a block.
pub fn altered(seed: u64) -> Vec<u8> {
    altered_of(encode(&record(&mut Rng::new(seed >> 17))), seed)
}

pub fn altered_of(mut block: Vec<u8>, seed: u64) -> Vec<u8> {
    let place = (seed >> 8) as usize % 512 % block.len();
    block[place] = seed as u8;
    block
}

/// A block that is mostly no longer sound.
pub fn spoiled(r: &mut Rng) -> Vec<u8> {
    let block = if r.one_in(3) { encode(&misshapen(r)) } else { sound_block(r) };
    spoiled_of(r, block)
}

/// The block with something wrong in it, mostly.
pub fn spoiled_of(r: &mut Rng, mut block: Vec<u8>) -> Vec<u8> {
    let length = block.len();
    match r.below(12) {
        0 => block[r.below(length)] = r.byte(),
        1 => nudge(r, &mut block, 0, 28),
        2 => nudge(r, &mut block, 28, 128),
        3..=6 => nudge(r, &mut block, 100, length),
        7 => block.truncate(r.below(length)),
        8 => block.truncate(length - 1),
        9 => block.push([0, b'x'][r.below(2)]),
        10 => block.resize(length + 1 + r.below(70_000), 0),
        _ => {}
    }
    block
}

/// One byte between these places up or down by one, or at a bound of its field.
fn nudge(r: &mut Rng, block: &mut [u8], start: usize, end: usize) {
    let byte = &mut block[start + r.below(end - start)];
    *byte = [byte.wrapping_add(1), byte.wrapping_sub(1), byte.wrapping_add(2), 0, 1, 0x80, 0xff, 31][r.below(8)];
}

/// A record with one thing that no sound block has, in the layout of one.
fn misshapen(r: &mut Rng) -> Record {
    let mut record = record(r);
    let lines = record.lines.len();
    let line = &mut record.lines[r.below(lines)];
    let entries = line.entries.len();
    let entry = &mut line.entries[r.below(entries)];
    match r.below(12) {
        0 => line.parent = r.below(lines + 1),
        1 => line.start = r.below(70_000) as u64,
        2 => line.start += 1,
        3 => line.entries.clear(),
        4 => entry.what = What::Slot,
        5 => entry.what = What::Special(14 + r.below(3) as u8),
        6 => drop(line.entries.remove(0)),
        7 => record.header.reverse(),
        8 => record.header = record.header.iter().flat_map(|pair| [pair.clone(), pair.clone()]).collect(),
        9 => record.position.preset = r.below(20) as u8,
        10 => entry.comments.push("x".repeat(LIMIT - 300 + r.below(600))),
        _ => record.lines.clear(),
    }
    record
}

//! The calls that a seed makes, for `check` and `compare` alike.

use crate::blocks;
use crate::call::Call;
use crate::edits;
use crate::judge::{self, Outcome};
use crate::player;
use crate::record::{decode, encode, u16_at, LIMIT};
use crate::rng::Rng;
use crate::short;
use crate::small;
use crate::steps;
use crate::tables;
use crate::texts;
use crate::tree_blocks;
use std::cell::RefCell;

pub fn short_text(seed: u64) -> Call {
    Call::Fill { text: short::short(seed) }
}

pub fn any_text(seed: u64) -> Call {
    Call::Fill { text: texts::text(&mut Rng::new(seed)) }
}

pub fn numbered_text(seed: u64) -> Call {
    let r = &mut Rng::new(seed);
    Call::Fill { text: if r.one_in(200) { written_to_the_limit(r, 0) } else { texts::numbered(r) } }
}

/// Where reading stops in the text that a call is to read.
fn stop_of(call: Call) -> Call {
    match call {
        Call::Fill { text } => Call::Stop { text },
        other => other,
    }
}

pub fn short_stop(seed: u64) -> Call {
    stop_of(short_text(seed))
}

pub fn any_stop(seed: u64) -> Call {
    Call::Stop { text: stopping_text(&mut Rng::new(seed)) }
}

pub fn numbered_stop(seed: u64) -> Call {
    stop_of(numbered_text(seed))
}

/// As many texts made to stop as of any sort.
fn stopping_text(r: &mut Rng) -> Vec<u8> {
    if r.one_in(2) {
        texts::stopping(r)
    } else {
        texts::text(r)
    }
}

/// A place of a text, its end among them, before which whole characters stand.
pub fn a_spot(seed: u64) -> Call {
    let r = &mut Rng::new(seed);
    let text = stopping_text(r);
    let well_formed = text.utf8_chunks().next().map_or("", |chunk| chunk.valid());
    let places: Vec<_> = well_formed.char_indices().map(|(at, _)| at).chain([well_formed.len()]).collect();
    let at = if r.one_in(8) { well_formed.len() } else { places[r.below(places.len())] } as u64;
    Call::Spot { text, at }
}

/// A text with so long a comment that what a mode writes of it is as long as a text may be, or has up to two bytes fewer
/// or more. With nine moves or more its block stays within the limit.
fn written_to_the_limit(r: &mut Rng, mode: u64) -> Vec<u8> {
    let moves: String = (1..10 + r.below(1_700)).map(|ply| format!("{ply}同歩打(0:0/0:0)\n")).collect();
    let commented = |length| format!("手数\n*{}\n{moves}", "x".repeat(length)).into_bytes();
    let written = judge::write_as(&read(&commented(0)), mode).needed().expect("its moves can be written");
    commented(LIMIT - 2 + r.below(5) - written)
}

/// The block of a text that is read.
fn read(text: &[u8]) -> Vec<u8> {
    let Outcome::Made { result, .. } = judge::fill(text) else { unreachable!() };
    result
}

pub fn altered_block(seed: u64) -> Call {
    Call::Sound { block: blocks::altered(seed) }
}

/// As many spoiled ones as sound ones.
pub fn any_block(seed: u64) -> Call {
    let r = &mut Rng::new(seed);
    Call::Sound { block: if r.one_in(2) { blocks::spoiled(r) } else { blocks::sound_block(r) } }
}

pub fn small_block(seed: u64) -> Call {
    Call::Write { block: small::small(seed) }
}

pub fn to_write(seed: u64) -> Call {
    Call::Write { block: blocks::block(&mut Rng::new(seed)) }
}

/// Each small block, by four seeds in a row, in the three modes and by a number that is none of theirs.
pub const SMALL_MODES: u64 = 4 * small::SMALL;

pub fn small_mode(seed: u64) -> Call {
    Call::WriteAs { block: small::small(seed / 4), mode: mode(seed) }
}

/// A drawn block in the same way; where its text goes to the limit, each mode has a block of its own.
pub fn a_mode(seed: u64) -> Call {
    let (r, mode) = (&mut Rng::new(seed / 4), mode(seed));
    let block = match r.below(200) {
        0 => read(&written_to_the_limit(r, mode)),
        1..=60 => blocks::amended(r),
        61..=120 => blocks::read_from(r, texts::numbered),
        _ => blocks::block(r),
    };
    Call::WriteAs { block, mode }
}

fn mode(seed: u64) -> u64 {
    match seed % 4 {
        3 => OTHER_MODES[seed as usize / 4 % OTHER_MODES.len()],
        mode => mode,
    }
}

/// No modes' numbers; a narrower number would take most of them for one.
pub const OTHER_MODES: [u64; 12] =
    [3, 4, 255, 256, 257, 258, 65_537, 65_538, (1 << 32) + 1, (1 << 32) + 2, 1 << 63, u64::MAX];

pub fn small_edit(seed: u64) -> Call {
    edits::edit(seed)
}

pub fn to_put_in(seed: u64) -> Call {
    let r = &mut Rng::new(seed);
    match r.below(120) {
        0 => at_the_end(r),
        1..=2 => {
            let call = drawn_put_in(r);
            filled_up(r, call)
        }
        _ => drawn_put_in(r),
    }
}

fn drawn_put_in(r: &mut Rng) -> Call {
    let (block, from_text) = to_be_edited(r);
    put_in(r, block, from_text)
}

/// Any slice, more often than elsewhere a block with the most lines or the most bytes; and whether it came of a text.
fn to_be_edited(r: &mut Rng) -> (Vec<u8>, bool) {
    match r.below(60) {
        0 => (blocks::crowded(r), false),
        1 => (blocks::full(r), false),
        _ => blocks::block_and_origin(r),
    }
}

/// One move into the last line of a block with the most lines, or one fewer: it has no room, or just enough.
fn at_the_end(r: &mut Rng) -> Call {
    let block = blocks::crowded(r);
    let shape = decode(&block).expect("a sound block holds a record").shape();
    let line = shape.len() - 1;
    let text = format!("{}投了\n", shape[line].0).into_bytes();
    Call::PutIn { block, line: line as u64, text, from_text: false }
}

/// A put-in into a block with so long a comment that what it makes is as long as a block can be, or has up to two bytes
/// fewer or more. One that is refused stays as it is.
fn filled_up(r: &mut Rng, call: Call) -> Call {
    let Call::PutIn { block, line, text, .. } = &call else { unreachable!() };
    let Outcome::Made { result, .. } = judge::put_in(block, *line, text) else {
        return call;
    };
    let mut record = decode(block).expect("a sound block holds a record");
    let comment = "x".repeat((LIMIT - 2 + r.below(5)).saturating_sub(result.len() + 4));
    record.lines[0].entries[0].comments.push(comment);
    Call::PutIn { block: encode(&record), line: *line, text: text.clone(), from_text: false }
}

pub fn small_pair(seed: u64) -> Call {
    edits::pair(seed)
}

/// Two put-ins into one block, as others draw them.
pub fn a_pair(seed: u64) -> Call {
    let r = &mut Rng::new(seed);
    let (block, _) = to_be_edited(r);
    let [one, other] = [(); 2].map(|()| match put_in(r, block.clone(), false) {
        Call::PutIn { line, text, .. } => (line, text),
        _ => unreachable!(),
    });
    Call::Pair { block, one, other }
}

/// A put-in into a block that the reader answered.
pub fn to_edit(seed: u64) -> Call {
    let r = &mut Rng::new(seed);
    let block = blocks::read_block(r);
    put_in(r, block, true)
}

/// An edit of a block that came of reading a text and of up to three edits.
pub fn to_edit_again(seed: u64) -> Call {
    let r = &mut Rng::new(seed);
    let text = if r.one_in(4) { texts::text } else { texts::numbered };
    let mut block = blocks::read_from(r, text);
    for _ in 0..r.below(4) {
        if let Outcome::Made { result, .. } = edit(r, block.clone()).judged() {
            block = result;
        }
    }
    edit(r, block)
}

/// A put-in, or as often a cut where there is something to cut.
fn edit(r: &mut Rng, block: Vec<u8>) -> Call {
    let variations = u16_at(&block, 8).is_some_and(|lines| lines > 1);
    if variations && r.one_in(2) {
        cut(r, block, true)
    } else {
        put_in(r, block, true)
    }
}

/// Mostly into a line that there is, at a ply that it has.
fn put_in(r: &mut Rng, block: Vec<u8>, from_text: bool) -> Call {
    let shape = decode(&block).map_or(vec![], |record| record.shape());
    let line = some_line(r, 0, shape.len());
    let (start, count) = shape.get(line as usize).copied().unwrap_or((0, 0));
    let first = start.max(1);
    let plies = (start + count as u64).saturating_sub(first) as usize;
    let ply = if r.one_in(10) { r.below(20) as u64 } else { first + r.below(plies.max(1)) as u64 };
    Call::PutIn { block, line, text: texts::variation(r, ply), from_text }
}

pub fn to_cut(seed: u64) -> Call {
    let r = &mut Rng::new(seed);
    let (block, from_text) = to_be_edited(r);
    cut(r, block, from_text)
}

fn cut(r: &mut Rng, block: Vec<u8>, from_text: bool) -> Call {
    let lines = decode(&block).map_or(0, |record| record.lines.len());
    let line = some_line(r, 1, lines);
    Call::Cut { block, line, from_text }
}

/// Mostly a line from the first to the last, if there are any.
fn some_line(r: &mut Rng, first: usize, lines: usize) -> u64 {
    match r.below(20) {
        0 => r.next(),
        1 => lines as u64,
        2 => 0,
        3 => lines.saturating_sub(1) as u64,
        _ => (first + r.below(lines.saturating_sub(first).max(1))) as u64,
    }
}

pub fn a_comment(seed: u64) -> Call {
    let r = &mut Rng::new(seed);
    let block = blocks::block(r);
    let k = looked_up(r, &block, 12);
    Call::Comment { block, k }
}

pub fn a_key(seed: u64) -> Call {
    let r = &mut Rng::new(seed);
    let block = blocks::block(r);
    let k = looked_up(r, &block, 6);
    Call::Key { block, k }
}

pub fn a_value(seed: u64) -> Call {
    let r = &mut Rng::new(seed);
    let block = blocks::block(r);
    let k = looked_up(r, &block, 6);
    Call::Value { block, k }
}

/// Mostly a number below the count at this place of a block's head.
fn looked_up(r: &mut Rng, block: &[u8], count_at: usize) -> u64 {
    let count = u16_at(block, count_at).unwrap_or(0);
    match r.below(12) {
        0 => r.next(),
        1 => count as u64,
        _ => r.below(count.max(1)) as u64,
    }
}

/// A block of either version, sound or not.
fn of_either_version(r: &mut Rng) -> Vec<u8> {
    if r.one_in(3) {
        any_tree(r).0
    } else {
        blocks::block(r)
    }
}

pub fn all_lines(seed: u64) -> Call {
    Call::Lines { block: of_either_version(&mut Rng::new(seed)) }
}

pub fn a_line(seed: u64) -> Call {
    let r = &mut Rng::new(seed);
    let block = of_either_version(r);
    Call::Line { k: looked_up(r, &block, 8), block }
}

pub fn a_parent(seed: u64) -> Call {
    let r = &mut Rng::new(seed);
    let block = of_either_version(r);
    Call::Parent { k: looked_up(r, &block, 8), block }
}

pub fn an_entry(seed: u64) -> Call {
    let r = &mut Rng::new(seed);
    let block = of_either_version(r);
    let (line, entry) = some_entry(r, &block);
    Call::Entry { block, line, entry }
}

/// Of each small block, by four seeds in a row, how many lines there are, its last line, that line's parent and its last entry.
pub const SMALL_ROWS: u64 = 4 * small::SMALL;

pub fn small_row(seed: u64) -> Call {
    let block = small::small(seed / 4);
    let (k, entry) = last_entry(&block);
    match seed % 4 {
        0 => Call::Lines { block },
        1 => Call::Line { block, k },
        2 => Call::Parent { block, k },
        _ => Call::Entry { block, line: k, entry },
    }
}

/// So many entries in a row are asked for of one record of play.
const ASKED: u64 = 16;

thread_local! {
    /// The last record of play and its seed, since sixteen seeds in a row ask for it.
    static PLAYED: RefCell<Option<(u64, Vec<u8>)>> = const { RefCell::new(None) };
}

/// The position after an entry of a record of play.
pub fn a_play(seed: u64) -> Call {
    let block = PLAYED.with_borrow_mut(|played| {
        let of_seed = played.take().filter(|(of, _)| *of == seed / ASKED);
        let of_seed = of_seed.unwrap_or_else(|| (seed / ASKED, player::block(&mut Rng::new(seed / ASKED))));
        played.insert(of_seed).1.clone()
    });
    position(&mut Rng::new(seed), block)
}

/// The position after an entry of any slice.
pub fn any_position(seed: u64) -> Call {
    let r = &mut Rng::new(seed);
    let block = blocks::block(r);
    position(r, block)
}

fn position(r: &mut Rng, block: Vec<u8>) -> Call {
    let (line, entry) = some_entry(r, &block);
    Call::Position { block, line, entry }
}

/// Mostly a line that there is, and an entry that it has; now and then a number that would be one if it were narrower.
fn some_entry(r: &mut Rng, block: &[u8]) -> (u64, u64) {
    let shape = decode(block).map_or(vec![], |record| record.shape());
    let line = some_line(r, 0, shape.len());
    let entries = shape.get(line as usize).map_or(0, |(_, entries)| *entries);
    let entry = match r.below(30) {
        0 => r.next(),
        1 => entries as u64,
        2..=8 => entries.saturating_sub(1) as u64,
        _ => r.below(entries.max(1)) as u64,
    };
    let beyond = 1 << [8, 16, 32, 63][r.below(4)];
    match r.below(50) {
        0 => (line | beyond, entry),
        1 => (line, entry | beyond),
        _ => (line, entry),
    }
}

/// The last entry of a small block's last line.
fn last_entry(block: &[u8]) -> (u64, u64) {
    let shape = decode(block).expect("a small block is sound").shape();
    let last = shape.len() - 1;
    (last as u64, shape[last].1 as u64 - 1)
}

/// The position after that entry.
pub fn small_position(seed: u64) -> Call {
    let block = small::small(seed);
    let (line, entry) = last_entry(&block);
    Call::Position { block, line, entry }
}

/// The position after the one move of a small board.
pub fn a_step(seed: u64) -> Call {
    Call::Position { block: steps::block(seed), line: 0, entry: 1 }
}

pub fn a_table(seed: u64) -> Call {
    Call::Sound { block: tables::block(seed) }
}

pub fn small_tree(seed: u64) -> Call {
    edits::tree(seed)
}

pub fn deep_tree(seed: u64) -> Call {
    tree_blocks::deep(seed)
}

pub fn altered_tree(seed: u64) -> Call {
    Call::Sound { block: tree_blocks::altered(seed) }
}

/// Mostly damaged.
pub fn damaged_tree(seed: u64) -> Call {
    let r = &mut Rng::new(seed);
    Call::Sound { block: if r.one_in(4) { any_tree(r).0 } else { tree_blocks::spoiled(r) } }
}

/// A version 2 block, rarely a damaged one; and whether it came of reading a text.
fn any_tree(r: &mut Rng) -> (Vec<u8>, bool) {
    match r.below(16) {
        0..=1 => (tree_blocks::spoiled(r), false),
        2..=8 => (grown(r), true),
        _ => (tree_blocks::made(r), false),
    }
}

/// A block that was read, restated and edited up to five times.
fn grown(r: &mut Rng) -> Vec<u8> {
    let text = if r.one_in(4) { texts::text } else { texts::numbered };
    let mut block = blocks::read_from(r, text);
    block[2] = 2;
    for _ in 0..r.below(6) {
        if let Outcome::Made { result, .. } = tree_edit(r, block.clone(), true).judged() {
            block = result;
        }
    }
    block
}

/// A put-in, mostly on an entry that carries a variation, or a cut.
fn tree_edit(r: &mut Rng, block: Vec<u8>, from_text: bool) -> Call {
    match r.below(5) {
        0 => cut(r, block, from_text),
        1 => put_in(r, block, from_text),
        _ => put_in_beside(r, block, from_text),
    }
}

/// A put-in on the entry that a variation hangs on, if there is one.
fn put_in_beside(r: &mut Rng, block: Vec<u8>, from_text: bool) -> Call {
    let rows = decode(&block).map_or(vec![], |record| record.rows());
    if rows.len() < 2 {
        return put_in(r, block, from_text);
    }
    let beside = rows[1 + r.below(rows.len() - 1)];
    Call::PutIn { block, line: beside.parent as u64, text: texts::variation(r, beside.start), from_text }
}

/// By four seeds in a row, in the three modes and by a number that is none of theirs.
pub fn tree_mode(seed: u64) -> Call {
    Call::WriteAs { block: any_tree(&mut Rng::new(seed / 4)).0, mode: mode(seed) }
}

pub fn to_put_in_tree(seed: u64) -> Call {
    let r = &mut Rng::new(seed);
    let (block, from_text) = any_tree(r);
    let call = if r.one_in(3) { put_in(r, block, from_text) } else { put_in_beside(r, block, from_text) };
    if r.one_in(40) {
        return filled_up(r, call);
    }
    call
}

pub fn to_cut_tree(seed: u64) -> Call {
    let r = &mut Rng::new(seed);
    let (block, from_text) = any_tree(r);
    cut(r, block, from_text)
}

/// Mostly of version 1, sound or not.
pub fn to_restate(seed: u64) -> Call {
    let r = &mut Rng::new(seed);
    let (block, from_text) = if r.one_in(4) { any_tree(r) } else { to_be_edited(r) };
    Call::Restate { block, from_text }
}

pub fn tree_look_up(seed: u64) -> Call {
    let r = &mut Rng::new(seed);
    let (block, _) = any_tree(r);
    match r.below(3) {
        0 => Call::Comment { k: looked_up(r, &block, 12), block },
        1 => Call::Key { k: looked_up(r, &block, 6), block },
        _ => Call::Value { k: looked_up(r, &block, 6), block },
    }
}

pub fn tree_position(seed: u64) -> Call {
    let r = &mut Rng::new(seed);
    let block = if r.one_in(3) { any_tree(r).0 } else { tree_blocks::played(r) };
    position(r, block)
}

//! Blocks: whether a slice is a sound one, and look-ups in it.

use super::{numbers, Sample};
use crate::blocks;
use crate::judge;
use crate::record::{decode, encode, u16_at};
use crate::rng::Rng;
use crate::sound::sound;
use std::iter;

/// The most bytes of a recorded block, and of a part looked up.
const BLOCK: usize = 4_000;
const PART: usize = 1_000;

pub(super) fn soundness(sample: &mut Sample) {
    let block = varied_block(&mut sample.r);
    let mut slices: Vec<_> = (0..block.len()).map(|at| raised(&block, at)).collect();
    slices.extend([vec![], block]);
    slices.extend((0..40).map(|_| blocks::altered(sample.r.next())));
    while slices.len() < 400 {
        let spoiled = slices.len() % 2 == 0;
        slices.push(if spoiled { blocks::spoiled(&mut sample.r) } else { blocks::sound_block(&mut sample.r) });
        slices.retain(|slice| slice.len() <= BLOCK);
    }
    for slice in slices {
        sample.add(&slice, &numbers(&[u64::from(sound(&slice))]));
    }
}

/// A short sound block that has something in every table.
fn varied_block(r: &mut Rng) -> Vec<u8> {
    let is_varied = |block: &Vec<u8>| count_of(block, 0) > 1 && count_of(block, 1) > 1 && count_of(block, 3) > 2;
    iter::repeat_with(|| blocks::sound_block(r)).find(|block| block.len() <= 320 && is_varied(block)).unwrap()
}

/// The same with one byte higher by one.
fn raised(block: &[u8], at: usize) -> Vec<u8> {
    let mut raised = block.to_vec();
    raised[at] = raised[at].wrapping_add(1);
    raised
}

pub(super) fn look_ups(sample: &mut Sample) {
    let short = |r: &mut Rng| iter::repeat_with(|| blocks::block(r)).find(|block| block.len() <= BLOCK).unwrap();
    let mut blocks: Vec<_> = (0..10).map(|_| short(&mut sample.r)).collect();
    blocks.extend((0..5).map(|_| varied_block(&mut sample.r)));
    blocks.push(with_long_comment(&varied_block(&mut sample.r)));
    // The head's last byte: the block is not sound, and every part can be found none the less.
    blocks.push(raised(&varied_block(&mut sample.r), 27));
    for block in blocks {
        (0..6).for_each(|which| look_round(sample, which, &block));
    }
}

/// The same record, its first comment longer than one byte can tell.
fn with_long_comment(block: &[u8]) -> Vec<u8> {
    let mut record = decode(block).expect("a sound block holds a record");
    record.lines[0].entries[0].comments.insert(0, "歩".repeat(PART / 3));
    encode(&record)
}

/// One look-up of the first part, the last, one between, the one past the end and one far off.
fn look_round(sample: &mut Sample, which: u64, block: &[u8]) {
    let count = count_of(block, which);
    let between = sample.r.below(count.max(1) as usize) as u64;
    let mut asked = vec![0, between, count.saturating_sub(1), count, u64::MAX];
    asked.dedup();
    asked.iter().for_each(|&k| look_up(sample, which, k, block));
}

/// How many comments, header entries or lines the head of a block tells.
fn count_of(block: &[u8], which: u64) -> u64 {
    let place = match which {
        0 => 12,
        1 | 2 => 6,
        _ => 8,
    };
    u16_at(block, place).unwrap_or(0) as u64
}

fn look_up(sample: &mut Sample, which: u64, k: u64, block: &[u8]) {
    let (figures, part) = looked_up(which, k, block);
    if part.len() <= PART {
        sample.add(&[numbers(&[which, k]), block.into()].concat(), &[numbers(&figures), part.into()].concat());
    }
}

/// The number, the two figures and the part: a comment, a key, a value, the lines, a line or its parent.
fn looked_up(which: u64, k: u64, block: &[u8]) -> ([u64; 3], &[u8]) {
    let (answer, part) = match which {
        0 => judge::comment(block, k),
        1 => judge::key(block, k),
        2 => judge::value(block, k),
        3 => (judge::lines(block), &[][..]),
        4 => (judge::line(block, k), &[][..]),
        _ => (judge::parent(block, k), &[][..]),
    };
    ([answer.number, answer.first, answer.second], part)
}

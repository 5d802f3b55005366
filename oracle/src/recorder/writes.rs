//! Blocks, written in a mode into a lent buffer.

use super::{numbers, Sample};
use crate::blocks;
use crate::judge::{self, Outcome};
use crate::modes;
use crate::small;

/// The most bytes of a drawn block and of its text, so that the sample stays small.
const BLOCK: usize = 300;
const TEXT: usize = 800;
/// So many of each group of small blocks.
const OF_EACH: u64 = 100;

/// Texts whose blocks are written into buffers of every length, the last two not at all.
const KNOWN: [&str; 12] = [
    "",
    "手合割：平手\n手数--\n   1 ７六歩(77) ( 0:16/00:00:16)\n   2 ３四歩(33)\n*second\n   3 中断\n\n変化：2手\n   2 ８四歩(83)\n",
    "手数\n1 ７六歩打\n",
    "手数\n1 ７六成香成(77)\n",
    "手数\n1同　銀不成(77)(1:2:3/4:5)\n",
    "手数\n1 ７六成香不成(77)(0:1/0:2)\n",
    "手数\n&b\n*&b\n*\n1同歩打\n",
    "手数\n1投了\nx\n1中断(0:1/0:2)\n2千日手\nx\n2詰み(0:1/2:3:4)\n",
    "手数\n1投了\nx\n1中断\nx\n0詰み\nx\n0投了\n",
    "b：1\n上手：2\n開始日時：3\na：：\n先手番：x\n手合割：香落ち\n",
    "手数\n1 ７六成香成(77)(0:1/0:2)\n",
    "手数\n1 ７六歩(77)\nx\n1 ７六成銀成打(0:1/0:2)\nx\n0 ７六成桂成打(0:1/0:2)\n",
];

/// Those texts in each mode and by a number that is no mode's; the move lines of which every mode's text is known; the first and
/// the last place of both hands, with a count that can be written and one that cannot; small blocks; and drawn ones.
pub(super) fn writes(sample: &mut Sample) {
    for text in KNOWN {
        let block = block_of(text);
        for mode in [0, 1, 2, u64::MAX] {
            sample.add_lent_all(&given(&block, mode), &judge::write_as(&block, mode));
        }
    }
    for (line, _) in modes::ROWS {
        let block = block_of(&format!("手数\n1 {line}\n"));
        for mode in 0..3 {
            sample.add_lent_once(&given(&block, mode), &judge::write_as(&block, mode));
        }
    }
    let at_the_limit = [0, 6, 7, 13].into_iter().flat_map(|place| [99, 100].map(|count| small::hand(place, count)));
    for block in at_the_limit.chain(small::some(OF_EACH)) {
        let mode = sample.r.below(3) as u64;
        sample.add_lent_once(&given(&block, mode), &judge::write_as(&block, mode));
    }
    for _ in 0..600 {
        let (block, mode, outcome) = drawn(sample);
        sample.add_lent_once(&given(&block, mode), &outcome);
    }
}

fn block_of(text: &str) -> Vec<u8> {
    let Outcome::Made { result, .. } = judge::fill(text.as_bytes()) else { panic!("a known text is refused") };
    result
}

/// What a request says behind the buffer's length.
fn given(block: &[u8], mode: u64) -> Vec<u8> {
    [&numbers(&[mode])[..], block].concat()
}

/// A block as `blocks` makes them, sound or not, that is not too long, nor its text; and a mode.
fn drawn(sample: &mut Sample) -> (Vec<u8>, u64, Outcome) {
    loop {
        let block = blocks::block(&mut sample.r);
        let mode = sample.r.below(3) as u64;
        let outcome = judge::write_as(&block, mode);
        if block.len() <= BLOCK && outcome.needed().unwrap_or(0) <= TEXT {
            return (block, mode, outcome);
        }
    }
}

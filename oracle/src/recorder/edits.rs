//! Variations put into a block and lines cut out of one, the block that comes of it in a lent buffer.

use super::{numbers, Sample};
use crate::call::Call;
use crate::cases;
use crate::edits;
use crate::judge::{self, Outcome};

/// The most bytes of a block before and after, so that the sample stays small.
const BLOCK: usize = 400;

/// 01's board of cases: eight plies, then variations that start at 5 and at 3; a comment and a time to be copied.
const GAME: &str = "\
a：b
手数
*c
1投了
2投了
3投了(0:1/0:2)
4投了
*d
5投了
6投了
7投了
8投了
x
5投了
6投了
*e
7投了
x
3投了
*f
";
/// The same plies, then variations that start at 3, with four moves, at 5, 4, 2 and 0.
const NEST: &str = "\
手数
1投了
2投了
3投了
4投了
5投了
6投了
7投了
8投了
x
3投了
4投了
5投了
6投了
x
5投了
x
4投了
x
2投了
x
0投了
";

/// Lines, and texts that are put into them, in buffers of every length.
const KNOWN: [(u64, &str); 26] = [
    (0, "4同歩打\n"),
    (0, "5同歩打\n"),
    (1, "8同歩打\n"),
    (1, "5同歩打\n6同銀成(77)(1:2:3/4:5)\n*g\n*\n"),
    (1, "6投了\n*&x\n&y\n7中断\n"),
    (1, "6投了\n*&x\n&y\n9中断\n"),
    (0, "4投了\n5投了\n6投了\n"),
    (0, "4投了\n6投了\n7投了\n"),
    (0, "4投了\n5投了\n7投了\n"),
    (0, "4投了\n5投了\n5投了\n"),
    (0, "4投了\n3投了\n"),
    (2, "3詰み\n"),
    (2, "4詰み\n"),
    (0, "\t1投了\r\n"),
    (0, "8投了\n1投了\n"),
    (0, "9投了\n"),
    (0, "0投了\n"),
    (0, "18446744073709551615投了\n"),
    (0, "18446744073709551615投了\n0投了\n"),
    (0, "18446744073709551616投了\n"),
    (3, "1投了\n"),
    (u64::MAX, ""),
    (0, ""),
    (0, "1投了\nx\n"),
    (0, "*c\n1投了\n"),
    (0, "1投了"),
];

fn block_of(text: &str) -> Vec<u8> {
    match judge::fill(text.as_bytes()) {
        Outcome::Made { result, .. } => result,
        _ => panic!("a known text is refused"),
    }
}

/// Those texts; small edits; drawn ones; and a text whose block is over the limit.
pub(super) fn put_ins(sample: &mut Sample) {
    let block = block_of(GAME);
    for (line, text) in KNOWN {
        sample.add_lent_all(&asked(&block, line, text.as_bytes()), &judge::put_in(&block, line, text.as_bytes()));
    }
    add_small(sample, 140, 40, |call| matches!(call, Call::PutIn { .. }));
    for _ in 0..150 {
        let call = drawn(sample, cases::to_put_in);
        add_once(sample, &call);
    }
    let text: Vec<u8> = (1..=3_260).flat_map(|ply| format!("{ply}投了\n").into_bytes()).collect();
    sample.add_lent(9, &asked(&block, 0, &text), &judge::put_in(&block, 0, &text));
}

/// Every line of both games, the one past the last and one far off; small edits; and drawn ones.
pub(super) fn cuts(sample: &mut Sample) {
    for (block, lines) in [(block_of(GAME), 3), (block_of(NEST), 6)] {
        for line in (0..=lines).chain([u64::MAX]) {
            sample.add_lent_all(&asked(&block, line, &[]), &judge::cut(&block, line));
        }
    }
    add_small(sample, 50, 20, |call| matches!(call, Call::Cut { .. }));
    for _ in 0..80 {
        let call = drawn(sample, cases::to_cut);
        add_once(sample, &call);
    }
}

/// The line, how long the block is, the block, and the text if there is one.
fn asked(block: &[u8], line: u64, text: &[u8]) -> Vec<u8> {
    [&numbers(&[line, block.len() as u64])[..], block, text].concat()
}

/// So many small edits that make a block, and so many that are refused, of those asked for.
fn add_small(sample: &mut Sample, made: usize, refused: usize, is_asked_for: fn(&Call) -> bool) {
    for (count, makes) in [(made, true), (refused, false)] {
        let is_such = |call: &Call| is_asked_for(call) && is_short(call) && call.judged().needed().is_some() == makes;
        (0..).map(edits::edit).filter(is_such).take(count).for_each(|call| add_once(sample, &call));
    }
}

fn add_once(sample: &mut Sample, call: &Call) {
    let given = match call {
        Call::PutIn { block, line, text, .. } => asked(block, *line, text),
        Call::Cut { block, line, .. } => asked(block, *line, &[]),
        _ => unreachable!("no edit"),
    };
    sample.add_lent_once(&given, &call.judged());
}

/// An edit as `cases` makes them, of a slice that is not too long.
fn drawn(sample: &mut Sample, make: fn(u64) -> Call) -> Call {
    loop {
        let call = make(sample.r.next());
        if is_short(&call) {
            return call;
        }
    }
}

fn is_short(call: &Call) -> bool {
    let given = match call {
        Call::PutIn { block, text, .. } => block.len().max(text.len()),
        Call::Cut { block, .. } => block.len(),
        _ => unreachable!("no edit"),
    };
    given <= BLOCK && call.judged().needed().unwrap_or(0) <= BLOCK
}

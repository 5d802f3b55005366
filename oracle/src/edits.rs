//! All small edits: every block with a main line of up to four moves and up to four variations, none of which goes past
//! ply 4; and in each every put-in of one move and every cut, those that are refused among them. And every pair of put-ins of
//! one move into blocks of up to three lines, none of which goes past ply 3. And the same edits of every version 2 block of up
//! to five lines, none of which goes past ply 3, with its writing and restating.

use crate::call::Call;
use crate::record::{encode, Entry, Line, Move, Position, Record, What};
use crate::trees::{hang, Row};
use std::sync::LazyLock;

/// The last ply that a line may have, and the most lines.
const LAST: u64 = 4;
const LINES: usize = 5;
/// Both for pairs of put-ins.
const PAIR_LAST: u64 = 3;
const PAIR_LINES: usize = 3;
/// Both for version 2.
const TREE_LAST: u64 = 3;
const TREE_LINES: usize = 5;
/// Writing, the same in three modes, and restating, as it is and as version 1, come before the edits of a version 2 block.
const UNEDITED: u64 = 6;

/// How many edits there are in all.
pub const EDITS: u64 = 4_597_355;
/// How many pairs of put-ins.
pub const PAIRS: u64 = 105_550;
/// How many calls for the 72,076 version 2 blocks.
pub const TREES: u64 = 2_994_696;

/// Steps of this prime go through all edits, and in a shorter run through some of blocks of every size.
const STEP: u64 = 1_000_003;
const _: () = assert!(EDITS % STEP != 0 && PAIRS % STEP != 0 && TREES % STEP != 0);

/// Every shape, with the number of calls of those before it.
type Shapes = Vec<(u64, Vec<Row>)>;

static SHAPES: LazyLock<Shapes> = LazyLock::new(|| shapes(1, LAST, LINES, EDITS, |shape| edits_asked(shape, LAST)));
static PAIR_SHAPES: LazyLock<Shapes> =
    LazyLock::new(|| shapes(1, PAIR_LAST, PAIR_LINES, PAIRS, |shape| put_ins_asked(shape).pow(2)));
static TREE_SHAPES: LazyLock<Shapes> =
    LazyLock::new(|| shapes(2, TREE_LAST, TREE_LINES, TREES, |shape| UNEDITED + edits_asked(shape, TREE_LAST)));

/// Every shape of a version, of at most so many lines, none of which goes past a ply; each has its calls, and these are all.
fn shapes(version: usize, last: u64, lines: usize, all: u64, calls: fn(&[Row]) -> u64) -> Shapes {
    let (mut shapes, mut before) = (vec![], 0);
    for moves in 0..=last as usize {
        let main = Row { start: 0, count: 1 + moves, parent: 0 };
        grow(vec![main], version, last, lines, &mut |shape| {
            shapes.push((before, shape.to_vec()));
            before += calls(shape);
        });
    }
    assert_eq!(before, all);
    shapes
}

/// A put-in at each ply from 0 to one past the last, or a cut: so many edits a line has.
fn of_a_line(last: u64) -> u64 {
    last + 3
}

fn edits_asked(shape: &[Row], last: u64) -> u64 {
    lines_asked(shape) * of_a_line(last)
}

/// A put-in into each line and the one that there is not, at each ply from 0 to one past the last.
fn put_ins_asked(shape: &[Row]) -> u64 {
    lines_asked(shape) * (PAIR_LAST + 2)
}

/// Each line, and the one that there is not.
fn lines_asked(shape: &[Row]) -> u64 {
    shape.len() as u64 + 1
}

/// Tells of this shape and of all that come of it by more variations, those that hang as the version says.
fn grow(shape: Vec<Row>, version: usize, last: u64, lines: usize, tell: &mut impl FnMut(&[Row])) {
    tell(&shape);
    if shape.len() == lines {
        return;
    }
    let places = (0..=last).flat_map(|start| (0..shape.len()).map(move |parent| (start, parent)));
    for (start, parent) in places {
        let with = |count| [&shape[..], &[Row { start, count, parent }]].concat();
        if hang(version, &with(1)) {
            let counts = 1..=(last - start + 1) as usize;
            counts.for_each(|count| grow(with(count), version, last, lines, tell));
        }
    }
}

/// The shape of the n-th of all calls, and which of its calls that is: so many seeds in a row as there are calls give each of them once.
fn nth(shapes: &Shapes, all: u64, n: u64) -> (&[Row], u64) {
    let place = n % all * STEP % all;
    let (before, shape) = &shapes[shapes.partition_point(|&(before, _)| before <= place) - 1];
    (shape, place - before)
}

/// The n-th of all edits.
pub fn edit(n: u64) -> Call {
    let (shape, at) = nth(&SHAPES, EDITS, n);
    edit_of(encode(&shaped(1, shape, special)), at, LAST)
}

fn edit_of(block: Vec<u8>, at: u64, last: u64) -> Call {
    let (line, ply) = (at / of_a_line(last), at % of_a_line(last));
    if ply == of_a_line(last) - 1 {
        return Call::Cut { block, line, from_text: false };
    }
    Call::PutIn { block, line, text: format!("{ply}同歩打\n*new\n").into_bytes(), from_text: false }
}

/// The n-th of all pairs.
pub fn pair(n: u64) -> Call {
    let (shape, at) = nth(&PAIR_SHAPES, PAIRS, n);
    let (one, other) = (at / put_ins_asked(shape), at % put_ins_asked(shape));
    let asked = |k: u64, word: &str| {
        let (line, ply) = (k / (PAIR_LAST + 2), k % (PAIR_LAST + 2));
        (line, format!("{ply}同歩打\n*{word}\n").into_bytes())
    };
    Call::Pair { block: encode(&shaped(1, shape, special)), one: asked(one, "one"), other: asked(other, "other") }
}

/// The n-th of all calls for version 2 blocks. What they hold is as a reader gives it.
pub fn tree(n: u64) -> Call {
    let (shape, at) = nth(&TREE_SHAPES, TREES, n);
    let block = encode(&shaped(2, shape, moved));
    match at {
        0..=2 => Call::WriteAs { block, mode: at },
        3 => Call::Restate { block, from_text: true },
        4 => Call::Restate { block: encode(&shaped(1, shape, moved)), from_text: true },
        5 => Call::Write { block },
        _ => edit_of(block, at - UNEDITED, TREE_LAST),
    }
}

/// A record of this shape in which no two entries are alike; what stands in each is told by its number in the block and its ply.
fn shaped(version: usize, shape: &[Row], what: fn(usize, u64) -> What) -> Record {
    let mut numbers = 0..;
    let mut entry = |ply| {
        let k: usize = numbers.next().expect("there is always one more");
        let comments = (0..k % 3).map(|n| format!("{k} {n}")).collect();
        Entry { what: if k == 0 { What::Slot } else { what(k, ply) }, time: None, comments }
    };
    let line = |row: &Row| {
        let entries = (row.start..row.start + row.count as u64).map(&mut entry).collect();
        Line { start: row.start, parent: row.parent, entries }
    };
    let lines = shape.iter().map(line).collect();
    Record { version, header: vec![], position: Position { preset: 0, diagram: None }, lines }
}

fn special(k: usize, _: u64) -> What {
    What::Special((k % 14) as u8)
}

/// Its colour follows the ply, and each has an origin of its own.
fn moved(k: usize, ply: u64) -> What {
    let colour = u8::from(ply % 2 == 0);
    What::Move(Move { colour, piece: 1, promote: 0, to: None, from: Some((k as u8 / 10, k as u8 % 10)) })
}

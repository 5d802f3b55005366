//! All small tables of lines, most of which are not sound: up to five lines, of which line 0 has up to four entries and the
//! others one or two, each at a ply from 0 to 3 and under any line up to itself; in both versions.   (02, vi)

use crate::record::{encode, Entry, Line, Position, Record, What};
use crate::small::{member, total, Digits, Group};

/// How many there are of a line: by ply, entries and parent.
const fn of_line(k: u64) -> u64 {
    4 * 2 * (k + 1)
}

const GROUPS: [Group<Record>; 5] = [
    (2 * 4, table::<1>),
    (2 * 4 * of_line(1), table::<2>),
    (2 * 4 * of_line(1) * of_line(2), table::<3>),
    (2 * 4 * of_line(1) * of_line(2) * of_line(3), table::<4>),
    (2 * 4 * of_line(1) * of_line(2) * of_line(3) * of_line(4), table::<5>),
];

/// How many there are in all.
pub const TABLES: u64 = total(&GROUPS);

/// The block of the n-th.
pub fn block(n: u64) -> Vec<u8> {
    encode(&member(&GROUPS, n))
}

/// Every table of up to four lines.
pub fn some() -> impl Iterator<Item = Record> {
    GROUPS[..4].iter().flat_map(|&(count, make)| (0..count).map(move |n| make(&mut Digits(n))))
}

fn table<const LINES: usize>(n: &mut Digits) -> Record {
    let version = 1 + n.below(2);
    let mut lines = vec![line(0, 1 + n.below(4), 0)];
    lines.extend((1..LINES).map(|k| line(n.below(4), 1 + n.below(2), n.below(k + 1))));
    lines[0].entries[0].what = What::Slot;
    Record { version, header: vec![], position: Position { preset: 0, diagram: None }, lines }
}

fn line(start: usize, count: usize, parent: usize) -> Line {
    let resigned = Entry { what: What::Special(0), time: None, comments: vec![] };
    Line { start: start as u64, parent, entries: vec![resigned; count] }
}

//! All small blocks: whatever writing tells apart shows in one move, one hand, one cell, a few keys or a few lines.

use crate::attach;
use crate::blocks::{LEADING, TEXTS};
use crate::record::{encode, Clock, Diagram, Entry, Line, Move, Position, Record, Time, What};

/// How many there are of a group, and its n-th.
pub type Group<T> = (u64, fn(&mut Digits) -> T);

/// None is 同. The last seven cannot be written.
const TARGETS: [Option<(u8, u8)>; 17] = [
    None,
    Some((1, 1)),
    Some((2, 2)),
    Some((3, 3)),
    Some((4, 4)),
    Some((5, 5)),
    Some((6, 6)),
    Some((7, 7)),
    Some((8, 8)),
    Some((9, 9)),
    Some((0, 0)),
    Some((0, 5)),
    Some((10, 5)),
    Some((255, 5)),
    Some((5, 0)),
    Some((5, 10)),
    Some((5, 255)),
];
const ORIGINS: [Option<(u8, u8)>; 6] =
    [None, Some((0, 0)), Some((7, 7)), Some((1, 10)), Some((99, 100)), Some((255, 255))];
const CLOCKS: [(u8, u8, u8); 4] = [(0, 0, 0), (9, 10, 5), (100, 99, 7), (255, 255, 255)];
/// No time, or both clocks alike, each with or without its hour.
const TIMES: usize = 1 + 4 * CLOCKS.len();
/// Beside those that lead, keys that only begin so, and those that sort among them.
const KEYS: [&str; 16] = [
    "", "a", "先", "先手番", "先手\0", "表題\0\0", "持ち時", "開始日時：", "：", "\n", "\r", "#", "&", "手合割",
    "後手 ", "🀄",
];

const GROUPS: [Group<Record>; 10] = [
    (14 * 3 * TARGETS.len() as u64 * ORIGINS.len() as u64 * TIMES as u64, moves),
    (256 * 256, targets),
    (256 * 256, origins),
    (14 * TIMES as u64, specials),
    (17, presets),
    (14 * 256 * 2, hands),
    (81 * 29 * 2, cells),
    ((LEADING.len() as u64 + KEYS.len() as u64 + 1).pow(3), headers),
    ((TEXTS.len() as u64 + 1).pow(3), comments),
    (11 * 11 * 11 * 11, trees),
];

/// How many blocks there are in all.
pub const SMALL: u64 = total(&GROUPS);

/// Steps of this prime go through all groups, and in a shorter run through some of every large one.
const STEP: u64 = 1_000_003;

/// How many there are in some groups. STEP must not divide it.
pub const fn total<T>(groups: &[Group<T>]) -> u64 {
    let (mut sum, mut at) = (0, 0);
    while at < groups.len() {
        sum += groups[at].0;
        at += 1;
    }
    assert!(sum % STEP != 0);
    sum
}

/// The n-th of some groups: so many seeds in a row as there are in them give each once.
pub fn member<T>(groups: &[Group<T>], n: u64) -> T {
    let all = total(groups);
    let mut left = n % all * STEP % all;
    for (count, make) in groups {
        if left < *count {
            return make(&mut Digits(left));
        }
        left -= count;
    }
    unreachable!("there are no more")
}

/// The n-th of all blocks.
pub fn small(n: u64) -> Vec<u8> {
    encode(&member(&GROUPS, n))
}

/// So many blocks of each group, or all that it has.
pub fn some(most: u64) -> impl Iterator<Item = Vec<u8>> {
    GROUPS
        .into_iter()
        .flat_map(move |(count, make)| (0..count.min(most)).map(move |k| encode(&make(&mut Digits(k * STEP % count)))))
}

/// The block with this count alone at this place of the hands.
pub fn hand(place: u64, count: u8) -> Vec<u8> {
    encode(&hands(&mut Digits(256 * place + u64::from(count))))
}

/// A number taken apart from its lowest digit on, each to its own base.
pub struct Digits(pub u64);

impl Digits {
    pub fn below(&mut self, end: usize) -> usize {
        let digit = self.0 % end as u64;
        self.0 /= end as u64;
        digit as usize
    }

    pub fn byte(&mut self) -> u8 {
        self.below(256) as u8
    }

    fn time(&mut self) -> Option<Time> {
        let n = self.below(TIMES).checked_sub(1)?;
        let (h, m, s) = CLOCKS[n / 4];
        let clock = |hour: bool| Clock { h: hour.then_some(h), m, s };
        Some(Time { now: clock(n % 2 == 1), total: clock(n / 2 % 2 == 1) })
    }

    /// One of these, or none.
    fn any_of(&mut self, texts: &[&str]) -> Option<String> {
        let n = self.below(texts.len() + 1).checked_sub(1)?;
        Some(texts[n].into())
    }
}

fn entry(what: What, time: Option<Time>) -> Entry {
    Entry { what, time, comments: vec![] }
}

fn resigned() -> Entry {
    entry(What::Special(0), None)
}

/// A main line of these entries behind its slot.
fn played(mut entries: Vec<Entry>) -> Record {
    entries.insert(0, entry(What::Slot, None));
    let main = Line { start: 0, parent: 0, entries };
    Record { version: 1, header: vec![], position: Position { preset: 0, diagram: None }, lines: vec![main] }
}

fn moves(n: &mut Digits) -> Record {
    let m = Move {
        piece: 1 + n.below(14) as u8,
        promote: n.below(3) as u8,
        to: TARGETS[n.below(TARGETS.len())],
        from: ORIGINS[n.below(ORIGINS.len())],
        colour: (n.0 % 2) as u8,
    };
    played(vec![entry(What::Move(m), n.time())])
}

/// Every pair of bytes as a place.
fn targets(n: &mut Digits) -> Record {
    let to = Some((n.byte(), n.byte()));
    played(vec![resigned(), entry(What::Move(Move { colour: 0, piece: 1, promote: 0, to, from: Some((7, 7)) }), None)])
}

/// And as an origin.
fn origins(n: &mut Digits) -> Record {
    let from = Some((n.byte(), n.byte()));
    let time = Digits(1).time();
    played(vec![entry(What::Move(Move { colour: 0, piece: 1, promote: 2, to: None, from }), time)])
}

fn specials(n: &mut Digits) -> Record {
    let number = n.below(14) as u8;
    played(vec![entry(What::Special(number), n.time())])
}

fn presets(n: &mut Digits) -> Record {
    Record { position: Position { preset: n.below(17) as u8, diagram: None }, ..played(vec![]) }
}

fn shown(diagram: Diagram) -> Record {
    Record { position: Position { preset: 16, diagram: Some(diagram) }, ..played(vec![resigned()]) }
}

/// Every count at every place, alone or with others.
fn hands(n: &mut Digits) -> Record {
    let (count, place, others) = (n.byte(), n.below(14), n.below(2) as u8);
    let mut hands = [others * 2; 14];
    hands[place] = count;
    shown(Diagram { turn: 0, cells: [0; 81], hands })
}

/// Every piece on every square.
fn cells(n: &mut Digits) -> Record {
    let (piece, square, turn) = (n.below(29) as u8, n.below(81), n.below(2) as u8);
    let mut cells = [0; 81];
    cells[square] = if piece < 15 { piece } else { piece + 2 };
    shown(Diagram { turn, cells, hands: [0; 14] })
}

/// Up to three keys.
fn headers(n: &mut Digits) -> Record {
    let keys = [&LEADING[..], &KEYS].concat();
    let mut header: Vec<_> = (0..3).filter_map(|k| Some((n.any_of(&keys)?, k.to_string()))).collect();
    header.sort();
    header.dedup_by(|later, earlier| later.0 == earlier.0);
    Record { header, ..played(vec![]) }
}

/// One in the slot and two behind the move, or fewer.
fn comments(n: &mut Digits) -> Record {
    let mut record = played(vec![resigned()]);
    let entries = &mut record.lines[0].entries;
    entries[0].comments.extend(n.any_of(&TEXTS));
    entries[1].comments.extend([n.any_of(&TEXTS), n.any_of(&TEXTS)].into_iter().flatten());
    record
}

/// A main line of three plies and up to four variations, start 0 among them, those that hang on an entry.
fn trees(n: &mut Digits) -> Record {
    let ending = |number: usize| entry(What::Special(number as u8), None);
    let mut record = played((0..3).map(ending).collect());
    for k in 0..4 {
        let Some(drawn) = n.below(11).checked_sub(1) else { continue };
        let (start, count) = ((drawn / 2) as u64, 1 + drawn % 2);
        let shape = record.shape();
        let parent = attach::parent(&shape, start);
        if start - shape[parent].0 < shape[parent].1 as u64 {
            let entries = (0..count).map(|at| ending(3 + 2 * k + at)).collect();
            record.lines.push(Line { start, parent, entries });
        }
    }
    record
}

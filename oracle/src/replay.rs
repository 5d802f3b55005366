//! What must hold of every position, by a second set of words: it follows by one step from the one before it on the path.   (02, i)

use crate::judge::{self, Answer, Outcome};
use crate::record::{decode, Line, Move, Record, What};
use crate::sfen;

/// The bytes of a position, as a block has them.
type Bytes = [u8; 100];

const EVEN: &str = "lnsgkgsnl/1r5b1/ppppppppp/9/9/9/PPPPPPPPP/1B5R1/LNSGKGSNL b -";
/// Where the cells and the hands begin.
const CELLS: usize = 4;
const HANDS: usize = 85;
/// Each kind without promotion, from 1.
const PLAIN: [u8; 14] = [1, 2, 3, 4, 5, 6, 7, 8, 1, 2, 3, 4, 6, 7];
const PAWN_TO_ROOK: [u8; 6] = [1, 2, 3, 4, 6, 7];

/// Holds what the judge says of an entry of a sound block to what it says of the entry before it on the path.
pub fn confirm(block: &[u8], line: u64, entry: u64, outcome: &Outcome) {
    let record = decode(block).expect("a sound block holds a record");
    let Some(expected) = refusal(&record, line, entry) else {
        return step(block, &record, line as usize, entry as usize, outcome);
    };
    assert_eq!(*outcome, Outcome::Answered(expected));
}

/// 10, 15 and 16, in this order.
fn refusal(record: &Record, line: u64, entry: u64) -> Option<Answer> {
    let preset = record.position.preset;
    match record.lines.iter().zip(0..).find(|(_, number)| *number == line) {
        None => Some(judge::answer(10, line, 0)),
        Some(_) if preset > 0 && record.position.diagram.is_none() => Some(judge::answer(15, preset.into(), 0)),
        Some((found, _)) if !(0..found.entries.len() as u64).contains(&entry) => Some(judge::answer(16, line, entry)),
        Some(_) => None,
    }
}

fn step(block: &[u8], record: &Record, line: usize, entry: usize, outcome: &Outcome) {
    let before = match before(&record.lines, line, entry) {
        None => start(block),
        Some((line, entry)) => match judge::position(block, line as u64, entry as u64) {
            Outcome::Made { result, .. } => result.try_into().expect("a hundred bytes"),
            // Past the point where play stopped the answer stays.
            stopped => return assert_eq!(*outcome, stopped),
        },
    };
    let What::Move(m) = &record.lines[line].entries[entry].what else {
        return assert_eq!(made(outcome), before, "what is no move changes the position");
    };
    match destination(&record.lines, line, entry).filter(|to| !stops(&before, m, *to)) {
        None => assert_eq!(*outcome, Outcome::Answered(judge::answer(17, line as u64, entry as u64))),
        Some(to) => follows(&before, &made(outcome), m, to),
    }
    if let Outcome::Made { result, .. } = outcome {
        assert_eq!(census(result), census(&start(block)), "the pieces of the starting diagram change in number");
    }
}

/// The position that a success makes, whose figures are its length and its turn.
fn made(outcome: &Outcome) -> Bytes {
    let Outcome::Made { result, answer } = outcome else { panic!("play stops at {outcome:?}") };
    assert_eq!(*answer, judge::answer(0, 100, result[2].into()));
    result[..].try_into().expect("a hundred bytes")
}

fn start(block: &[u8]) -> Bytes {
    match block[29] {
        0 => sfen::position(EVEN),
        _ => block[28..128].try_into().expect("a hundred bytes"),
    }
}

/// The entry before this one on the path: in its line, or before the one that its line hangs on.
fn before(lines: &[Line], mut line: usize, mut entry: usize) -> Option<(usize, usize)> {
    while entry == 0 && line > 0 {
        let parent = lines[line].parent;
        (line, entry) = (parent, (lines[line].start - lines[parent].start) as usize);
    }
    Some((line, entry.checked_sub(1)?))
}

/// Where a move goes: 同 goes where the nearest move before it on the path went.
fn destination(lines: &[Line], mut line: usize, mut entry: usize) -> Option<(u8, u8)> {
    loop {
        match &lines[line].entries[entry].what {
            What::Move(Move { to: Some(to), .. }) => return Some(*to),
            _ => (line, entry) = before(lines, line, entry)?,
        }
    }
}

/// The place of a cell among the bytes; 0 off the board.
fn cell((file, rank): (u8, u8)) -> usize {
    match (file, rank) {
        (1..=9, 1..=9) => CELLS + 9 * usize::from(file - 1) + usize::from(rank - 1),
        _ => 0,
    }
}

/// Whether one of 02's conditions stops the play, `同` apart.
fn stops(before: &Bytes, m: &Move, to: (u8, u8)) -> bool {
    let own = |piece: u8| piece + 16 * before[2];
    let is_own = |piece: u8| (own(1)..=own(14)).contains(&piece);
    let (from, to) = (m.from.filter(|from| *from != (0, 0)), cell(to));
    let promotes = m.promote == 2;
    if to == 0 {
        return true;
    }
    let Some(from) = from.map(cell) else {
        return promotes || before[to] != 0 || m.piece > 7 || before[hand(before[2], m.piece)] == 0;
    };
    let taken = before[to];
    from == 0
        || before[from] != own(m.piece)
        || is_own(taken)
        || taken % 16 == 8
        || promotes && !PAWN_TO_ROOK.contains(&m.piece)
        || taken != 0 && before[hand(before[2], plain(taken))] == 255
}

fn plain(cell: u8) -> u8 {
    PLAIN[usize::from(cell % 16) - 1]
}

/// Where a hand's count of a kind up to the rook stands.
fn hand(side: u8, kind: u8) -> usize {
    HANDS + 7 * usize::from(side) + usize::from(kind) - 1
}

/// Only what the move says is changed: two cells and a hand, or a cell and a hand, and the turn.
fn follows(before: &Bytes, after: &Bytes, m: &Move, to: (u8, u8)) {
    let (side, to) = (before[2], cell(to));
    let mut expected = *before;
    expected[2] ^= 1;
    match m.from {
        None | Some((0, 0)) => expected[hand(side, m.piece)] -= 1,
        Some(from) => {
            expected[cell(from)] = 0;
            expected[hand(side, 1)..=hand(side, 7)]
                .iter_mut()
                .zip(1..)
                .for_each(|(count, kind)| *count += u8::from(before[to] != 0 && plain(before[to]) == kind));
        }
    }
    let promotion = if m.promote != 2 { 0 } else { [8, 8, 8, 8, 0, 7, 7][usize::from(m.piece) - 1] };
    expected[to] = 16 * side + m.piece + promotion;
    assert_eq!(*after, expected);
}

/// How many pieces there are of each kind without promotion, on the board and in both hands; kings by side.
fn census(position: &[u8]) -> [usize; 9] {
    let mut counts = [0; 9];
    for &cell in position[CELLS..HANDS].iter().filter(|cell| **cell != 0) {
        counts[if cell == 24 { 8 } else { usize::from(plain(cell)) - 1 }] += 1;
    }
    position[HANDS..99].iter().enumerate().for_each(|(place, count)| counts[place % 7] += usize::from(*count));
    counts
}

/// How many pieces there are in all.
pub fn pieces(position: &[u8]) -> usize {
    census(position).iter().sum()
}

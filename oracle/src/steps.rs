//! All single moves over small boards: whatever a move's step tells apart shows in one of them.   (02, i)

use crate::record::{encode, Diagram, Entry, Line, Move, Position, Record, What};
use crate::small::{member, total, Digits, Group};

const GROUPS: [Group<(Diagram, Move)>; 5] = [
    (29 * 29 * 14 * 3 * 2 * 2, moves),
    (29 * 14 * 3 * 2 * 2 * 4, drops),
    (256 * 256 * 2, targets),
    (256 * 256, origins),
    (81 * 81 * 2, squares),
];

/// How many blocks there are in all.
pub const STEPS: u64 = total(&GROUPS);

/// The n-th block: a diagram and one move, which is entry 1 of line 0.
pub fn block(n: u64) -> Vec<u8> {
    let (diagram, m) = member(&GROUPS, n);
    encode(&record(diagram, m))
}

fn record(diagram: Diagram, m: Move) -> Record {
    let entries = [What::Slot, What::Move(m)].map(|what| Entry { what, time: None, comments: vec![] }).to_vec();
    let main = Line { start: 0, parent: 0, entries };
    Record { version: 1, header: vec![], position: Position { preset: 16, diagram: Some(diagram) }, lines: vec![main] }
}

const BARE: Diagram = Diagram { turn: 0, cells: [0; 81], hands: [0; 14] };
/// Two squares apart, as places and among the cells.
const HERE: (u8, u8) = (5, 6);
const THERE: (u8, u8) = (4, 3);
const AT_HERE: usize = 41;
const AT_THERE: usize = 29;

/// Anything that a cell may hold.
fn cell(n: &mut Digits) -> u8 {
    let piece = n.below(29) as u8;
    if piece < 15 {
        piece
    } else {
        piece + 2
    }
}

fn named(n: &mut Digits) -> Move {
    let (piece, promote) = (1 + n.below(14) as u8, n.below(3) as u8);
    Move { colour: 0, piece, promote, to: Some(THERE), from: Some(HERE) }
}

/// Anything at the origin and at the destination, any kind named, each promotion, by either side, with empty hands and with full ones.
fn moves(n: &mut Digits) -> (Diagram, Move) {
    let m = named(n);
    let (turn, hands) = (n.below(2) as u8, [[0; 14], [255; 14]][n.below(2)]);
    let mut diagram = Diagram { turn, hands, ..BARE };
    (diagram.cells[AT_HERE], diagram.cells[AT_THERE]) = (cell(n), cell(n));
    (diagram, m)
}

/// Anything at the destination, any kind, each promotion, by either side, by either form of a drop; the hands empty, one's own or the
/// other side's with one of each, or both full.
fn drops(n: &mut Digits) -> (Diagram, Move) {
    let m = Move { from: [None, Some((0, 0))][n.below(2)], ..named(n) };
    let turn = n.below(2);
    let mut hands = [0; 14];
    match n.below(4) {
        0 => {}
        1 => hands[7 * turn..7 * turn + 7].fill(1),
        2 => hands[7 - 7 * turn..14 - 7 * turn].fill(1),
        _ => hands.fill(255),
    }
    let mut diagram = Diagram { turn: turn as u8, hands, ..BARE };
    diagram.cells[AT_THERE] = cell(n);
    (diagram, m)
}

/// Every pair of bytes as a destination, of a move and of a drop.
fn targets(n: &mut Digits) -> (Diagram, Move) {
    let to = Some((n.byte(), n.byte()));
    let from = [Some(HERE), None][n.below(2)];
    let mut diagram = Diagram { hands: [1; 14], ..BARE };
    diagram.cells[AT_HERE] = 1;
    (diagram, Move { colour: 1, piece: 1, promote: 0, to, from })
}

/// And as an origin, over a board full of pieces.
fn origins(n: &mut Digits) -> (Diagram, Move) {
    let from = Some((n.byte(), n.byte()));
    let mut diagram = Diagram { turn: 1, cells: [17; 81], hands: [1; 14] };
    diagram.cells[AT_THERE] = 0;
    (diagram, Move { colour: 0, piece: 1, promote: 2 * (n.0 % 2) as u8, to: Some(THERE), from })
}

/// A rook from every square to every square, with other kinds of the other side all round, by either side.
fn squares(n: &mut Digits) -> (Diagram, Move) {
    let place = |square: usize| (1 + square as u8 / 9, 1 + square as u8 % 9);
    let (from, to, turn) = (n.below(81), n.below(81), n.below(2) as u8);
    let kinds = [1, 2, 3, 4, 5, 6, 9, 10, 11, 12, 13];
    let mut cells = std::array::from_fn(|square| 16 * (1 - turn) + kinds[square % 11]);
    cells[from] = 16 * turn + 7;
    let m = Move { colour: turn, piece: 7, promote: 2, to: Some(place(to)), from: Some(place(from)) };
    (Diagram { turn, cells, hands: [2; 14] }, m)
}

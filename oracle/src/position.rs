//! The position after a chosen entry: the moves on the path to it are played from the start.   (02, i)

use crate::record::{Diagram, Line, Move, Position, Record, What};

/// Why a move stops the play, by 02's list. What 02 says in one word of a piece and of a place is told apart, so that each way is counted.
#[derive(Clone, Copy, Debug, PartialEq, Eq)]
pub enum Reason {
    /// "A piece that is not where the move says": the origin is empty, another kind stands there, or the other side's piece.
    NothingThere,
    OtherKind,
    OtherSide,
    /// "a place off the board": the destination, or the origin.
    ToOffBoard,
    FromOffBoard,
    /// "a drop without the piece in hand or onto a piece".
    NotInHand,
    DropOnPiece,
    /// "a landing on one's own piece", also on the origin itself.
    OwnPiece,
    /// "the taking of a king".
    KingTaken,
    /// "a promotion on a drop or of a kind that has none".
    PromotedDrop,
    NoPromotion,
    /// "a hand that would pass 255".
    HandFull,
    /// "a 同 with no move before it".
    SameFirst,
}
use Reason::*;

pub const REASONS: [Reason; 13] = [
    NothingThere, OtherKind, OtherSide, ToOffBoard, FromOffBoard, NotInHand, DropOnPiece, OwnPiece, KingTaken,
    PromotedDrop, NoPromotion, HandFull, SameFirst,
];

/// File and rank.
type Place = (u8, u8);

/// How far the play has come: the position, and the last destination, which 同 takes.
#[derive(Clone, Debug, PartialEq, Eq)]
pub struct Play {
    pub diagram: Diagram,
    pub last: Option<Place>,
}

/// The move where the play stopped, by the line that it stands in.
#[derive(Clone, Copy, Debug, PartialEq, Eq)]
pub struct Stopped {
    pub line: usize,
    pub entry: usize,
    pub reason: Reason,
}

/// Kinds in the order of `piece_kind`, from 1. Those up to the rook have a place in a hand.
const ROOK: u8 = 7;
const KING: u8 = 8;
/// A cell of White is so much more than its kind.
const WHITE: u8 = 16;
/// Pawn, lance, knight, silver, bishop and rook, each with what it becomes.
const PROMOTIONS: [(u8, u8); 6] = [(1, 9), (2, 10), (3, 11), (4, 12), (6, 13), (7, 14)];

/// "plays a line from 平手 or from the record's own diagram": none where another preset has no diagram.
pub fn start(position: &Position) -> Option<Play> {
    let diagram = match (&position.diagram, position.preset) {
        (Some(diagram), _) => diagram.clone(),
        (None, 0) => even(),
        (None, _) => return None,
    };
    Some(Play { diagram, last: None })
}

/// 平手, Black to move.
pub fn even() -> Diagram {
    const LAST_RANK: [u8; 9] = [2, 3, 4, 5, 8, 5, 4, 3, 2];
    let mut cells = [0; 81];
    for file in 0..9 {
        let column = &mut cells[9 * file..9 * file + 9];
        column[0] = WHITE + LAST_RANK[file];
        column[2] = WHITE + 1;
        column[6] = 1;
        column[8] = LAST_RANK[file];
    }
    let pieces = [((2, 2), WHITE + 6), ((8, 2), WHITE + 7), ((2, 8), 7), ((8, 8), 6)];
    pieces.into_iter().for_each(|(place, cell)| cells[square(place).expect("on the board")] = cell);
    Diagram { turn: 0, cells, hands: [0; 14] }
}

/// The play up to and with a chosen entry, or where it stopped.
pub fn after(record: &Record, start: Play, line: usize, entry: usize) -> Result<Play, Stopped> {
    let mut play = start;
    for (line, entry) in path(&record.lines, line, entry) {
        // "specials are passed over", and the slot is the start.
        if let What::Move(m) = &record.lines[line].entries[entry].what {
            play = step(&play, m).map_err(|reason| Stopped { line, entry, reason })?;
        }
    }
    Ok(play)
}

/// Line and number of each entry from the start up to and with this one: "a variation's moves replacing its parent's from the entry
/// it hangs on".
fn path(lines: &[Line], mut line: usize, entry: usize) -> Vec<(usize, usize)> {
    let mut path: Vec<_> = (0..=entry).rev().map(|entry| (line, entry)).collect();
    while line > 0 {
        let parent = lines[line].parent;
        let hangs_on = (lines[line].start - lines[parent].start) as usize;
        path.extend((0..hangs_on).rev().map(|entry| (parent, entry)));
        line = parent;
    }
    path.reverse();
    path
}

/// The play with one move more. "The mover is the side to move, alternating from the start; the block's colours are not used."
pub fn step(before: &Play, m: &Move) -> Result<Play, Reason> {
    let place = m.to.or(before.last).ok_or(SameFirst)?;
    let to = square(place).ok_or(ToOffBoard)?;
    let mut diagram = before.diagram.clone();
    match m.from {
        None | Some((0, 0)) => drop_piece(&mut diagram, m, to)?,
        Some(from) => move_piece(&mut diagram, m, square(from).ok_or(FromOffBoard)?, to)?,
    }
    diagram.turn = 1 - diagram.turn;
    Ok(Play { diagram, last: Some(place) })
}

/// "A drop is a move with origin (0,0) or none". A king and a promoted kind are never in hand.
fn drop_piece(diagram: &mut Diagram, m: &Move, to: usize) -> Result<(), Reason> {
    if m.promote == 2 {
        return Err(PromotedDrop);
    }
    if diagram.cells[to] != 0 {
        return Err(DropOnPiece);
    }
    let place = in_hand(diagram.turn, m.piece).ok_or(NotInHand)?;
    diagram.hands[place] = diagram.hands[place].checked_sub(1).ok_or(NotInHand)?;
    diagram.cells[to] = WHITE * diagram.turn + m.piece;
    Ok(())
}

/// The piece named is the one that stands at the origin before the move.
fn move_piece(diagram: &mut Diagram, m: &Move, from: usize, to: usize) -> Result<(), Reason> {
    match side_and_kind(diagram.cells[from]) {
        None => return Err(NothingThere),
        Some((side, _)) if side != diagram.turn => return Err(OtherSide),
        Some((_, kind)) if kind != m.piece => return Err(OtherKind),
        Some(_) => {}
    }
    let becomes = if m.promote == 2 { promoted(m.piece).ok_or(NoPromotion)? } else { m.piece };
    capture(diagram, to)?;
    diagram.cells[from] = 0;
    diagram.cells[to] = WHITE * diagram.turn + becomes;
    Ok(())
}

/// "A capture goes to the mover's hand unpromoted."
fn capture(diagram: &mut Diagram, to: usize) -> Result<(), Reason> {
    match side_and_kind(diagram.cells[to]) {
        None => Ok(()),
        Some((side, _)) if side == diagram.turn => Err(OwnPiece),
        Some((_, KING)) => Err(KingTaken),
        Some((_, kind)) => {
            let place = in_hand(diagram.turn, unpromoted(kind)).expect("all but kings can be held");
            diagram.hands[place] = diagram.hands[place].checked_add(1).ok_or(HandFull)?;
            Ok(())
        }
    }
}

/// Where a place's cell stands: file 1 first, and rank 1 first in it.
pub fn square((file, rank): Place) -> Option<usize> {
    let on_board = (1..=9).contains(&file) && (1..=9).contains(&rank);
    on_board.then(|| 9 * (usize::from(file) - 1) + usize::from(rank) - 1)
}

/// Whose piece a cell holds, and of what kind.
pub fn side_and_kind(cell: u8) -> Option<(u8, u8)> {
    (cell > 0).then_some((cell / WHITE, cell % WHITE))
}

/// Where a side's count of a kind stands among the hands.
fn in_hand(side: u8, kind: u8) -> Option<usize> {
    (1..=ROOK).contains(&kind).then(|| usize::from(ROOK * side + kind - 1))
}

fn promoted(kind: u8) -> Option<u8> {
    PROMOTIONS.iter().find(|(plain, _)| *plain == kind).map(|(_, promoted)| *promoted)
}

fn unpromoted(kind: u8) -> u8 {
    PROMOTIONS.iter().find(|(_, promoted)| *promoted == kind).map_or(kind, |(plain, _)| *plain)
}

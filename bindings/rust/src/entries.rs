//! What the 20 bytes of an entry say (docs/BLOCK.md, "The block").

use crate::pieces::{Kind, Side, Square};

/// What an entry is.
#[derive(Clone, Copy, Debug, PartialEq, Eq, Hash)]
pub enum What {
    /// Entry 0 of line 0: the start, which has comments alone.
    Slot,
    /// A move.
    Move(Move),
    /// What ends a line instead of a move.
    Special(Special),
}

/// A move.
#[derive(Clone, Copy, Debug, PartialEq, Eq, Hash)]
pub struct Move {
    /// Who moves, by the number printed on the move.
    pub side: Side,
    /// The kind of the piece, before it promotes.
    pub kind: Kind,
    /// What is said of promoting.
    pub promote: Promote,
    /// Where it goes.
    pub to: Target,
    /// Where it comes from.
    pub from: Origin,
}

/// What a move says of promoting.
#[derive(Clone, Copy, Debug, PartialEq, Eq, Hash)]
pub enum Promote {
    /// Nothing.
    Unsaid,
    /// 不成: it may and does not.
    Declined,
    /// 成: it does.
    Promotes,
}

/// Where a move goes.
#[derive(Clone, Copy, Debug, PartialEq, Eq, Hash)]
pub enum Target {
    /// 同: where the move before it went.
    Same,
    /// To a square.
    Square(Square),
}

/// Where a move comes from.
#[derive(Clone, Copy, Debug, PartialEq, Eq, Hash)]
pub enum Origin {
    /// Nothing says it. No text that is read has such a move.
    Unknown,
    /// 打: from the hand, which a block has as (0,0).
    Hand,
    /// From a square.
    Square(Square),
}

/// What ends a line instead of a move.
#[derive(Clone, Copy, Debug, PartialEq, Eq, Hash)]
pub enum Special {
    /// 投了.
    Resigns,
    /// 中断.
    BrokenOff,
    /// 千日手.
    Repetition,
    /// 切れ負け.
    TimeUp,
    /// 反則負け.
    FoulMove,
    /// A foul of Black's; no text that is read says it, and neither do the next and the others without a word.
    FoulOfBlack,
    /// A foul of White's.
    FoulOfWhite,
    /// 持将棋.
    Impasse,
    /// 入玉勝ち.
    WinClaimed,
    /// A draw.
    Draw,
    /// A move that was taken back.
    Retracted,
    /// 詰み.
    Mate,
    /// No mate.
    NoMate,
    /// An error.
    Error,
}

impl Special {
    /// All of them, in the order of a block's numbers, which begin at 0.
    pub const ALL: [Special; 14] = [
        Special::Resigns,
        Special::BrokenOff,
        Special::Repetition,
        Special::TimeUp,
        Special::FoulMove,
        Special::FoulOfBlack,
        Special::FoulOfWhite,
        Special::Impasse,
        Special::WinClaimed,
        Special::Draw,
        Special::Retracted,
        Special::Mate,
        Special::NoMate,
        Special::Error,
    ];
}

/// A time of the clock.
#[derive(Clone, Copy, Debug, PartialEq, Eq, Hash)]
pub struct Clock {
    /// The hours, where they are said.
    pub hours: Option<u8>,
    /// The minutes.
    pub minutes: u8,
    /// The seconds.
    pub seconds: u8,
}

/// The time of an entry.
#[derive(Clone, Copy, Debug, PartialEq, Eq, Hash)]
pub struct Time {
    /// What the entry itself took.
    pub now: Clock,
    /// What its side took in all.
    pub total: Clock,
}

const FROM: u8 = 1;
const SAME: u8 = 2;
const TIME: u8 = 4;
const NOW_HOUR: u8 = 8;
const TOTAL_HOUR: u8 = 16;

/// What the bytes of an entry say that it is.
pub(crate) fn what(bytes: &[u8]) -> What {
    match bytes[0] {
        0 => What::Slot,
        1 => What::Move(played(bytes)),
        _ => What::Special(Special::ALL[usize::from(bytes[1])]),
    }
}

fn played(bytes: &[u8]) -> Move {
    let square = |at: usize| Square { file: bytes[at], rank: bytes[at + 1] };
    Move {
        side: Side::of(bytes[1]),
        kind: Kind::of(bytes[2]),
        promote: [Promote::Unsaid, Promote::Declined, Promote::Promotes][usize::from(bytes[3])],
        to: if bytes[8] & SAME != 0 { Target::Same } else { Target::Square(square(4)) },
        from: match square(6) {
            _ if bytes[8] & FROM == 0 => Origin::Unknown,
            Square { file: 0, rank: 0 } => Origin::Hand,
            from => Origin::Square(from),
        },
    }
}

/// The time that the bytes of an entry say, if they say one.
pub(crate) fn time(bytes: &[u8]) -> Option<Time> {
    let clock = |at: usize, hour: u8| Clock {
        hours: (bytes[8] & hour != 0).then_some(bytes[at]),
        minutes: bytes[at + 1],
        seconds: bytes[at + 2],
    };
    (bytes[8] & TIME != 0).then(|| Time { now: clock(9, NOW_HOUR), total: clock(12, TOTAL_HOUR) })
}

//! Records of play that mostly fits the board: a random player's, with moves here and there that stop it.

use crate::attach;
use crate::games;
use crate::judge::{self, Outcome};
use crate::position::{even, side_and_kind, start, step, Play, REASONS};
use crate::record::{encode, Diagram, Entry, Line, Move, Position, Record, What};
use crate::rng::Rng;

/// So many moves are drawn for one that goes, and for one that stops the play.
const TRIES: usize = 60;
const STOP_TRIES: usize = 240;
/// Bytes that are off the board, or mostly so.
const ODD: [u8; 8] = [0, 0, 10, 11, 16, 25, 128, 255];

/// The block of such a record, or of a known game; half of the player's are written and read back, so that they are as a reader
/// gives them.
pub fn block(r: &mut Rng) -> Vec<u8> {
    let record = match r.below(200) {
        0 => long(r),
        1..=8 => return games::block(r),
        _ => record(r),
    };
    let block = encode(&record);
    if r.one_in(2) {
        return block;
    }
    read_back(&block).unwrap_or(block)
}

/// What is read of a block's text, if it has one.
fn read_back(block: &[u8]) -> Option<Vec<u8>> {
    let Outcome::Made { result: text, .. } = judge::write_as(block, 2) else {
        return None;
    };
    match judge::fill(&text) {
        Outcome::Made { result, .. } => Some(result),
        _ => None,
    }
}

/// A main line and up to seven variations.
fn record(r: &mut Rng) -> Record {
    let mut player = Player::new(r);
    let moves = [player.r.below(6), player.r.below(40), player.r.below(120)][player.r.below(3)];
    player.play(0, moves);
    for _ in 0..player.r.below(8) {
        let last = player.record.lines.iter().map(|line| line.start + line.entries.len() as u64).max();
        let start = player.r.below(last.unwrap_or(1) as usize) as u64;
        let moves = 1 + player.r.below(8);
        player.variation(start, moves);
    }
    player.record
}

/// One with as long a path as a block can hold: in one line, or through variations of which each hangs on the one before it; or
/// with as many variations of which each replaces the one before it.
fn long(r: &mut Rng) -> Record {
    let (lines, moves) = [(1, 3_268), (1_300, 2), (2_300, 1)][r.below(3)];
    let mut player = Player { stops: usize::MAX, ..Player::new(r) };
    player.play(0, if lines == 1 { moves } else { 2 });
    for k in 1..lines {
        player.variation(if moves == 1 { 1 } else { k }, moves);
    }
    player.record
}

/// A record while it grows. `plays` has for each entry the play with it, or without it where it stops the play. `stops` is how often,
/// one in so many, a move is one that stops it.
struct Player<'a> {
    r: &'a mut Rng,
    stops: usize,
    start: Play,
    record: Record,
    plays: Vec<Vec<Play>>,
}

impl<'a> Player<'a> {
    fn new(r: &'a mut Rng) -> Self {
        let (position, stops) = (position(r), [12, 40, usize::MAX][r.below(3)]);
        let start = start(&position).unwrap_or(Play { diagram: even(), last: None });
        let main = Line { start: 0, parent: 0, entries: vec![entry(What::Slot)] };
        let record = Record { version: 1, header: vec![], position, lines: vec![main] };
        Player { r, stops, plays: vec![vec![start.clone()]], start, record }
    }

    /// A variation at this ply, unless there is no entry that it could hang on.
    fn variation(&mut self, start: u64, moves: usize) {
        let shape = self.record.shape();
        let parent = attach::parent(&shape, start);
        if start - shape[parent].0 < shape[parent].1 as u64 {
            self.record.lines.push(Line { start, parent, entries: vec![] });
            self.plays.push(vec![]);
            self.play(shape.len(), moves);
        }
    }

    /// So many entries more in a line.
    fn play(&mut self, line: usize, moves: usize) {
        for _ in 0..moves {
            let before = self.before(line);
            let what = self.what(&before);
            let after = match &what {
                What::Move(m) => step(&before, m).unwrap_or(before),
                _ => before,
            };
            self.record.lines[line].entries.push(entry(what));
            self.plays[line].push(after);
        }
    }

    /// The play before a line's next entry.
    fn before(&self, mut line: usize) -> Play {
        let mut played = self.plays[line].len();
        while played == 0 && line > 0 {
            let parent = self.record.lines[line].parent;
            played = (self.record.lines[line].start - self.record.lines[parent].start) as usize;
            line = parent;
        }
        if played == 0 {
            self.start.clone()
        } else {
            self.plays[line][played - 1].clone()
        }
    }

    /// A special, a move that goes, or one that stops the play, if one is found.
    fn what(&mut self, play: &Play) -> What {
        if self.r.one_in(20) {
            return What::Special(self.r.below(14) as u8);
        }
        let found = if self.r.one_in(self.stops) { self.stopping(play) } else { self.going(play) };
        found.map_or(What::Special(0), What::Move)
    }

    fn going(&mut self, play: &Play) -> Option<Move> {
        (0..TRIES).map(|_| self.drawn(play)).find(|m| step(play, m).is_ok())
    }

    /// One that stops for a reason drawn first, so that rare ones come often; else for any.
    fn stopping(&mut self, play: &Play) -> Option<Move> {
        let wanted = REASONS[self.r.below(REASONS.len())];
        let drawn: Vec<_> = (0..STOP_TRIES).map(|_| self.drawn(play)).collect();
        let found = drawn.iter().find(|m| step(play, m).is_err_and(|reason| reason == wanted));
        found.or_else(|| drawn.iter().find(|m| step(play, m).is_err())).cloned()
    }

    /// Mostly a piece of the side to move, from where it stands or from its hand, to where a piece of the other side stands or to any
    /// square, and now and then anything else.
    fn drawn(&mut self, play: &Play) -> Move {
        let Diagram { turn, cells, .. } = &play.diagram;
        let (from, piece) = match self.r.below(8) {
            0..=1 => (self.no_origin(), self.held(&play.diagram)),
            2 => (Some(self.place()), 1 + self.r.below(14) as u8),
            3 if self.r.one_in(2) => self.standing(cells, 1 - turn),
            _ => self.standing(cells, *turn),
        };
        let to = match self.r.below(12) {
            0..=2 => None,
            3 => Some(self.place()),
            4..=6 => self.standing(cells, 1 - turn).0,
            7 if self.r.one_in(4) => from,
            _ => Some((1 + self.r.below(9) as u8, 1 + self.r.below(9) as u8)),
        };
        let promote = [0, 0, 0, 1, 2][self.r.below(5)];
        Move { colour: self.r.below(2) as u8, piece, promote, to, from }
    }

    /// What makes a move a drop; in one of four cases a place off the board that only comes near it.
    fn no_origin(&mut self) -> Option<(u8, u8)> {
        let other = 1 + self.r.below(9) as u8;
        match self.r.below(8) {
            0..=2 => None,
            3..=5 => Some((0, 0)),
            6 => Some((0, other)),
            _ => Some((other, 0)),
        }
    }

    /// A place, in half of the cases off the board.
    fn place(&mut self) -> (u8, u8) {
        let (file, rank) = (1 + self.r.below(9) as u8, 1 + self.r.below(9) as u8);
        match self.r.below(8) {
            0 => (ODD[self.r.below(8)], rank),
            1 => (file, ODD[self.r.below(8)]),
            2 => (ODD[self.r.below(8)], ODD[self.r.below(8)]),
            3 => (0, 0),
            _ => (file, rank),
        }
    }

    /// A kind that the side to move holds, if the one drawn first is not; now and then any.
    fn held(&mut self, diagram: &Diagram) -> u8 {
        let own = &diagram.hands[7 * usize::from(diagram.turn)..][..7];
        let first = self.r.below(7);
        let held = (0..7).map(|k| (first + k) % 7).find(|&kind| own[kind] > 0);
        match held {
            Some(kind) if !self.r.one_in(6) => 1 + kind as u8,
            _ => 1 + self.r.below(14) as u8,
        }
    }

    /// A square and what stands there: the first from a square drawn that has a piece of this side; now and then another kind.
    fn standing(&mut self, cells: &[u8; 81], side: u8) -> (Option<(u8, u8)>, u8) {
        let first = self.r.below(81);
        let is_there = |square: &usize| side_and_kind(cells[*square]).is_some_and(|(owner, _)| owner == side);
        let square = (0..81).map(|k| (first + k) % 81).find(is_there).unwrap_or(first);
        let kind = side_and_kind(cells[square]).map_or(1, |(_, kind)| kind);
        let named = if self.r.one_in(12) { 1 + self.r.below(14) as u8 } else { kind };
        (Some((1 + square as u8 / 9, 1 + square as u8 % 9)), named)
    }
}

fn entry(what: What) -> Entry {
    Entry { what, time: None, comments: vec![] }
}

/// 平手, rarely another preset, 平手 as a diagram with some pieces in hands, or pieces here and there.
fn position(r: &mut Rng) -> Position {
    match r.below(30) {
        0 => Position { preset: r.below(17) as u8, diagram: None },
        1..=12 => Position { preset: 0, diagram: None },
        13..=20 => Position { preset: 16, diagram: Some(thinned(r)) },
        _ => Position { preset: 16, diagram: Some(scattered(r)) },
    }
}

/// Some pieces taken off; hands up to what a hand can hold.
fn thinned(r: &mut Rng) -> Diagram {
    let mut diagram = Diagram { turn: r.below(2) as u8, ..even() };
    let one_in = 1 + r.below(6);
    diagram.cells.iter_mut().for_each(|cell| *cell = if r.one_in(one_in) { 0 } else { *cell });
    diagram.hands = hands(r);
    diagram
}

fn scattered(r: &mut Rng) -> Diagram {
    let one_in = 1 + r.below(8);
    let cell = |r: &mut Rng| if r.one_in(one_in) { 1 + 16 * r.below(2) as u8 + r.below(14) as u8 } else { 0 };
    Diagram { turn: r.below(2) as u8, cells: std::array::from_fn(|_| cell(r)), hands: hands(r) }
}

fn hands(r: &mut Rng) -> [u8; 14] {
    let counts = [[0, 0, 1, 2], [0, 1, 9, 18], [0, 1, 254, 255], [255; 4]][r.below(4)];
    std::array::from_fn(|_| counts[r.below(4)])
}

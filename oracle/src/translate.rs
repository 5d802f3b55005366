//! Between the original's types and the record.

use crate::jkf::*;
use crate::record::Time as Spent;
use crate::record::{Clock, Diagram, Entry, Line, Move, Position, Record, What};

pub const KINDS: [Kind; 14] = {
    use Kind::*;
    [FU, KY, KE, GI, KI, KA, HI, OU, TO, NY, NK, NG, UM, RY]
};

pub const PRESETS: [Preset; 17] = {
    use Preset::*;
    [
        PresetHirate, PresetKY, PresetKYR, PresetKA, PresetHI, PresetHIKY, Preset2, Preset3, Preset4, Preset5,
        Preset5L, Preset6, Preset7L, Preset7R, Preset8, Preset10, PresetOther,
    ]
};

pub const SPECIALS: [MoveSpecial; 14] = {
    use MoveSpecial::*;
    [
        SpecialToryo, SpecialChudan, SpecialSennichite, SpecialTimeUp, SpecialIllegalMove, SpecialIllegalActionBlack,
        SpecialIllegalActionWhite, SpecialJishogi, SpecialKachi, SpecialHikiwake, SpecialMatta, SpecialTsumi,
        SpecialFuzumi, SpecialError,
    ]
};

const COLORS: [Color; 2] = [Color::Black, Color::White];

/// A line of the original: its start and its entries, with or without what hangs on them.
pub type Play = (u64, Vec<MoveFormat>);

/// The record of what the original read, its lines in file order and not yet attached.
pub fn record(head: &JsonKifuFormat, lines: &[Play]) -> Record {
    let mut header: Vec<_> = head.header.iter().map(|(key, value)| (key.clone(), value.clone())).collect();
    header.sort();
    let initial = head.initial.as_ref().expect("the reader always gives an initial");
    let position = Position { preset: initial.preset as u8, diagram: initial.data.as_ref().map(diagram) };
    let line = |(start, moves): &Play| Line { start: *start, parent: 0, entries: moves.iter().map(entry).collect() };
    Record { version: 1, header, position, lines: lines.iter().map(line).collect() }
}

/// What the original's writer is given for a record.
pub fn original(record: &Record) -> JsonKifuFormat {
    let lines = record.lines.iter().map(|line| (line.start, line.entries.iter().map(move_format).collect())).collect();
    let parents: Vec<_> = record.lines.iter().map(|line| line.parent).collect();
    JsonKifuFormat { moves: nest(lines, &parents), ..head(record) }
}

/// The same without the moves.
pub fn head(record: &Record) -> JsonKifuFormat {
    JsonKifuFormat {
        header: record.header.iter().cloned().collect(),
        initial: Some(Initial {
            preset: PRESETS[usize::from(record.position.preset)],
            data: record.position.diagram.as_ref().map(state),
        }),
        moves: vec![],
    }
}

/// Line 0 with every other line as a fork of the entry it hangs on.
pub fn nest(mut lines: Vec<Play>, parents: &[usize]) -> Vec<MoveFormat> {
    // From the last on, so that a line is whole before it is hung up.
    while lines.len() > 1 {
        let parent = parents[lines.len() - 1];
        let (start, fork) = lines.pop().unwrap();
        let (parent_start, moves) = &mut lines[parent];
        moves[(start - *parent_start) as usize].forks.get_or_insert_with(Vec::new).push(fork);
    }
    lines.pop().unwrap().1
}

fn diagram(state: &StateFormat) -> Diagram {
    let mut cells = [0; 81];
    for (cell, piece) in cells.iter_mut().zip(state.board.iter().flatten()) {
        if let (Some(color), Some(kind)) = (piece.color, piece.kind) {
            *cell = 16 * color as u8 + kind as u8 + 1;
        }
    }
    let counts = |hand: &Hand| [hand.FU, hand.KY, hand.KE, hand.GI, hand.KI, hand.KA, hand.HI];
    let [black, white] = state.hands.each_ref().map(counts);
    Diagram { turn: state.color as u8, cells, hands: [black, white].concat().try_into().unwrap() }
}

fn state(diagram: &Diagram) -> StateFormat {
    let piece = |cell: u8| match cell {
        0 => Piece::empty(),
        _ => Piece { color: Some(COLORS[usize::from(cell / 16)]), kind: Some(KINDS[usize::from(cell % 16) - 1]) },
    };
    let hand = |counts: &[u8]| Hand {
        FU: counts[0],
        KY: counts[1],
        KE: counts[2],
        GI: counts[3],
        KI: counts[4],
        KA: counts[5],
        HI: counts[6],
    };
    let mut board = [[Piece::empty(); 9]; 9];
    board.iter_mut().flatten().zip(diagram.cells).for_each(|(square, cell)| *square = piece(cell));
    StateFormat {
        color: COLORS[usize::from(diagram.turn)],
        board,
        hands: [hand(&diagram.hands[..7]), hand(&diagram.hands[7..])],
    }
}

/// An entry without what hangs on it.
pub fn entry(entry: &MoveFormat) -> Entry {
    let what = match (&entry.move_, entry.special) {
        (Some(m), _) => What::Move(Move {
            colour: m.color as u8,
            piece: m.piece as u8 + 1,
            promote: m.promote.map_or(0, |promoted| 1 + u8::from(promoted)),
            to: m.same.is_none().then_some((m.to.x, m.to.y)),
            from: m.from.map(|from| (from.x, from.y)),
        }),
        (None, Some(special)) => What::Special(special as u8),
        (None, None) => What::Slot,
    };
    let clock = |time: TimeFormat| Clock { h: time.h, m: time.m, s: time.s };
    let time = entry.time.map(|time| Spent { now: clock(time.now), total: clock(time.total) });
    Entry { what, time, comments: entry.comments.clone().unwrap_or_default() }
}

/// An entry as the original has it, without what hangs on it.
pub fn move_format(entry: &Entry) -> MoveFormat {
    let clock = |time: &Clock| TimeFormat { h: time.h, m: time.m, s: time.s };
    let (move_, special) = match &entry.what {
        What::Slot => (None, None),
        What::Move(m) => (Some(move_move_format(m)), None),
        What::Special(number) => (None, Some(SPECIALS[usize::from(*number)])),
    };
    MoveFormat {
        move_,
        comments: Some(entry.comments.clone()).filter(|comments| !comments.is_empty()),
        time: entry.time.as_ref().map(|time| Time { now: clock(&time.now), total: clock(&time.total) }),
        special,
        forks: None,
    }
}

fn move_move_format(m: &Move) -> MoveMoveFormat {
    let place = |(x, y)| PlaceFormat { x, y };
    MoveMoveFormat {
        color: COLORS[usize::from(m.colour)],
        from: m.from.map(place),
        to: m.to.map(place).unwrap_or_default(),
        piece: KINDS[usize::from(m.piece) - 1],
        same: m.to.is_none().then_some(true),
        promote: [None, Some(false), Some(true)][usize::from(m.promote)],
        capture: None,
        relative: None,
    }
}

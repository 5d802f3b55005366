//! Why a call refuses.

use crate::pieces::{Kind, Preset, Side};
use std::{error, fmt};

/// Why a call refuses: a case for each number of refusal (docs/BLOCK.md, "Numbers of refusal").
///
/// Bytes, lines and entries are counted from 0, variations from 1.
#[derive(Clone, Copy, Debug, PartialEq, Eq, Hash)]
#[non_exhaustive]
pub enum Error {
    /// 1: the text has more than 65,535 bytes.
    TextTooLong {
        /// How many it has.
        length: u64,
    },
    /// 2: the text is not UTF-8.
    NotUtf8 {
        /// How many bytes are well formed before the fault.
        well_formed: u64,
    },
    /// 3: a line that tells the pieces in a hand cannot be read.
    HandLine {
        /// The byte at which it begins.
        at: u64,
    },
    /// 4: the block would have more than 65,535 bytes.
    BlockTooLong {
        /// How many it would have.
        length: u64,
    },
    /// 5: a lent buffer is too short. This crate lends as much as is needed, and never answers it.
    BufferShort {
        /// How many bytes are needed.
        length: u64,
    },
    /// 6: a variation has no entry to hang on.
    NoEntry {
        /// Its number among the variations, from 1.
        variation: u64,
        /// The number on its first move.
        ply: u64,
    },
    /// 7: the bytes are not just a sound block; of restating also that it is of version 2.
    NotSound,
    /// 8: a hand holds more than 99 pieces of a kind.
    HandCount {
        /// Whose hand it is.
        side: Side,
        /// The kind.
        kind: Kind,
    },
    /// 9: a move cannot be written: it goes off the board without 同, or its time has no room behind it.
    CannotWrite {
        /// The line.
        line: u64,
        /// The entry in it.
        entry: u64,
    },
    /// 10: there is no such line; line 0 is none that can be cut.
    NoSuchPart {
        /// The number asked for.
        number: u64,
    },
    /// 11: a text that is to be put in is not one variation, numbered one by one.
    NotOneVariation,
    /// 12: the line does not have the ply, or it is 0.
    OutsideLine {
        /// The line.
        line: u64,
        /// The number on the variation's first move.
        ply: u64,
    },
    /// 13: the entry carries a variation already, and the record is of version 1.
    EntryTaken {
        /// The line.
        line: u64,
        /// The number on the variation's first move.
        ply: u64,
    },
    /// 15: there is no diagram to play from, and the preset is not 平手.
    NoStart {
        /// The preset.
        preset: Preset,
    },
    /// 16: the line has no such entry.
    NoSuchEntry {
        /// The line.
        line: u64,
        /// The entry asked for.
        entry: u64,
    },
    /// 17: a move on the way to the entry cannot be played.
    PlayStopped {
        /// The line of that move.
        line: u64,
        /// Its entry.
        entry: u64,
    },
    /// 20: a variation starts at ply 0, which a mode that loses nothing does not write.
    StartsAtZero {
        /// The line.
        line: u64,
    },
}

/// What the numbers of a call come to: success, or why it refuses.
///
/// # Panics
/// Where the library answers by a number that this crate does not know.
pub(crate) fn checked(number: u64, first: u64, second: u64) -> Result<(), Error> {
    let [line, entry, ply] = [first, second, second];
    Err(match number {
        0 => return Ok(()),
        1 => Error::TextTooLong { length: first },
        2 => Error::NotUtf8 { well_formed: first },
        3 => Error::HandLine { at: first },
        4 => Error::BlockTooLong { length: first },
        5 => Error::BufferShort { length: first },
        6 => Error::NoEntry { variation: first, ply },
        7 => Error::NotSound,
        8 => Error::HandCount { side: Side::of(first as u8), kind: Kind::of(second as u8 + 1) },
        9 => Error::CannotWrite { line, entry },
        10 => Error::NoSuchPart { number: first },
        11 => Error::NotOneVariation,
        12 => Error::OutsideLine { line, ply },
        13 => Error::EntryTaken { line, ply },
        15 => Error::NoStart { preset: Preset::of(first as u8) },
        16 => Error::NoSuchEntry { line, entry },
        17 => Error::PlayStopped { line, entry },
        20 => Error::StartsAtZero { line },
        _ => panic!("the library refuses by {number}, which this crate does not know"),
    })
}

impl fmt::Display for Error {
    fn fmt(&self, f: &mut fmt::Formatter<'_>) -> fmt::Result {
        match *self {
            Error::TextTooLong { length } => write!(f, "the text has {length} bytes; 65535 is the most"),
            Error::NotUtf8 { well_formed } => {
                write!(f, "the text is not UTF-8 after its first {well_formed} bytes; perhaps it is Shift_JIS")
            }
            Error::HandLine { at } => write!(f, "the line of pieces in hand at byte {at} cannot be read"),
            Error::BlockTooLong { length } => write!(f, "the block would have {length} bytes; 65535 is the most"),
            Error::BufferShort { length } => write!(f, "the result has {length} bytes, and there is no room"),
            Error::NoEntry { variation, ply } => {
                write!(f, "variation {variation}, which begins with move {ply}, has no move to hang on")
            }
            Error::NotSound => write!(f, "this is not just a sound block, or not of the version that is needed"),
            Error::HandCount { side, kind } => write!(f, "{side} has more than 99 of {kind} in hand"),
            Error::CannotWrite { line, entry } => write!(
                f,
                "line {line}, entry {entry} cannot be written: it goes off the board, or its time has no room beside it"
            ),
            Error::NoSuchPart { number } => write!(f, "there is no line {number}, or it cannot be cut"),
            Error::NotOneVariation => write!(f, "the text is not one variation whose moves are numbered one by one"),
            Error::OutsideLine { line, ply } => write!(f, "line {line} has no move {ply} to put a variation at"),
            Error::EntryTaken { line, ply } => {
                write!(f, "line {line}, move {ply} carries a variation already; a record of version 2 may have more")
            }
            Error::NoStart { preset } => {
                write!(f, "the record has no diagram, and its handicap, {preset}, is not played from")
            }
            Error::NoSuchEntry { line, entry } => write!(f, "line {line} has no entry {entry}"),
            Error::PlayStopped { line, entry } => write!(f, "line {line}, entry {entry} cannot be played"),
            Error::StartsAtZero { line } => {
                write!(f, "line {line} is a variation that starts at ply 0, which only the plain mode leaves out")
            }
        }
    }
}

impl error::Error for Error {}

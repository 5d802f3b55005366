//! Where reading stops, and why.

use crate::calls;
use crate::error::{checked, Error};
use std::fmt;

/// Where reading a text stops.
#[derive(Clone, Copy, Debug, PartialEq, Eq, Hash)]
pub enum Stop {
    /// Reading takes the bytes before `taken`, for this reason no more, and the rule that failed there came as far as `at`.
    Stopped {
        /// How many bytes are taken.
        taken: usize,
        /// Why no more are.
        reason: Reason,
        /// The byte at which something else must stand.
        at: usize,
    },
    /// A variation has no entry to hang on; [`Record::read`](crate::Record::read) refuses the text.
    Astray(Astray),
}

/// A variation that has no entry to hang on.
#[derive(Clone, Copy, Debug, PartialEq, Eq, Hash)]
pub struct Astray {
    /// Its number among the variations, from 1.
    pub variation: u64,
    /// The number on its first move.
    pub ply: u64,
    /// The line that it would hang on.
    pub parent: u64,
    /// The first ply of that line.
    pub first: u64,
    /// Its last ply.
    pub last: u64,
    /// The byte at which the variation's first move line begins.
    pub at: u64,
}

/// Why no more is read. `Display` says what must stand there.
#[derive(Clone, Copy, Debug, PartialEq, Eq, Hash)]
pub enum Reason {
    /// A number must stand here.
    NoNumber,
    /// A number is too large.
    TooLarge,
    /// Neither a square nor 同 nor an ending that is known stands here.
    NoPlace,
    /// A kind of piece must stand here.
    NoKind,
    /// The square that the piece comes from, or 打, must stand here.
    NoOrigin,
    /// The line must end here.
    NoBreak,
    /// A comment stands where none may.
    CommentHere,
    /// The text ends here.
    EndOfText,
}

impl fmt::Display for Reason {
    fn fmt(&self, f: &mut fmt::Formatter<'_>) -> fmt::Result {
        f.write_str(match self {
            Reason::NoNumber => "the number of a move must stand here",
            Reason::TooLarge => "this number is too large",
            Reason::NoPlace => "a square, 同 or an ending must stand here",
            Reason::NoKind => "a kind of piece must stand here",
            Reason::NoOrigin => "(77) or 打 must stand here",
            Reason::NoBreak => "the line must end here",
            Reason::CommentHere => "a comment cannot stand here",
            Reason::EndOfText => "the text ends here",
        })
    }
}

const REASONS: [Reason; 8] = [
    Reason::NoNumber,
    Reason::TooLarge,
    Reason::NoPlace,
    Reason::NoKind,
    Reason::NoOrigin,
    Reason::NoBreak,
    Reason::CommentHere,
    Reason::EndOfText,
];

/// Where reading a text stops, and why; where all is taken, at its end.
///
/// ```
/// use kif::{spot, stop, Reason, Stop};
///
/// let text = "手数--\n   1 ７六歩(77)\n   2 ３四歩\n";
/// let Stop::Stopped { taken, reason, at } = stop(text)? else { unreachable!() };
/// assert_eq!((taken, reason), (text.find("   2").unwrap(), Reason::NoOrigin));
/// assert_eq!((spot(text, at).line, spot(text, at).column), (3, 9));
/// # Ok::<(), kif::Error>(())
/// ```
///
/// # Errors
/// [`Error::TextTooLong`], [`Error::NotUtf8`], [`Error::HandLine`].
pub fn stop(text: impl AsRef<[u8]>) -> Result<Stop, Error> {
    let [number, first, second, third, fourth, fifth, sixth] = calls::stop(text.as_ref());
    if number == 6 {
        return Ok(Stop::Astray(Astray {
            variation: first,
            ply: second,
            parent: third,
            first: fourth,
            last: fifth,
            at: sixth,
        }));
    }
    checked(number, first, second)?;
    Ok(Stop::Stopped { taken: first as usize, reason: REASONS[second as usize - 1], at: third as usize })
}

/// A place for a person: its line, and its character in that line, both counted from 1.
#[derive(Clone, Copy, Debug, PartialEq, Eq, Hash)]
pub struct Spot {
    /// The line.
    pub line: u64,
    /// The character in it.
    pub column: u64,
}

/// The line and the character of a byte of a text. A place past the end is the end.
pub fn spot(text: impl AsRef<[u8]>, at: usize) -> Spot {
    let [line, column] = calls::spot(text.as_ref(), at as u64);
    Spot { line, column }
}

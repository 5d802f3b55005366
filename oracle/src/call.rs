//! A call of 01 with what it is given, the lent buffer apart.

use crate::judge::{self, Outcome};
#[cfg(feature = "linked")]
use crate::pairs;
use crate::pairs::Asked;
use crate::sound::sound;
use crate::stop;
use std::fmt;

/// `from_text` tells whether a block came of reading a text, and of edits and restating after that, if any. A pair is two put-ins into
/// one block, in either order. A spot is asked for behind whole characters.
#[derive(Clone, PartialEq, Eq)]
pub enum Call {
    Measure { text: Vec<u8> },
    Fill { text: Vec<u8> },
    Write { block: Vec<u8> },
    WriteAs { block: Vec<u8>, mode: u64 },
    PutIn { block: Vec<u8>, line: u64, text: Vec<u8>, from_text: bool },
    Cut { block: Vec<u8>, line: u64, from_text: bool },
    Restate { block: Vec<u8>, from_text: bool },
    Position { block: Vec<u8>, line: u64, entry: u64 },
    Pair { block: Vec<u8>, one: Asked, other: Asked },
    Comment { block: Vec<u8>, k: u64 },
    Key { block: Vec<u8>, k: u64 },
    Value { block: Vec<u8>, k: u64 },
    Lines { block: Vec<u8> },
    Line { block: Vec<u8>, k: u64 },
    Parent { block: Vec<u8>, k: u64 },
    Entry { block: Vec<u8>, line: u64, entry: u64 },
    Sound { block: Vec<u8> },
    Stop { text: Vec<u8> },
    Spot { text: Vec<u8>, at: u64 },
}

impl Call {
    /// What the judge says. A look-up gives its part by offset and length, `sound` its answer in place of a number, a spot
    /// its line and column behind a 0.
    pub fn judged(&self) -> Outcome {
        match self {
            Call::Measure { text } => judge::measure(text),
            Call::Fill { text } => judge::fill(text),
            Call::Write { block } => judge::write(block),
            Call::WriteAs { block, mode } => judge::write_as(block, *mode),
            Call::PutIn { block, line, text, .. } => judge::put_in(block, *line, text),
            Call::Cut { block, line, .. } => judge::cut(block, *line),
            Call::Restate { block, .. } => judge::restate(block),
            Call::Position { block, line, entry } => judge::position(block, *line, *entry),
            Call::Pair { block, one, .. } => judge::put_in(block, one.0, &one.1),
            Call::Comment { block, k } => Outcome::Answered(judge::comment(block, *k).0),
            Call::Key { block, k } => Outcome::Answered(judge::key(block, *k).0),
            Call::Value { block, k } => Outcome::Answered(judge::value(block, *k).0),
            Call::Lines { block } => Outcome::Answered(judge::lines(block)),
            Call::Line { block, k } => Outcome::Answered(judge::line(block, *k)),
            Call::Parent { block, k } => Outcome::Answered(judge::parent(block, *k)),
            Call::Entry { block, line, entry } => Outcome::Answered(judge::entry(block, *line, *entry)),
            Call::Sound { block } => Outcome::Answered(judge::answer(sound(block).into(), 0, 0)),
            Call::Stop { text } => Outcome::Answered(judge::long_answer(stop::stop(text))),
            Call::Spot { text, at } => {
                let (line, column) = stop::spot(text, *at);
                Outcome::Answered(judge::answer(0, line, column))
            }
        }
    }

    /// The calls that are made, each with what the judge says: this one, that of measuring behind filling, or those of both orders.
    #[cfg(feature = "linked")]
    pub fn steps(&self) -> Vec<(Call, Outcome)> {
        match self {
            Call::Pair { block, one, other } => {
                [pairs::in_order(block, one, other), pairs::in_order(block, other, one)].concat()
            }
            Call::Fill { text } => {
                let measure = Call::Measure { text: text.clone() };
                vec![(self.clone(), self.judged()), (measure.clone(), measure.judged())]
            }
            _ => vec![(self.clone(), self.judged())],
        }
    }

    /// The block that the call is given, if it is given one.
    pub fn block(&self) -> Option<&[u8]> {
        match self {
            Call::Write { block } | Call::WriteAs { block, .. } | Call::PutIn { block, .. } => Some(block),
            Call::Cut { block, .. } | Call::Restate { block, .. } | Call::Position { block, .. } => Some(block),
            Call::Pair { block, .. } | Call::Comment { block, .. } | Call::Key { block, .. } => Some(block),
            Call::Value { block, .. } | Call::Lines { block } | Call::Line { block, .. } => Some(block),
            Call::Parent { block, .. } | Call::Entry { block, .. } | Call::Sound { block } => Some(block),
            Call::Measure { .. } | Call::Fill { .. } | Call::Stop { .. } | Call::Spot { .. } => None,
        }
    }

    /// The text that the call is given, if any that can be made shorter.
    pub fn text_mut(&mut self) -> Option<&mut Vec<u8>> {
        match self {
            Call::Measure { text } | Call::Fill { text } | Call::PutIn { text, .. } | Call::Stop { text } => Some(text),
            _ => None,
        }
    }
}

impl fmt::Display for Call {
    fn fmt(&self, f: &mut fmt::Formatter) -> fmt::Result {
        match self {
            Call::Measure { text } => write!(f, "measure {}", Quoted(text)),
            Call::Fill { text } => write!(f, "fill {}", Quoted(text)),
            Call::Write { block } => write!(f, "write {}", Hex(block)),
            Call::WriteAs { block, mode } => write!(f, "write_as {} {mode}", Hex(block)),
            Call::PutIn { block, line, text, .. } => write!(f, "put_in {} {line} {}", Hex(block), Quoted(text)),
            Call::Cut { block, line, .. } => write!(f, "cut {} {line}", Hex(block)),
            Call::Restate { block, .. } => write!(f, "restate {}", Hex(block)),
            Call::Position { block, line, entry } => write!(f, "position {} {line} {entry}", Hex(block)),
            Call::Pair { block, one, other } => {
                write!(f, "put_in {} {} {} and {} {}", Hex(block), one.0, Quoted(&one.1), other.0, Quoted(&other.1))
            }
            Call::Comment { block, k } => write!(f, "comment {} {k}", Hex(block)),
            Call::Key { block, k } => write!(f, "key {} {k}", Hex(block)),
            Call::Value { block, k } => write!(f, "value {} {k}", Hex(block)),
            Call::Lines { block } => write!(f, "lines {}", Hex(block)),
            Call::Line { block, k } => write!(f, "line {} {k}", Hex(block)),
            Call::Parent { block, k } => write!(f, "parent {} {k}", Hex(block)),
            Call::Entry { block, line, entry } => write!(f, "entry {} {line} {entry}", Hex(block)),
            Call::Sound { block } => write!(f, "sound {}", Hex(block)),
            Call::Stop { text } => write!(f, "stop {}", Quoted(text)),
            Call::Spot { text, at } => write!(f, "spot {} {at}", Quoted(text)),
        }
    }
}

/// More than this is not shown; the seed makes it again.
const SHOWN: usize = 2_000;

struct Quoted<'a>(&'a [u8]);

impl fmt::Display for Quoted<'_> {
    fn fmt(&self, f: &mut fmt::Formatter) -> fmt::Result {
        match std::str::from_utf8(self.0) {
            _ if self.0.len() > SHOWN => write!(f, "<{} bytes>", self.0.len()),
            Ok(text) => write!(f, "{text:?}"),
            Err(_) => write!(f, "b\"{}\"", self.0.escape_ascii()),
        }
    }
}

struct Hex<'a>(&'a [u8]);

impl fmt::Display for Hex<'_> {
    fn fmt(&self, f: &mut fmt::Formatter) -> fmt::Result {
        if self.0.len() > SHOWN {
            return write!(f, "<{} bytes>", self.0.len());
        }
        self.0.iter().try_for_each(|byte| write!(f, "{byte:02x}"))
    }
}

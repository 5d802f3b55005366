//! Shogi records in the KIF format: read, looked up, edited and written by libkif, a library whose every function is proved to do what its contract
//! says. This crate makes values of its calls; it has no dependency and keeps nothing between calls.
//!
//! ```
//! use kif::{Mode, Record};
//!
//! let text = "手合割：平手\n手数--\n   1 ７六歩(77)\n*Opens the bishop's diagonal.\n   2 ３四歩(33)\n";
//! let record = Record::read(text)?.record;
//! let main = record.line(0).unwrap();
//! assert_eq!(main.entries().len(), 3);
//! assert_eq!(main.entry(1).unwrap().comments().collect::<Vec<_>>(), ["Opens the bishop's diagonal."]);
//!
//! let (record, line) = record.put_in(0, "   2 ８四歩(83)\n")?;
//! assert_eq!(record.line(line).unwrap().start(), 2);
//! assert!(record.write(Mode::Shared)?.text.contains("変化：2手\n   2 ８四歩(83)\n"));
//! # Ok::<(), kif::Error>(())
//! ```
//!
//! It links `libkif.a`, which `oracle/compile-proved kif native` at the project's root proves and builds in `target/native`; `KIF_LIBRARY` names
//! another folder. Then `cargo test --offline` is all. No call takes more than 600,000 bytes of the stack.
//!
//! A text has at most 65,535 bytes of UTF-8, and so has a record as a block. Where a line cannot be read, reading stops, and nothing behind it
//! is taken: compare [`Reading::taken`] with the text's length, and ask [`stop`] for the reason.
#![deny(missing_docs, unsafe_code, clippy::undocumented_unsafe_blocks)]

mod calls;
mod entries;
mod error;
mod pieces;
mod record;
mod stops;

pub use entries::{Clock, Move, Origin, Promote, Special, Target, Time, What};
pub use error::Error;
pub use pieces::{Kind, Piece, Position, Preset, Side, Square, Start};
pub use record::{measure, Entry, Line, Measured, Mode, Reading, Record, Written};
pub use stops::{spot, stop, Astray, Reason, Spot, Stop};

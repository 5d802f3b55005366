//! A fixed sample of requests with the original's answers, for a program that replays them without Rust.
//!
//! A record is its kind (one byte), the request's and the answer's length (u32 each), request and answer. Every number
//! in a request or an answer is a u64. All integers are little-endian.

mod edits;
mod leaves;
mod lines;
mod reads;
mod remarks;
mod slices;
mod spellings;
mod stops;
mod writes;

use crate::judge::Outcome;
use crate::rng::Rng;
use nom::error::VerboseError;
use nom::IResult;
use std::{fs, io};

const SEED: u64 = 1;
/// What a lent buffer holds before.
const UNTOUCHED: u8 = 165;

/// The kind whose answers tell how many times are lost.
const READS: u8 = b'r';

/// A kind's letter, what it is, and its recorder.
type Recorder = (u8, &'static str, fn(&mut Sample));

const RECORDERS: [Recorder; 20] = [
    (b'u', "UTF-8: bytes; count of well-formed ones from the start", leaves::utf8),
    (b't', "blanks, padding, tail, break: which, place, text; found, place after", leaves::steps),
    (b'd', "digits: largest, place, text; 0 none 1 value 2 too large, value, place after", leaves::digits),
    (b'n', "kinds, specials, presets, sides: table, place, text; found, number, place after", spellings::names),
    (b'z', "kanji digit, full-width digit: which, place, text; found, value, place after", spellings::numerals),
    (b'h', "hand count: place, text; found, count, place after", spellings::counts),
    (b'w', "kind in a move, special, preset, kind on the board: table, number; as written", spellings::spellings),
    (b'c', "hand count: number; as written", spellings::written_counts),
    (b'f', "{}, {:2}, {:02}, {:4}: form, value, buffer's length; the text if it fits", leaves::decimals),
    (b's', "sound: a slice; 1 if it is just a sound block", slices::soundness),
    (b'l', "look-ups: which, k, slice; number, two figures, the part", slices::look_ups),
    (b'm', "move lines: place, text; found, ply, place after, the entry's 20 bytes", lines::move_lines),
    (b'k', "comments: place, text; found, its text's first place and the one after it, place after", remarks::comments),
    (b'x', "skip lines: place, text; found, place after", remarks::skips),
    (b'g', "measures: text; number, two figures", reads::measures),
    (READS, "reads: buffer's length, text; number, two figures, lost, buffer (165 in each byte before)", reads::fills),
    (b'b', "writes: buffer's length, mode, slice; number, two figures, the buffer (165 in each byte before)", writes::writes),
    (b'p', "put-ins: buffer's length, line, block's length, block, text; as of writes", edits::put_ins),
    (b'o', "cuts: buffer's length, line, block's length, block; as of writes", edits::cuts),
    (b'q', "stops: text; number, six figures", stops::stops),
];

/// Writes the sample to this file, and beside it how it was made.
pub fn record(file: &str) -> io::Result<()> {
    let mut sample = Sample { kind: 0, bytes: vec![], count: 0, r: Rng::new(SEED) };
    let mut about = format!("Made by: oracle/run record FILE (its seed is {SEED}).\nKind, records, request; answer:\n");
    for (kind, what, recorder) in RECORDERS {
        let before = sample.count;
        sample.kind = kind;
        recorder(&mut sample);
        about += &format!("{} {:5}  {what}\n", char::from(kind), sample.count - before);
    }
    fs::write(file, &sample.bytes)?;
    fs::write(format!("{file}.txt"), about)?;
    println!("{} records, {} bytes", sample.count, sample.bytes.len());
    Ok(())
}

/// The records so far.
struct Sample {
    kind: u8,
    bytes: Vec<u8>,
    count: usize,
    r: Rng,
}

impl Sample {
    fn add(&mut self, request: &[u8], answer: &[u8]) {
        self.bytes.push(self.kind);
        self.bytes.extend((request.len() as u32).to_le_bytes());
        self.bytes.extend((answer.len() as u32).to_le_bytes());
        self.bytes.extend(request);
        self.bytes.extend(answer);
        self.count += 1;
    }

    /// A parser at a place of a text: what is asked, place and text; `answer` makes the numbers of what it finds.
    fn add_at(&mut self, asked: &[u64], place: u64, text: &str, answer: impl Fn(&str) -> Vec<u64>) {
        self.add(&[numbers(asked), numbers(&[place]), text.into()].concat(), &numbers(&answer(rest_at(place, text))));
    }

    /// What a call came to, with a buffer of this length lent: the length and what it was given; its answer and what
    /// became of the buffer.
    fn add_lent(&mut self, room: usize, given: &[u8], outcome: &Outcome) {
        let mut out = vec![UNTOUCHED; room];
        let answer = outcome.deliver(&mut out);
        let figures = [answer.number, answer.first, answer.second, answer.lost];
        let told = if self.kind == READS { 4 } else { 3 };
        self.add(&[&numbers(&[room as u64])[..], given].concat(), &[numbers(&figures[..told]), out].concat());
    }

    /// The same with no buffer, one that is short by a byte, one that is just long enough, and a longer one.
    fn add_lent_all(&mut self, given: &[u8], outcome: &Outcome) {
        let needed = outcome.needed().unwrap_or(20);
        for room in [0, needed.saturating_sub(1), needed, needed + 9] {
            self.add_lent(room, given, outcome);
        }
    }

    /// The same with one buffer, mostly one that is long enough.
    fn add_lent_once(&mut self, given: &[u8], outcome: &Outcome) {
        let needed = outcome.needed().unwrap_or(5);
        let others = [needed - 1, needed + 1, needed + 5, 7];
        let room = *others.get(self.r.below(12)).unwrap_or(&needed);
        self.add_lent(room, given, outcome);
    }
}

/// What a text has from a place on: past its end, nothing.
fn rest_at(place: u64, text: &str) -> &str {
    usize::try_from(place).ok().and_then(|place| text.get(place..)).unwrap_or_default()
}

fn numbers(numbers: &[u64]) -> Vec<u8> {
    numbers.iter().flat_map(|number| number.to_le_bytes()).collect()
}

/// Every place of a text where a character begins, its end, and places past it.
fn places(text: &str) -> Vec<u64> {
    let within = text.char_indices().map(|(at, _)| at as u64);
    within.chain([text.len() as u64, text.len() as u64 + 1, u64::MAX]).collect()
}

/// Found, the value, and the place after; three times 0 if nothing is found.
fn found<T>(read: IResult<&str, T, VerboseError<&str>>, length: usize, value: impl Fn(T) -> u64) -> Vec<u64> {
    read.map_or(vec![0, 0, 0], |(rest, read)| vec![1, value(read), (length - rest.len()) as u64])
}

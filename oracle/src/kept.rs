//! Which records come back as they were when they are written and read back, and how many did.   (02, vi and xi)

use crate::judge::Outcome;
use crate::left::{colours_follow, left};
use crate::reasons::MANY;
use crate::record::{decode, Entry, Record, What, LIMIT};
use crate::texts::{PRESETS, SIDES};
use crate::trees::has_two;
use crate::whole::Mode;

/// What becomes of a record that is written; of several reasons to pass it over the first counts. One of which a written entry has two
/// is read back with other parents.
#[derive(Clone, Copy, Debug, PartialEq, Eq)]
pub enum Fate {
    Refused,
    TooLong,
    Strayed,
    ByHand,
    Nested,
    Back,
}

/// What a mode writes of a record: but for the plain one's losses, all of it.
pub fn kept(record: Record, mode: Mode) -> Record {
    match mode {
        Mode::Plain => left(&record),
        Mode::Whole | Mode::Shared => record,
    }
}

/// The fate of a block's record, by what was written of it in a mode.
pub fn fate(block: &[u8], mode: Mode, written: &Outcome) -> Fate {
    let Outcome::Made { result: text, .. } = written else {
        return Fate::Refused;
    };
    let record = decode(block).expect("what was written was a record");
    match record {
        _ if text.len() > LIMIT => Fate::TooLong,
        _ if !colours_follow(&record) => Fate::Strayed,
        _ if !is_covered(&record) => Fate::ByHand,
        _ if has_two(&kept(record, mode).rows()) => Fate::Nested,
        _ => Fate::Back,
    }
}

/// What 02 asks of a record made by hand; a reader gives no other.
pub fn is_covered(record: &Record) -> bool {
    record.entries().all(has_read_origin)
        && record.entries().all(has_read_special)
        && !record.header.iter().any(|(key, value)| is_other_line(key, value))
        && !record.header.iter().any(|(key, _)| key.is_empty() || key.contains('：'))
        && !texts(record).any(|text| text.contains(['\r', '\n']))
}

/// An origin that the reader can give: it always gives one, and it splits a number up to 255 into tens and ones.
fn has_read_origin(entry: &Entry) -> bool {
    let What::Move(m) = &entry.what else {
        return true;
    };
    m.from.is_some_and(|(tens, ones)| ones <= 9 && 10 * u32::from(tens) + u32::from(ones) <= 255)
}

/// A special that the reader can give, by its number in the Rust's order.
fn has_read_special(entry: &Entry) -> bool {
    !matches!(entry.what, What::Special(5 | 6 | 9 | 10 | 12 | 13))
}

/// Whether a header line would be read as a preset, hand or `#` line. As a turn it never is, since it has a ：.
fn is_other_line(key: &str, value: &str) -> bool {
    is_preset_line(key, value) || is_hand_line(key) || key.starts_with('#')
}

/// A preset's name with padding after it; another value makes no preset line.
fn is_preset_line(key: &str, value: &str) -> bool {
    key == "手合割" && PRESETS.contains(&value.trim_end_matches([' ', '　']))
}

/// Whatever its value: one that cannot be read is refusal 3.
fn is_hand_line(key: &str) -> bool {
    key.strip_suffix("の持駒").is_some_and(|side| SIDES.contains(&side))
}

/// Keys, values and comments.
fn texts(record: &Record) -> impl Iterator<Item = &String> {
    record.header.iter().flat_map(|(key, value)| [key, value]).chain(record.comments())
}

/// How many records were read back, and how many were passed over.
#[derive(Clone, Copy, Default)]
pub struct Counts {
    back: u64,
    nested: u64,
    refused: u64,
    too_long: u64,
    strayed: u64,
    by_hand: u64,
}

impl Counts {
    pub fn add(&mut self, fate: Fate) {
        let count = match fate {
            Fate::Back => &mut self.back,
            Fate::Nested => &mut self.nested,
            Fate::Refused => &mut self.refused,
            Fate::TooLong => &mut self.too_long,
            Fate::Strayed => &mut self.strayed,
            Fate::ByHand => &mut self.by_hand,
        };
        *count += 1;
    }

    fn asked(&self) -> u64 {
        self.back + self.nested + self.refused + self.too_long + self.strayed + self.by_hand
    }

    /// Nothing if none was written.
    fn print(&self, of: &str, mode: usize) {
        let Counts { back, nested, refused, too_long, strayed, by_hand } = self;
        if self.asked() > 0 {
            println!(
                "{of:9} in mode {mode} {back:7} read back, and {nested} of which an entry has two; passed over: {refused} \
                 refused, {too_long} too long, {strayed} with a colour that does not follow its ply, {by_hand} with what no reader gives"
            );
        }
    }
}

/// In each mode, the records of texts that were read, those that edits made of them, those that were restated and perhaps edited then,
/// and those of blocks that were only written.
#[derive(Clone, Copy, Default)]
pub struct Tally {
    pub texts: [Counts; 3],
    pub edits: [Counts; 3],
    pub restated: [Counts; 3],
    pub blocks: [Counts; 3],
}

impl Tally {
    /// Prints all; answers in a run of many cases in how many modes nothing came back that was restated, or nothing of which an entry has
    /// two. Where nothing was restated there is nothing to ask.
    pub fn report(&self, cases: u64) -> u64 {
        let rows = [self.texts, self.edits, self.restated, self.blocks];
        for (of, modes) in ["of texts", "of edits", "restated", "of blocks"].iter().zip(rows) {
            modes.iter().enumerate().for_each(|(mode, counts)| counts.print(of, mode));
        }
        let asked: Vec<_> = self.restated.iter().filter(|counts| counts.asked() > 0).collect();
        let missing = asked.iter().filter(|counts| cases >= MANY && counts.back.min(counts.nested) == 0).count();
        if missing > 0 {
            println!("in {missing} modes nothing came back that was restated, or nothing of which an entry has two");
        }
        missing as u64
    }
}

//! A record, its lines and entries.

use crate::calls;
use crate::entries::{self, Time, What};
use crate::error::{checked, Error};
use crate::pieces::{Position, Start};
use std::{fmt, str};

/// A record: a sound block (docs/BLOCK.md). It is a value; an edit makes another one.
#[derive(Clone, PartialEq, Eq, Hash)]
pub struct Record {
    block: Vec<u8>,
}

/// What reading a text gives.
#[derive(Clone, Debug, PartialEq, Eq)]
pub struct Reading {
    /// The record.
    pub record: Record,
    /// How many bytes of the text were taken; of what is left [`stop`](crate::stop) tells the reason.
    pub taken: usize,
    /// How many moves have no time because a figure in it is over 255.
    pub lost: usize,
}

/// How long a block is needed for a text, and how many bytes of the text are taken.
#[derive(Clone, Copy, Debug, PartialEq, Eq)]
pub struct Measured {
    /// The block's length.
    pub block: usize,
    /// How many bytes are taken.
    pub taken: usize,
}

/// What writing a record gives.
#[derive(Clone, Debug, PartialEq, Eq)]
pub struct Written {
    /// The text.
    pub text: String,
    /// How many lines are left out, which only [`Mode::Plain`] does.
    pub left_out: usize,
}

/// How a record is written.
#[derive(Clone, Copy, Debug, PartialEq, Eq, Hash)]
pub enum Mode {
    /// As shogi-kifu-converter writes it, which loses 不成, the hour of what a move took and variations at ply 0.
    Plain,
    /// Losing nothing.
    Whole,
    /// Losing nothing, and with a drop as other programs read it.
    Shared,
}

/// Measures a text without reading it into a block.
///
/// # Errors
/// [`Error::TextTooLong`], [`Error::NotUtf8`], [`Error::HandLine`], [`Error::BlockTooLong`].
pub fn measure(text: impl AsRef<[u8]>) -> Result<Measured, Error> {
    let [number, first, second] = calls::measure(text.as_ref());
    checked(number, first, second)?;
    Ok(Measured { block: first as usize, taken: second as usize })
}

/// The result of a call and its second figure. The call is first lent nothing, to tell how long its result is.
fn made(call: impl Fn(&mut [u8]) -> [u64; 3]) -> Result<(Vec<u8>, usize), Error> {
    let mut out = vec![];
    let mut numbers = call(&mut out);
    if let [5, length, _] = numbers {
        out = vec![0; length as usize];
        numbers = call(&mut out);
    }
    let [number, first, second] = numbers;
    checked(number, first, second)?;
    Ok((out, second as usize))
}

impl Record {
    /// Reads a KIF text in UTF-8.
    ///
    /// ```
    /// let text = "先手：A\n   1 ７六歩(77)\n";
    /// let reading = kif::Record::read(text)?;
    /// assert_eq!(reading.taken, text.len());
    /// assert_eq!(reading.record.headers().collect::<Vec<_>>(), [("先手", "A")]);
    /// # Ok::<(), kif::Error>(())
    /// ```
    ///
    /// # Errors
    /// Those of [`measure`], and [`Error::NoEntry`].
    pub fn read(text: impl AsRef<[u8]>) -> Result<Reading, Error> {
        let text = text.as_ref();
        let mut block = vec![0; measure(text)?.block];
        let [number, first, second, lost] = calls::fill(text, &mut block);
        checked(number, first, second)?;
        Ok(Reading { record: Record { block }, taken: first as usize, lost: lost as usize })
    }

    /// The record of a block that was stored.
    ///
    /// # Errors
    /// [`Error::NotSound`].
    pub fn from_block(block: impl Into<Vec<u8>>) -> Result<Record, Error> {
        let block = block.into();
        match calls::sound(&block) {
            true => Ok(Record { block }),
            false => Err(Error::NotSound),
        }
    }

    /// The block, at most 65,535 bytes, to be stored.
    pub fn block(&self) -> &[u8] {
        &self.block
    }

    /// 1, as reading gives it, or 2, as [`restate`](Record::restate) does: then a move may have several variations.
    pub fn version(&self) -> u8 {
        self.block[2]
    }

    /// The header entries, keys and values, by the bytes of their keys.
    pub fn headers(&self) -> impl ExactSizeIterator<Item = (&str, &str)> {
        (0..self.number(6)).map(|k| (self.text(self.number(14) + 8 * k), self.text(self.number(14) + 8 * k + 4)))
    }

    /// The value of a key.
    pub fn header(&self, key: &str) -> Option<&str> {
        self.headers().find(|(other, _)| *other == key).map(|(_, value)| value)
    }

    /// Where it starts.
    pub fn start(&self) -> Start {
        Start::of(&self.block[28..128])
    }

    /// The lines of play, the main line first, in the order in which they are written.
    pub fn lines(&self) -> impl ExactSizeIterator<Item = Line<'_>> {
        (0..self.number(8)).map(|number| Line { record: self, number })
    }

    /// A line by its number.
    pub fn line(&self, number: usize) -> Option<Line<'_>> {
        (number < self.number(8)).then_some(Line { record: self, number })
    }

    /// The position after an entry of a line; entry 0 of line 0 is the start.
    ///
    /// ```
    /// use kif::{Kind, Piece, Record, Side, Square};
    ///
    /// let record = Record::read("手数--\n   1 ７六歩(77)\n")?.record;
    /// let position = record.position(0, 1)?;
    /// let pawn = Piece { side: Side::Black, kind: Kind::Pawn };
    /// assert_eq!(position.piece(Square { file: 7, rank: 6 }), Some(pawn));
    /// assert_eq!(position.turn, Side::White);
    /// # Ok::<(), kif::Error>(())
    /// ```
    ///
    /// # Errors
    /// [`Error::NoSuchPart`], [`Error::NoStart`], [`Error::NoSuchEntry`], [`Error::PlayStopped`].
    pub fn position(&self, line: usize, entry: usize) -> Result<Position, Error> {
        let (bytes, _) = made(|out| calls::position(&self.block, line as u64, entry as u64, out))?;
        Ok(Position::of(&bytes))
    }

    /// Puts the one variation that a text holds into a line, at the number on its first move: the new record, and the number of the new line.
    ///
    /// # Errors
    /// [`Error::NoSuchPart`], [`Error::NotOneVariation`], [`Error::OutsideLine`], [`Error::EntryTaken`], [`Error::BlockTooLong`].
    pub fn put_in(&self, line: usize, text: impl AsRef<[u8]>) -> Result<(Record, usize), Error> {
        let (block, place) = made(|out| calls::put_in(&self.block, line as u64, text.as_ref(), out))?;
        Ok((Record { block }, place))
    }

    /// Cuts a line from 1 on out, with all that hangs from it: the new record, and how many lines are gone.
    ///
    /// ```
    /// use kif::Record;
    ///
    /// let record = Record::read("手数--\n   1 ７六歩(77)\n   2 ３四歩(33)\n")?.record;
    /// let (edited, line) = record.put_in(0, "   2 ８四歩(83)\n")?;
    /// assert_eq!(edited.cut(line)?, (record, 1));
    /// # Ok::<(), kif::Error>(())
    /// ```
    ///
    /// # Errors
    /// [`Error::NoSuchPart`].
    pub fn cut(&self, line: usize) -> Result<(Record, usize), Error> {
        let (block, removed) = made(|out| calls::cut(&self.block, line as u64, out))?;
        Ok((Record { block }, removed))
    }

    /// The same as version 2, in which a move may have several variations.
    ///
    /// # Errors
    /// [`Error::NotSound`] where it is of version 2 already.
    pub fn restate(&self) -> Result<Record, Error> {
        let (block, _) = made(|out| calls::restate(&self.block, out))?;
        Ok(Record { block })
    }

    /// Writes it as a KIF text.
    ///
    /// # Errors
    /// [`Error::HandCount`], [`Error::CannotWrite`]; of the modes that lose nothing also [`Error::StartsAtZero`].
    pub fn write(&self, mode: Mode) -> Result<Written, Error> {
        let (text, left_out) = made(|out| calls::write_as(&self.block, mode as u64, out))?;
        Ok(Written { text: String::from_utf8(text).expect("what is written is UTF-8"), left_out })
    }

    /// The number of two bytes at a place of the block.
    fn number(&self, at: usize) -> usize {
        usize::from(u16::from_le_bytes([self.block[at], self.block[at + 1]]))
    }

    /// The text whose offset and length stand at a place of the block.
    fn text(&self, row: usize) -> &str {
        let start = self.number(22) + self.number(row);
        str::from_utf8(&self.block[start..start + self.number(row + 2)]).expect("each text of a sound block is UTF-8")
    }
}

impl fmt::Debug for Record {
    fn fmt(&self, f: &mut fmt::Formatter<'_>) -> fmt::Result {
        f.debug_struct("Record").field("headers", &self.headers().len()).field("lines", &self.lines().len()).finish()
    }
}

/// A line of play of a record.
#[derive(Clone, Copy, Debug, PartialEq, Eq)]
pub struct Line<'a> {
    record: &'a Record,
    number: usize,
}

impl<'a> Line<'a> {
    /// Its number among the lines, 0 for the main line.
    pub fn number(self) -> usize {
        self.number
    }

    /// The ply of its first entry. Line 0 starts at 0, with the slot.
    pub fn start(self) -> usize {
        self.field(0)
    }

    /// The line that it hangs on; none for line 0.
    pub fn parent(self) -> Option<Line<'a>> {
        (self.number > 0).then(|| Line { number: self.field(6), ..self })
    }

    /// Its entries.
    pub fn entries(self) -> impl ExactSizeIterator<Item = Entry<'a>> {
        let first = self.field(2);
        (first..first + self.field(4)).map(move |row| Entry { record: self.record, row })
    }

    /// An entry of it, counted from 0.
    pub fn entry(self, number: usize) -> Option<Entry<'a>> {
        self.entries().nth(number)
    }

    /// The number at a place of its row.
    fn field(self, at: usize) -> usize {
        self.record.number(self.record.number(16) + 8 * self.number + at)
    }
}

/// An entry of a line: a move or what ends the line, its time and its comments.
#[derive(Clone, Copy, Debug, PartialEq, Eq)]
pub struct Entry<'a> {
    record: &'a Record,
    row: usize,
}

impl<'a> Entry<'a> {
    /// What it is.
    pub fn what(self) -> What {
        entries::what(self.bytes())
    }

    /// Its time, if it has one.
    pub fn time(self) -> Option<Time> {
        entries::time(self.bytes())
    }

    /// Its comments.
    pub fn comments(self) -> impl ExactSizeIterator<Item = &'a str> {
        let (record, bytes) = (self.record, self.bytes());
        let number = |at: usize| usize::from(u16::from_le_bytes([bytes[at], bytes[at + 1]]));
        (number(16)..number(16) + number(18)).map(|k| record.text(record.number(20) + 4 * k))
    }

    fn bytes(self) -> &'a [u8] {
        &self.record.block[self.record.number(18) + 20 * self.row..][..20]
    }
}

#[cfg(test)]
mod tests {
    use super::*;
    use crate::calls::looks::{self, look};

    /// Every file of the project's examples that is read, and a record of version 2 in which a move has two variations.
    fn records() -> Vec<Record> {
        let folder = concat!(env!("CARGO_MANIFEST_DIR"), "/../../examples");
        let files = std::fs::read_dir(folder).unwrap().map(|file| std::fs::read(file.unwrap().path()).unwrap());
        let mut records: Vec<_> = files.filter_map(|text| Some(Record::read(text).ok()?.record)).collect();
        let two = records.iter().find(|record| record.lines().len() > 3).unwrap().restate().unwrap();
        let start = two.line(1).unwrap().start();
        records.push(two.put_in(0, format!("{start} ９六歩(97)\n")).unwrap().0);
        records
    }

    #[test]
    fn lines_are_those_of_the_library() {
        for record in records() {
            let block = record.block();
            assert_eq!(looks::lines(block), [0, record.lines().len() as u64, 0]);
            assert!(record.line(record.lines().len()).is_none());
            for line in record.lines() {
                let parent = line.parent().map_or(0, Line::number) as u64;
                let (start, entries) = (line.start() as u64, line.entries().len() as u64);
                assert_eq!(look(looks::kif_line, block, line.number()), [0, start, entries]);
                assert_eq!(look(looks::kif_parent, block, line.number()), [0, parent, 0]);
            }
        }
    }

    #[test]
    fn entries_are_those_of_the_library() {
        for record in records() {
            for line in record.lines() {
                for (number, entry) in line.entries().enumerate() {
                    let [told, at, length] = looks::entry(record.block(), line.number(), number);
                    assert_eq!((told, length), (0, 20));
                    assert_eq!(record.block()[at as usize..][..20], *entry.bytes());
                }
                assert!(line.entry(line.entries().len()).is_none());
            }
        }
    }

    #[test]
    fn texts_are_those_of_the_library() {
        let text_at = |record: &Record, [number, at, length]: [u64; 3]| {
            assert_eq!(number, 0);
            str::from_utf8(&record.block()[at as usize..][..length as usize]).unwrap().to_string()
        };
        for record in records() {
            for (k, (key, value)) in record.headers().enumerate() {
                assert_eq!(text_at(&record, look(looks::kif_key, record.block(), k)), key);
                assert_eq!(text_at(&record, look(looks::kif_value, record.block(), k)), value);
                assert_eq!(record.header(key), Some(value));
            }
            let entries = record.lines().flat_map(Line::entries);
            for (k, comment) in entries.flat_map(Entry::comments).enumerate() {
                assert_eq!(text_at(&record, look(looks::kif_comment, record.block(), k)), comment);
            }
        }
    }
}

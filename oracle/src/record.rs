//! The record that a block holds, and its bytes.   (01, The block)

use crate::attach;
use crate::trees::{written, Row};
use std::str;

/// The most bytes that a text or a block may have.
pub const LIMIT: usize = 65_535;

#[derive(Clone, Debug, PartialEq, Eq)]
pub struct Record {
    /// 1, or 2 where parents are a free choice (02, vi).
    pub version: usize,
    /// Keys and values, keys ascending by bytes.
    pub header: Vec<(String, String)>,
    pub position: Position,
    pub lines: Vec<Line>,
}

#[derive(Clone, Debug, PartialEq, Eq)]
pub struct Position {
    pub preset: u8,
    pub diagram: Option<Diagram>,
}

#[derive(Clone, Debug, PartialEq, Eq)]
pub struct Diagram {
    pub turn: u8,
    pub cells: [u8; 81],
    pub hands: [u8; 14],
}

#[derive(Clone, Debug, PartialEq, Eq)]
pub struct Line {
    pub start: u64,
    pub parent: usize,
    pub entries: Vec<Entry>,
}

#[derive(Clone, Debug, PartialEq, Eq)]
pub struct Entry {
    pub what: What,
    pub time: Option<Time>,
    pub comments: Vec<String>,
}

#[derive(Clone, Debug, PartialEq, Eq)]
pub enum What {
    Slot,
    Move(Move),
    Special(u8),
}

#[derive(Clone, Debug, PartialEq, Eq)]
pub struct Move {
    pub colour: u8,
    pub piece: u8,
    pub promote: u8,
    /// None is 同.
    pub to: Option<(u8, u8)>,
    pub from: Option<(u8, u8)>,
}

#[derive(Clone, Debug, PartialEq, Eq)]
pub struct Time {
    pub now: Clock,
    pub total: Clock,
}

#[derive(Clone, Debug, PartialEq, Eq)]
pub struct Clock {
    pub h: Option<u8>,
    pub m: u8,
    pub s: u8,
}

impl Record {
    pub fn entries(&self) -> impl Iterator<Item = &Entry> {
        self.lines.iter().flat_map(|line| &line.entries)
    }

    pub fn comments(&self) -> impl Iterator<Item = &String> {
        self.entries().flat_map(|entry| &entry.comments)
    }

    /// Each line's start and number of entries, all that the attaching rule looks at.
    pub fn shape(&self) -> Vec<(u64, usize)> {
        self.lines.iter().map(|line| (line.start, line.entries.len())).collect()
    }

    /// The same with the parents.
    pub fn rows(&self) -> Vec<Row> {
        let row = |line: &Line| Row { start: line.start, count: line.entries.len(), parent: line.parent };
        self.lines.iter().map(row).collect()
    }

    /// 128 + 8H + 8L + 20M + 4C + text bytes.
    pub fn length(&self) -> usize {
        let headers: usize = self.header.iter().map(|(key, value)| 8 + key.len() + value.len()).sum();
        let comments: usize = self.comments().map(|comment| 4 + comment.len()).sum();
        128 + headers + 8 * self.lines.len() + 20 * self.entries().count() + comments
    }

    /// What 01 asks of a sound block's record, its bytes apart.
    pub fn is_well_formed(&self) -> bool {
        self.is_well_formed_in_parts() && self.hangs_well()
    }

    /// The same but for where its lines hang.
    pub fn is_well_formed_in_parts(&self) -> bool {
        self.header.windows(2).all(|pair| pair[0].0 < pair[1].0)
            && self.position.is_well_formed()
            && self.entries().all(Entry::is_well_formed)
            && self.lines.iter().all(|line| !line.entries.is_empty())
            && self.entries().enumerate().all(|(at, entry)| (at == 0) == (entry.what == What::Slot))
            && self.lines.first().is_some_and(|line| line.start == 0 && line.parent == 0)
    }

    /// By the attaching rule, or so that the Rust writes the lines in the order in which they stand.
    fn hangs_well(&self) -> bool {
        let parents: Vec<_> = self.lines.iter().map(|line| line.parent).collect();
        match self.version {
            1 => attach::parents(&self.shape()) == Ok(parents),
            2 => written(&self.rows()).is_some_and(|order| order.into_iter().eq(0..self.lines.len())),
            _ => false,
        }
    }
}

impl Position {
    fn is_well_formed(&self) -> bool {
        let Some(diagram) = &self.diagram else {
            return self.preset <= 16;
        };
        let is_cell = |&cell: &u8| cell <= 14 || (17..=30).contains(&cell);
        self.preset == 16 && diagram.turn <= 1 && diagram.cells.iter().all(is_cell)
    }
}

impl Entry {
    fn is_well_formed(&self) -> bool {
        match &self.what {
            What::Slot => self.time.is_none(),
            What::Move(m) => m.colour <= 1 && (1..=14).contains(&m.piece) && m.promote <= 2,
            What::Special(number) => *number <= 13,
        }
    }
}

/// The bytes of a record's block.
pub fn encode(record: &Record) -> Vec<u8> {
    let [mut header, mut lines, mut entries, mut comments, mut text] = [const { Vec::new() }; 5];
    for (key, value) in &record.header {
        put_text(&mut header, &mut text, key);
        put_text(&mut header, &mut text, value);
    }
    for line in &record.lines {
        put(&mut lines, &[line.start as usize, entries.len() / 20, line.entries.len(), line.parent]);
        for entry in &line.entries {
            let first = if entry.comments.is_empty() { 0 } else { comments.len() / 4 };
            entries.extend(entry_bytes(entry));
            put(&mut entries, &[first, entry.comments.len()]);
            entry.comments.iter().for_each(|comment| put_text(&mut comments, &mut text, comment));
        }
    }
    let mut block = b"KB".to_vec();
    let counts = [header.len() / 8, lines.len() / 8, entries.len() / 20, comments.len() / 4];
    put(&mut block, &[record.version, record.length()]);
    put(&mut block, &counts);
    put(&mut block, &offsets(counts));
    block.extend([0; 4]);
    block.extend(position_bytes(&record.position));
    [block, header, lines, entries, comments, text].concat()
}

/// Where the five parts begin: header table, lines, moves, comments, text.
pub fn offsets([headers, lines, entries, comments]: [usize; 4]) -> [usize; 5] {
    let lines_at = 128 + 8 * headers;
    let entries_at = lines_at + 8 * lines;
    let comments_at = entries_at + 20 * entries;
    [128, lines_at, entries_at, comments_at, comments_at + 4 * comments]
}

fn put(table: &mut Vec<u8>, fields: &[usize]) {
    fields.iter().for_each(|&field| table.extend((field as u16).to_le_bytes()));
}

/// A text's offset and length into its table, the text itself behind those before it.
fn put_text(table: &mut Vec<u8>, text: &mut Vec<u8>, added: &str) {
    put(table, &[text.len(), added.len()]);
    text.extend(added.as_bytes());
}

/// The hundred bytes of a position.
pub fn position_bytes(position: &Position) -> [u8; 100] {
    let mut bytes = [0; 100];
    bytes[0] = position.preset;
    if let Some(diagram) = &position.diagram {
        bytes[1] = 1;
        bytes[2] = diagram.turn;
        bytes[4..85].copy_from_slice(&diagram.cells);
        bytes[85..99].copy_from_slice(&diagram.hands);
    }
    bytes
}

/// The sixteen bytes of an entry before its comments.
pub fn entry_bytes(entry: &Entry) -> [u8; 16] {
    let mut bytes = [0; 16];
    match &entry.what {
        What::Slot => {}
        What::Move(m) => {
            let (to, from) = (m.to.unwrap_or((0, 0)), m.from.unwrap_or((0, 0)));
            bytes[..8].copy_from_slice(&[1, m.colour, m.piece, m.promote, to.0, to.1, from.0, from.1]);
            bytes[8] = u8::from(m.from.is_some()) + 2 * u8::from(m.to.is_none());
        }
        What::Special(number) => bytes[..2].copy_from_slice(&[2, *number]),
    }
    if let Some(Time { now, total }) = &entry.time {
        bytes[8] += 4 + 8 * u8::from(now.h.is_some()) + 16 * u8::from(total.h.is_some());
        bytes[9..12].copy_from_slice(&[now.h.unwrap_or(0), now.m, now.s]);
        bytes[12..15].copy_from_slice(&[total.h.unwrap_or(0), total.m, total.s]);
    }
    bytes
}

/// The little-endian number at a place.
pub fn u16_at(block: &[u8], at: usize) -> Option<usize> {
    let bytes = block.get(at..at + 2)?;
    Some(usize::from(u16::from_le_bytes([bytes[0], bytes[1]])))
}

/// The record of a block, read by counts and lengths alone; none where a part is missing, an entry is of no sort or a
/// text is not UTF-8. A block is sound exactly if it has a record, well formed, whose encoding it is.
pub fn decode(block: &[u8]) -> Option<Record> {
    let counts = [u16_at(block, 6)?, u16_at(block, 8)?, u16_at(block, 10)?, u16_at(block, 12)?];
    let [header_at, lines_at, entries_at, comments_at, text_at] = offsets(counts);
    let mut texts = Texts { block, at: text_at };
    let header = (0..counts[0])
        .map(|k| Some((texts.next(header_at + 8 * k)?, texts.next(header_at + 8 * k + 4)?)))
        .collect::<Option<_>>()?;
    let mut comments = (0..counts[3]).map(|k| texts.next(comments_at + 4 * k)).collect::<Option<Vec<_>>>()?.into_iter();
    let mut entries = (0..counts[2])
        .map(|k| decode_entry(block.get(entries_at + 20 * k..entries_at + 20 * k + 20)?, &mut comments))
        .collect::<Option<Vec<_>>>()?
        .into_iter();
    let lines = (0..counts[1])
        .map(|k| {
            let field = |n: usize| u16_at(block, lines_at + 8 * k + 2 * n);
            let (start, parent) = (field(0)? as u64, field(3)?);
            Some(Line { start, parent, entries: entries.by_ref().take(field(2)?).collect() })
        })
        .collect::<Option<_>>()?;
    let position = decode_position(block.get(28..128)?);
    Some(Record { version: u16_at(block, 2)?, header, position, lines })
}

/// The text part, taken text by text.
struct Texts<'a> {
    block: &'a [u8],
    at: usize,
}

impl Texts<'_> {
    /// The next text, as long as the table's entry at this place says.
    fn next(&mut self, entry: usize) -> Option<String> {
        let length = u16_at(self.block, entry + 2)?;
        let bytes = self.block.get(self.at..self.at + length)?;
        self.at += length;
        str::from_utf8(bytes).ok().map(String::from)
    }
}

fn decode_position(bytes: &[u8]) -> Position {
    let diagram = (bytes[1] != 0).then(|| Diagram {
        turn: bytes[2],
        cells: bytes[4..85].try_into().unwrap(),
        hands: bytes[85..99].try_into().unwrap(),
    });
    Position { preset: bytes[0], diagram }
}

fn decode_entry(bytes: &[u8], comments: &mut impl Iterator<Item = String>) -> Option<Entry> {
    let marked = |mark: u8| bytes[8] & mark != 0;
    let clock =
        |at: usize, hour: u8| Clock { h: marked(hour).then_some(bytes[at]), m: bytes[at + 1], s: bytes[at + 2] };
    let what = match bytes[0] {
        0 => What::Slot,
        1 => What::Move(Move {
            colour: bytes[1],
            piece: bytes[2],
            promote: bytes[3],
            to: (!marked(2)).then_some((bytes[4], bytes[5])),
            from: marked(1).then_some((bytes[6], bytes[7])),
        }),
        2 => What::Special(bytes[1]),
        _ => return None,
    };
    let time = marked(4).then(|| Time { now: clock(9, 8), total: clock(12, 16) });
    Some(Entry { what, time, comments: comments.take(u16_at(bytes, 18)?).collect() })
}

//! Whether a slice is a sound block, sentence by sentence over its bytes.   (01, The block)

use crate::record::{offsets, u16_at, LIMIT};
use crate::trees::{hang, Row};
use std::{ops::Range, str};

pub fn sound(block: &[u8]) -> bool {
    (128..=LIMIT).contains(&block.len()) && Parts::of(block).is_some_and(|parts| parts.sound())
}

/// A block whose head is right, so that every table lies within it.
struct Parts<'a> {
    block: &'a [u8],
    version: usize,
    counts: [usize; 4],
    offsets: [usize; 5],
}

impl<'a> Parts<'a> {
    fn of(block: &'a [u8]) -> Option<Self> {
        let fields: Vec<_> = (0..14).filter_map(|k| u16_at(block, 2 * k)).collect();
        let counts: [usize; 4] = fields[3..7].try_into().unwrap();
        let offsets = offsets(counts);
        let right = block.starts_with(b"KB")
            && [1, 2].contains(&fields[1])
            && fields[2] == block.len()
            && fields[7..12] == offsets
            && fields[12..] == [0, 0]
            && offsets[4] <= block.len();
        right.then_some(Parts { block, version: fields[1], counts, offsets })
    }

    fn sound(&self) -> bool {
        position(&self.block[28..128]) && self.texts() && self.keys() && self.entries() && self.lines()
    }

    fn field(&self, at: usize) -> usize {
        u16_at(self.block, at).unwrap()
    }

    /// Where the offset and length of each text stand: keys and values in turn, then comments.
    fn text_fields(&self) -> impl Iterator<Item = usize> + '_ {
        let [headers, _, _, comments] = self.counts;
        let headers = (0..2 * headers).map(|k| self.offsets[0] + 4 * k);
        headers.chain((0..comments).map(|k| self.offsets[3] + 4 * k))
    }

    /// All texts follow one another without gaps to the block's end, each valid UTF-8.
    fn texts(&self) -> bool {
        let mut end = 0;
        for at in self.text_fields() {
            let (start, length) = (self.field(at), self.field(at + 2));
            let bytes = self.block.get(self.offsets[4] + end..self.offsets[4] + end + length);
            if start != end || !bytes.is_some_and(|bytes| str::from_utf8(bytes).is_ok()) {
                return false;
            }
            end += length;
        }
        self.offsets[4] + end == self.block.len()
    }

    /// Keys ascending by bytes, distinct.
    fn keys(&self) -> bool {
        let key = |k: usize| {
            let at = self.offsets[0] + 8 * k;
            let start = self.offsets[4] + self.field(at);
            &self.block[start..start + self.field(at + 2)]
        };
        (1..self.counts[0]).all(|k| key(k - 1) < key(k))
    }

    /// Each entry right in itself, a slot first and nowhere else, the entries' comments one after another without gaps.
    fn entries(&self) -> bool {
        let mut comments = 0;
        for k in 0..self.counts[2] {
            let at = self.offsets[2] + 20 * k;
            let (first, count) = (self.field(at + 16), self.field(at + 18));
            let first_is_right = first == if count == 0 { 0 } else { comments };
            if (k == 0) != (self.block[at] == 0) || !entry(&self.block[at..at + 16]) || !first_is_right {
                return false;
            }
            comments += count;
        }
        comments == self.counts[3]
    }

    /// At least line 0; no line empty, their entries one after another without gaps; starts and parents by the version's rule.
    fn lines(&self) -> bool {
        let (mut entries, mut rows) = (0, Vec::new());
        for k in 0..self.counts[1] {
            let [start, first, count, parent] = [0, 2, 4, 6].map(|n| self.field(self.offsets[1] + 8 * k + n));
            if first != entries || count == 0 {
                return false;
            }
            entries += count;
            rows.push(Row { start: start as u64, count, parent });
        }
        entries == self.counts[2] && hang(self.version, &rows)
    }
}

fn zero(bytes: &[u8], unused: Range<usize>) -> bool {
    bytes[unused].iter().all(|&byte| byte == 0)
}

/// The hundred bytes of the position.
fn position(bytes: &[u8]) -> bool {
    let values = bytes[0] <= 16 && bytes[2] <= 1 && bytes[3] == 0 && bytes[99] == 0;
    let cells = bytes[4..85].iter().all(|&cell| matches!(cell, 0..=14 | 17..=30));
    let by_flag = match bytes[1] {
        0 => zero(bytes, 2..99),
        1 => bytes[0] == 16,
        _ => false,
    };
    values && cells && by_flag
}

/// The sixteen bytes of an entry before its comments.
fn entry(bytes: &[u8]) -> bool {
    let marks = bytes[8];
    let by_sort = match bytes[0] {
        0 => zero(bytes, 1..16),
        1 => bytes[1] <= 1 && (1..=14).contains(&bytes[2]) && bytes[3] <= 2 && marks <= 31,
        2 => bytes[1] <= 13 && zero(bytes, 2..8) && marks & !(4 + 8 + 16) == 0,
        _ => false,
    };
    let unless = |mark: u8, unused| marks & mark != 0 || zero(bytes, unused);
    let squares = unless(1, 6..8) && (marks & 2 == 0 || zero(bytes, 4..6));
    let times = unless(4, 9..15) && unless(8, 9..10) && unless(16, 12..13) && (marks & 4 != 0 || marks & 24 == 0);
    by_sort && squares && times && bytes[15] == 0
}

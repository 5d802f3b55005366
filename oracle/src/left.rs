//! What is left of a record that is written and read back.   (01, Writing, and what is lost)

use crate::attach;
use crate::judge;
use crate::record::{Line, Record, What};

/// The record without the first variation with start 0 and all lines after it, without now hours and 不成, and with an
/// hour of 0 in each total that had none.
pub fn left(record: &Record) -> Record {
    let mut left = record.clone();
    left.lines.truncate(judge::written_lines(record));
    for entry in left.lines.iter_mut().flat_map(|line| &mut line.entries) {
        if let What::Move(m) = &mut entry.what {
            m.promote = if m.promote == 1 { 0 } else { m.promote };
        }
        if let Some(time) = &mut entry.time {
            time.now.h = None;
            time.total.h = time.total.h.or(Some(0));
        }
    }
    left
}

/// The record that is read again of a text with all of this one's lines: "Reading text still nests and gives version 1" (02, vi).
pub fn read_again(record: &Record) -> Record {
    let parents = attach::parents(&record.shape()).expect("each line that was written hangs on an entry");
    let nested = |(line, parent): (&Line, usize)| Line { parent, ..line.clone() };
    let lines = record.lines.iter().zip(parents).map(nested).collect();
    Record { version: 1, lines, ..record.clone() }
}

/// Whether in every line each move's colour follows its ply: Black has the odd ones.
pub fn colours_follow(record: &Record) -> bool {
    record.lines.iter().all(|line| {
        let mut plies = line.entries.iter().zip(line.start..);
        plies.all(|(entry, ply)| match &entry.what {
            What::Move(m) => m.colour == u8::from(ply % 2 == 0),
            _ => true,
        })
    })
}

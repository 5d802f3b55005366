//! Texts and blocks of the project's examples, damaged byte by byte: whatever is taken can be walked through, and nothing panics.

use kif::{spot, stop, Mode, Record, Stop};
use std::fs;

fn examples() -> Vec<Vec<u8>> {
    let folder = concat!(env!("CARGO_MANIFEST_DIR"), "/../../examples");
    fs::read_dir(folder).unwrap().map(|file| fs::read(file.unwrap().path()).unwrap()).collect()
}

/// The bytes without one, with one twice, with one changed in two ways, and cut off, at every place.
fn damaged(bytes: &[u8]) -> impl Iterator<Item = Vec<u8>> + '_ {
    (0..bytes.len()).flat_map(move |at| {
        let (before, after) = (&bytes[..at], &bytes[at + 1..]);
        let with = |middle: &[u8]| [before, middle, after].concat();
        let byte = bytes[at];
        [with(&[]), with(&[byte, byte]), with(&[byte ^ 1]), with(&[byte.wrapping_add(16)]), before.to_vec()]
    })
}

/// All that a record says, and all that can be made of it.
fn walk(record: &Record) {
    record.headers().for_each(|(key, value)| assert_eq!(record.header(key), Some(value)));
    record.start();
    for line in record.lines() {
        assert!(line.parent().is_none_or(|parent| parent.number() < line.number() && parent.start() <= line.start()));
        for (number, entry) in line.entries().enumerate() {
            let _ = (entry.what(), entry.time(), entry.comments().count(), record.position(line.number(), number));
        }
        let _ = record.cut(line.number());
    }
    for mode in [Mode::Plain, Mode::Whole, Mode::Shared] {
        let _ = record.write(mode);
    }
    let _ = record.restate();
}

#[test]
fn texts() {
    for text in examples().iter().flat_map(|text| damaged(text)) {
        if let Ok(Stop::Stopped { taken, at, .. }) = stop(&text) {
            assert!(taken <= at && at <= text.len() && spot(&text, at).line > 0);
        }
        if let Ok(reading) = Record::read(&text) {
            assert!(reading.taken <= text.len());
            walk(&reading.record);
        }
    }
}

#[test]
fn blocks() {
    for text in examples() {
        let Ok(reading) = Record::read(text) else { continue };
        let sound = damaged(reading.record.block()).filter_map(|block| Record::from_block(block).ok());
        assert!(sound.inspect(walk).count() > 0);
    }
}

//! Texts of up to 65,535 bytes that ask as much of a reader as a text can.

use super::block;
use crate::record::LIMIT;

/// Each text with its name.
pub fn texts() -> Vec<(&'static str, String)> {
    vec![
        ("10,922 keys of two bytes, descending", descending_keys(10_922)),
        ("6,537 such keys, which a block can hold", descending_keys(6_537)),
        ("13,107 lines of one key", "a：\n".repeat(13_107)),
        ("long keys that differ in their last byte", long_keys()),
        ("one comment", filled("手数\n*", "x", "\n")),
        ("16,000 empty comments", format!("手数\n{}", "*\n".repeat(16_000))),
        ("32,000 skip lines and no variation", format!("手数\n1同歩打\n{}", "x\n".repeat(32_000))),
        ("32,000 skip lines before a variation", format!("手数\n1同歩打\n{}1投了\n", "x\n".repeat(32_000))),
        ("32,767 # lines and no information line", filled("", "#\n", "")),
        ("2,333 variations, each on the one before", deep(2_333)),
        ("6,551 variations, too many for a block", deep(6_551)),
        ("1,359 variations, all on the main line", wide_after_deep(0, 1_359)),
        ("687 variations deep, then 959 wide", wide_after_deep(687, 959)),
        ("3,268 moves, which a block can hold", format!("手数\n{}", "1同歩打(0:0/0:0)\n".repeat(3_268))),
        ("moves with times that cannot be read", filled("手数\n", "1同歩打(1:2:3/1:2:256)\n", "")),
        ("a ply of 65,000 zeros", format!("手数\n{}1同歩打\n", "0".repeat(65_000))),
        ("a hand line of padding", filled("先手の持駒：歩", "　", "\n")),
        ("a line without break", filled("手数\n1同歩打", "x", "")),
        ("unknown presets", filled("", "手合割：左六枚落ち\n", "")),
    ]
}

/// What reading makes of those that give a long block.
pub fn blocks() -> Vec<(&'static str, Vec<u8>)> {
    let long = |(name, text): (_, String)| Some((name, block(&text).filter(|block| block.len() > LIMIT / 2)?));
    texts().into_iter().filter_map(long).collect()
}

/// A text of as many bytes as a text may have, or a few fewer: the middle as often as there is room.
fn filled(before: &str, middle: &str, after: &str) -> String {
    let times = (LIMIT - before.len() - after.len()) / middle.len();
    [before, &middle.repeat(times), after].concat()
}

/// Distinct keys of two ASCII bytes that may stand in a key, the highest first.
fn descending_keys(count: usize) -> String {
    let may_stand = |byte: &u8| ![b'\n', b'\r', b'#'].contains(byte);
    let bytes: Vec<char> = (0..128u8).rev().filter(may_stand).map(char::from).collect();
    let keys = bytes.iter().flat_map(|first| bytes.iter().map(move |second| format!("{first}{second}：\n")));
    keys.take(count).collect()
}

/// 64 keys of a thousand bytes each.
fn long_keys() -> String {
    (0..64u8).rev().map(|k| format!("{}{}：\n", "k".repeat(1_000), char::from(b'0' + k))).collect()
}

/// A main line of one move, and variations that all start there.
fn deep(variations: usize) -> String {
    format!("手数\n1投了\n{}", "x\n1投了\n".repeat(variations))
}

/// Variations on one another, and then one at every ply from the last to the first, which passes all lines before it
/// to find line 0.
fn wide_after_deep(deep: usize, wide: usize) -> String {
    let main: String = (1..=wide + 1).map(|ply| format!("{ply}投了\n")).collect();
    let deep = format!("x\n{}投了\n", wide + 1).repeat(deep);
    let wide: String = (1..=wide).rev().map(|ply| format!("x\n{ply}投了\n")).collect();
    format!("手数\n{main}{deep}{wide}")
}

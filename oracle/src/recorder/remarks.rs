//! Comments and skip lines, at every place of the same texts.

use super::{places, Sample};
use crate::original::parser::kakinoki;

/// Breaks and their halves; what begins a comment, a skip line or neither, and its neighbours in UTF-8.
const TEXTS: [&str; 58] = [
    "", "*", "&", "x", "\n", "\r", "*\n", "&\r\n", "*c\n", "&c\r\n", "*&c\n", "&*c\n", "**\n", "*歩🀄\n", "*c", "*c\r",
    "*c\rd\n", "*\r\r\n", "&\r", " *c\n", "\t&c\n", "x*c\n", "*c\n*d\n", "&c\n\n", "#c\n", "：x\n", "\r\n", "\rx\n",
    "\r\r\n", "\n\n", "\nx\n", "\n\rx\n", "\nx\r\ny\n", "\n*c\n", "xy\r\n", "x\r", "x\ry\n", "変化：2手\n", "まで\n",
    "▲\n", "△x\n", "▱\n", "▴\n", "▽x\n", "◲\n", "╲\n", "㖲\n", "０\n", " x\n", "　\n", "\t1同歩打\n", "1同歩打\n",
    "|\n", "+\n", "\u{feff}\n", "\0\n", "🀄\n", "é\u{85}\n",
];

fn at_every_place(mut at: impl FnMut(u64, &str)) {
    let signs: Vec<_> = (' '..'A').map(|sign| format!("{sign}c\n")).collect();
    for text in TEXTS.into_iter().chain(signs.iter().map(String::as_str)) {
        places(text).into_iter().for_each(|place| at(place, text));
    }
}

pub(super) fn comments(sample: &mut Sample) {
    at_every_place(|place, text| sample.add_at(&[], place, text, |rest| comment(place, rest)));
}

/// Found, where the text begins and ends, and the place after the line.
fn comment(place: u64, input: &str) -> Vec<u64> {
    kakinoki::read_comment_line(input).map_or(vec![0; 4], |(rest, comment)| {
        let start = place + u64::from(input.starts_with('*'));
        vec![1, start, start + comment.len() as u64, place + (input.len() - rest.len()) as u64]
    })
}

pub(super) fn skips(sample: &mut Sample) {
    at_every_place(|place, text| sample.add_at(&[], place, text, |rest| skip(place, rest)));
}

/// Found and the place after.
fn skip(place: u64, input: &str) -> Vec<u64> {
    kakinoki::read_skip_line(input).map_or(vec![0; 2], |(rest, _)| vec![1, place + (input.len() - rest.len()) as u64])
}

//! Whether reading really gets as far as a stop tells, and no further: asked of the original, without any word of failing.

use crate::original::parser::kakinoki::read_head;
use crate::original::parser::kif::read_lines;

/// What was sought, by reason from 1, and enough after it to be taken: a whole line, or one from the part that was not there.
const SOUGHT: [&[&str]; 8] = [
    &["1同歩打\n"],
    &["1同歩打\n", "1)\n"],
    &["同歩打\n", "一歩打\n"],
    &["歩打\n"],
    &["打\n", "1)\n", ")\n"],
    &["\n1同歩打\n"],
    &["1同歩打\n"],
    &["1同歩打\n"],
];
/// So many characters past the place are looked at.
const PAST: usize = 6;

/// The text up to the place is taken whole with what was sought behind it; up to a later place it is not, whatever stands behind it.
pub fn confirm(text: &str, place: usize, reason: u64) {
    assert!(is_completed(&text[..place], SOUGHT[reason as usize - 1]), "what was sought is not read at {place}");
    for (at, character) in text[place..].char_indices().take(PAST) {
        let end = place + at + character.len_utf8();
        let gets_there = SOUGHT.iter().any(|sought| is_completed(&text[..end], sought));
        assert!(!gets_there || is_apart(&text[place..end], reason), "reading gets as far as {end}");
    }
}

/// What is completed all the same: a number too large cut short, the CR of a break, a key and value, for which 02 has no reason.
fn is_apart(piece: &str, reason: u64) -> bool {
    reason == 2 || piece == "\r" || piece.contains('：')
}

/// Whether the original takes all of a text that has one of these behind it.
fn is_completed(text: &str, sought: &[&str]) -> bool {
    sought.iter().any(|sought| {
        let whole = [text, sought].concat();
        let is_taken = |lines| read_lines(lines).is_ok_and(|(rest, _)| rest.is_empty());
        read_head(&whole).is_ok_and(|(lines, _)| is_taken(lines))
    })
}

//! How many move lines lost a time to a figure over 255.   (02, iv)

use crate::jkf::MoveFormat;
use crate::original::parser::kif::{read_move_lines, read_up_to_time};

/// How many lost one in these lines of play, each as it stands in the text, which have so many move lines in all.
pub fn lost(plays: &[&str], moves: usize) -> u64 {
    let lines = |play| read_move_lines(play).expect("no move line at all is read too").1;
    let lines: Vec<_> = plays.iter().flat_map(|play| lines(play)).collect();
    assert_eq!(lines.len(), moves, "these are not the move lines that were taken");
    lines.iter().filter(|(line, entry)| is_lost(line, entry)).count() as u64
}

/// Whether a taken move line, of which the original made this entry, has no time because of such a figure.
fn is_lost(line: &str, entry: &MoveFormat) -> bool {
    let (from_time, _) = read_up_to_time(line).expect("a taken line has a number and a move");
    let met = time(from_time);
    assert_eq!(matches!(met, Met::Read(_)), entry.time.is_some(), "the original reads the time otherwise: {line:?}");
    entry.time.is_none() && matches!(met, Met::TooLarge)
}

/// What a rule comes to in a text.
enum Met<'a> {
    /// It is read, and this is left.
    Read(&'a str),
    /// A figure over 255 stands where the rule seeks one, whatever follows it.
    TooLarge,
    /// The rule fails before it comes to such a figure.
    Failed,
}

impl<'a> Met<'a> {
    /// The next rule, where all before it was read.
    fn then(self, rule: impl FnOnce(&'a str) -> Met<'a>) -> Met<'a> {
        match self {
            Met::Read(rest) => rule(rest),
            failed => failed,
        }
    }
}

fn time(text: &str) -> Met<'_> {
    mark('(')(text).then(clock).then(mark('/')).then(clock).then(mark(')'))
}

/// Either form with blanks around it; too large where one of the two met such a figure, though the other be read.
fn clock(text: &str) -> Met<'_> {
    let text = past_blanks(text);
    match [with_hour(text), without_hour(text)] {
        [Met::TooLarge, _] | [_, Met::TooLarge] => Met::TooLarge,
        [Met::Read(rest), _] | [_, Met::Read(rest)] => Met::Read(past_blanks(rest)),
        _ => Met::Failed,
    }
}

fn with_hour(text: &str) -> Met<'_> {
    figure(text).then(mark(':')).then(without_hour)
}

fn without_hour(text: &str) -> Met<'_> {
    figure(text).then(mark(':')).then(figure)
}

fn past_blanks(text: &str) -> &str {
    text.trim_start_matches([' ', '\t'])
}

fn mark<'a>(mark: char) -> impl Fn(&'a str) -> Met<'a> {
    move |text| text.strip_prefix(mark).map_or(Met::Failed, Met::Read)
}

/// Any number of digits, zeros before the others among them.
fn figure(text: &str) -> Met<'_> {
    let rest = text.trim_start_matches(|character: char| character.is_ascii_digit());
    let digits = &text[..text.len() - rest.len()];
    let counting = digits.trim_start_matches('0');
    match counting.len() {
        _ if digits.is_empty() => Met::Failed,
        3 if counting > "255" => Met::TooLarge,
        0..=3 => Met::Read(rest),
        _ => Met::TooLarge,
    }
}

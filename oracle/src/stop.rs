//! Where reading stopped, and why: each rule that is tried and fails is written down, and the furthest tells.   (02, ii)

use crate::attach;
use crate::judge::{self, Taken};
use crate::texts::{FILES, KINDS, RANKS, SPECIALS};
use nom::Offset;
use std::str;

/// Why a rule failed, by 02's list, numbered from 1.
#[derive(Clone, Copy)]
enum Reason {
    NoNumber = 1,
    TooLarge,
    NoPlace,
    NoKind,
    NoOrigin,
    NoBreak,
    CommentHere,
    EndOfText,
}
use Reason::*;

/// The number and the six figures. Nothing is stored, so 4 and 5 are not given, and 6 shows where reading answers 4.
pub fn stop(text: &[u8]) -> [u64; 7] {
    let taken = match judge::taken(text) {
        Ok(taken) => taken,
        Err(refusal) => return [refusal.number, refusal.first, 0, 0, 0, 0, 0],
    };
    let stopped = stopped(str::from_utf8(text).expect("refusal 2 let it pass"), &taken);
    match taken.parents {
        Err((variation, ply)) => astray(text, &taken, variation, ply),
        Ok(_) => stopped,
    }
}

/// Line and column of a place: the LFs before it, and the characters since the last of them, each and one more.
pub fn spot(text: &[u8], at: u64) -> (u64, u64) {
    let before = str::from_utf8(&text[..at as usize]).expect("whole characters stand before the place");
    let since = before.rsplit('\n').next().unwrap_or_default();
    (1 + before.matches('\n').count() as u64, 1 + since.chars().count() as u64)
}

/// The variation with no entry to hang on: its ply, the line chosen as parent, that line's plies, and its first move line.
fn astray(text: &[u8], taken: &Taken, variation: u64, ply: u64) -> [u64; 7] {
    let lines = taken.record.shape();
    let parent = attach::parent(&lines[..variation as usize], ply);
    let (first, entries) = lines[parent];
    let at = text.offset(taken.plays[variation as usize].as_bytes());
    [6, variation, ply, parent as u64, first, first + entries as u64 - 1, at as u64]
}

/// The first byte not taken, and reason and place of the failure that got furthest.
fn stopped(text: &str, taken: &Taken) -> [u64; 7] {
    let mut log = Log { text, failures: vec![] };
    assert_eq!(log.walk(taken.head), taken.bytes, "the original takes another part of the text");
    let (place, reason) = log.furthest();
    [0, taken.bytes as u64, reason as u64, place as u64, 0, 0, 0]
}

/// What failed so far, in the order tried: the place of the part that was sought, and the reason.
struct Log<'a> {
    text: &'a str,
    failures: Vec<(usize, Reason)>,
}

/// A rule answers the place after what it takes; where it takes nothing, the log tells why, if 02 has a reason for it.
type Rule<'a> = fn(&mut Log<'a>, usize) -> Option<usize>;

impl<'a> Log<'a> {
    /// All lines after the head, in 01's order; answers how far the text is taken.
    fn walk(&mut self, head: usize) -> usize {
        let at = self.at_most_one(Self::skip_line, head);
        let at = self.any(Self::comment, at);
        let at = self.at_most_one(Self::line_of_play, at);
        self.any(Self::variation, at)
    }

    /// The furthest failure: of equals the first tried, which is the last from behind.
    fn furthest(&self) -> (usize, Reason) {
        *self.failures.iter().rev().max_by_key(|failure| failure.0).expect("the last variation sought is not there")
    }

    fn fails<T>(&mut self, place: usize, reason: Reason) -> Option<T> {
        self.failures.push((place, reason));
        None
    }

    fn at_most_one(&mut self, rule: Rule<'a>, at: usize) -> usize {
        rule(self, at).unwrap_or(at)
    }

    fn any(&mut self, rule: Rule<'a>, mut at: usize) -> usize {
        while let Some(next) = rule(self, at) {
            at = next;
        }
        at
    }

    fn variation(&mut self, at: usize) -> Option<usize> {
        let at = self.any(Self::skip_line, at);
        self.line_of_play(at)
    }

    fn line_of_play(&mut self, at: usize) -> Option<usize> {
        let at = self.move_with_comments(at)?;
        let at = self.any(Self::move_with_comments, at);
        Some(self.at_most_one(Self::skip_line, at))
    }

    fn move_with_comments(&mut self, at: usize) -> Option<usize> {
        let at = self.move_line(at)?;
        Some(self.any(Self::comment, at))
    }

    /// 02 has no reason for a line that begins otherwise: a move line or a skip line is sought there too.
    fn comment(&mut self, at: usize) -> Option<usize> {
        match self.text[at..].chars().next() {
            None => self.fails(at, EndOfText),
            Some('*' | '&') => self.line_end(at + 1),
            Some(_) => None,
        }
    }

    /// 02 has no reason for a line that begins as move lines do: one is sought there too.
    fn skip_line(&mut self, at: usize) -> Option<usize> {
        let first = self.no_comment(at)?;
        if " 0123456789▲△".contains(first) {
            return None;
        }
        self.line_end(at + first.len_utf8())
    }

    fn move_line(&mut self, at: usize) -> Option<usize> {
        self.no_comment(at)?;
        let at = self.past_blanks(at);
        let at = self.number(u64::MAX, NoNumber, at)?;
        let at = self.past_blanks(at);
        let at = self.word(&SPECIALS, NoPlace, at).or_else(|| self.play(at))?;
        self.line_end(at)
    }

    /// The character that a line begins with, where a line other than a comment is sought.
    fn no_comment(&mut self, at: usize) -> Option<char> {
        match self.text[at..].chars().next() {
            None => self.fails(at, EndOfText),
            Some('*') => self.fails(at, CommentHere),
            first => first,
        }
    }

    fn play(&mut self, at: usize) -> Option<usize> {
        let at = self.same(at).or_else(|| self.square(at))?;
        let at = self.word(&KINDS, NoKind, at)?;
        let at = self.past_word("成", at).or_else(|| self.past_word("不成", at)).unwrap_or(at);
        self.word(&["打"], NoOrigin, at).or_else(|| self.origin(at))
    }

    fn same(&mut self, at: usize) -> Option<usize> {
        let at = self.word(&["同"], NoPlace, at)?;
        self.past_word("　", at).or(Some(at))
    }

    fn square(&mut self, at: usize) -> Option<usize> {
        let at = self.word(&FILES, NoPlace, at)?;
        self.word(&RANKS, NoPlace, at)
    }

    fn origin(&mut self, at: usize) -> Option<usize> {
        let at = self.word(&["("], NoOrigin, at)?;
        let at = self.number(255, NoOrigin, at)?;
        self.word(&[")"], NoOrigin, at)
    }

    /// Tail and break; a time is not looked for, since the tail ends at the same byte without it.
    fn line_end(&mut self, at: usize) -> Option<usize> {
        let rest = &self.text[at..];
        let tail = rest.find(['\r', '\n']).unwrap_or(rest.len());
        self.word(&["\n", "\r\n"], NoBreak, at + tail)
    }

    /// Digits of a number up to the largest; a number too large stands at its first digit.
    fn number(&mut self, largest: u64, absent: Reason, at: usize) -> Option<usize> {
        let rest = self.text[at..].trim_start_matches(|character: char| character.is_ascii_digit());
        let end = self.text.len() - rest.len();
        match self.text[at..end].parse::<u64>() {
            _ if end == at => self.fails(at, absent),
            Ok(number) if number <= largest => Some(end),
            _ => self.fails(at, TooLarge),
        }
    }

    /// One of these words; half of one is no way gone.
    fn word(&mut self, words: &[&str], absent: Reason, at: usize) -> Option<usize> {
        let found = words.iter().find_map(|word| self.past_word(word, at));
        found.or_else(|| self.fails(at, absent))
    }

    fn past_word(&self, word: &str, at: usize) -> Option<usize> {
        self.text[at..].starts_with(word).then_some(at + word.len())
    }

    fn past_blanks(&self, at: usize) -> usize {
        self.text.len() - self.text[at..].trim_start_matches([' ', '\t']).len()
    }
}

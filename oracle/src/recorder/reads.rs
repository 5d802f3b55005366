//! Whole texts, measured, and read into a lent buffer.

use super::{numbers, Sample};
use crate::judge::{self, Outcome};
use crate::short::{short, SHORT};
use crate::texts;
use crate::times;

/// The most bytes of a drawn text and of its block, so that the sample stays small.
const TEXT: usize = 240;
const BLOCK: usize = 420;
/// A short text with a board has more bytes than this; fewer of them are taken.
const PLAIN: usize = 150;

/// Texts at the points where 01's words meet the original.
const KNOWN: [&str; 51] = [
    "",
    "\n",
    "\r",
    "x",
    "x\r\n",
    "\n*c\n1同歩打\n",
    "\r\n*c\r\n1同歩打\r\n",
    "\rx\n",
    "\r\r\n",
    "\n\rx\n",
    "手数\n1同歩打\rx\n",
    "手数\n0000000000000000000000000001同歩打\n",
    "手数\n18446744073709551615同歩打\n",
    "手数\n18446744073709551616同歩打\n",
    "手数\n1同歩打\nx\n18446744073709551615同歩打\n",
    "手数\n1同歩打\nx\n65537同歩打\n",
    "手数\n1同歩(255)\n2同歩(256)\n",
    "手数\n1同　歩打\n2同 歩打\n",
    "手数\n1 ７六成香成(77)(0:1/0:2)\n",
    "手数\n1同歩打(1:2:300/0:0)\n2同歩打(255:255:255/0:0)\n",
    "#c\n先手の持駒：x\n",
    "a：b\n先手の持駒：なし",
    "先手の持駒：なし\n先手の持駒：　歩\n",
    "先手の持駒：玉\n",
    "後手の持駒：歩九十九歩九十九歩五十七\n",
    "後手の持駒：歩九十九歩九十九歩五十八\n",
    "手合割：香落ち　 \n手数\n",
    "手合割：香落ち\t\n手数\n",
    "手合割：その他\n",
    "手合割：詰将棋\n",
    "\u{feff}手合割：香落ち\n",
    "先手番\n先手番：x\n",
    "*foo：bar\n   1 ７六歩(77) ：\n手数：--\n",
    "b：1\na：2\nb：3\nab：\n",
    "変化：2手\n   2 ８四歩(83)\n",
    "：x\n1同歩打\n",
    "手合割：平手\n#c\n手数--\n1同歩打\n",
    "#c\n#d\na：b\n#e\n",
    "a\nb\n1同歩打\n",
    "a\nb\n0同歩打\n",
    "手数\n1同歩打\n先手：x\n2同歩打\n",
    "&b\n1同歩打\n",
    "手数\n&b\n*&b\n*\n1同歩打\n",
    "手数\n1同歩打\n変化\n*c\n1同歩打\n",
    "手数\n1同歩打\n変化\n&c\n1同歩打\n",
    "手数\n\t1同歩打\nx\n\t1同歩打\n",
    "手数\n0同歩打\n投了\n",
    "手数\n1投了\n2同歩打\nx\n1中断\nまで\n1詰み\n2千日手\n",
    "手数\n1同歩打(300:00/1:00:00)\n*(300)\n2同歩打(0:1/0:2)\nx\n2投了(0:01/0:0:300)\r\n3中断(2024/1/1)",
    "手数\n1同歩打(300)\n\t2同歩打(300)\nx\n\t2同歩打(300)\n2同歩打 (300\n",
    "手数\n1同歩打(300)\nx\n2同歩打(300)\n",
];

/// The known texts, short ones, drawn ones, and one whose block is over the limit.
pub(super) fn measures(sample: &mut Sample) {
    let short = (0..SHORT).step_by(4_871).map(short).filter(|text| says_much(text)).take(150);
    let known = KNOWN.iter().map(|text| text.as_bytes().to_vec());
    let mut texts: Vec<_> = known.chain(short).chain([too_much().into_bytes(), b"*\xff".to_vec()]).collect();
    texts.extend((0..100).map(|_| drawn(sample)));
    for text in texts {
        let answer = judge::measure(&text).answer_in(0);
        sample.add(&text, &numbers(&[answer.number, answer.first, answer.second]));
    }
}

pub(super) fn fills(sample: &mut Sample) {
    for text in KNOWN.map(str::as_bytes) {
        sample.add_lent_all(text, &judge::fill(text));
    }
    for text in timed() {
        let outcome = judge::fill(text.as_bytes());
        sample.add_lent(outcome.needed().expect("it is read"), text.as_bytes(), &outcome);
    }
    let some = (0..SHORT).step_by(487).map(short).filter(|text| says_much(text));
    let (plain, boards): (Vec<_>, Vec<_>) = some.partition(|text| text.len() <= PLAIN);
    plain
        .iter()
        .take(1_000)
        .chain(boards.iter().take(100))
        .for_each(|text| sample.add_lent_once(text, &judge::fill(text)));
    for _ in 0..900 {
        let text = drawn(sample);
        sample.add_lent_once(&text, &judge::fill(&text));
    }
    let text = too_much().into_bytes();
    sample.add_lent(9, &text, &judge::fill(&text));
}

/// Each case of a time behind a move, and behind an ending of a variation and in a line without break; and more lost
/// times than a byte can count.
fn timed() -> Vec<String> {
    let texts = times::cases().flat_map(|(time, _, _)| {
        [format!("手数\n1同歩打{time}\n"), format!("手数\n1投了\nx\n1中断 {time}\r\n2同歩打{time}")]
    });
    texts.chain([format!("手数\n{}", "1同歩打(300)\n".repeat(257))]).collect()
}

/// One that is refused, or taken at least in part.
fn says_much(text: &[u8]) -> bool {
    !matches!(judge::fill(text), Outcome::Made { answer, .. } if answer.first == 0)
}

/// A text as `texts` makes them whose record is not too long.
fn drawn(sample: &mut Sample) -> Vec<u8> {
    loop {
        let text = texts::text(&mut sample.r);
        let is_short = |outcome: Outcome| outcome.needed().unwrap_or(0) <= BLOCK;
        if text.len() <= TEXT && says_much(&text) && is_short(judge::fill(&text)) {
            return text;
        }
    }
}

/// The shortest text whose block is over the limit.
fn too_much() -> String {
    format!("手数\n1同歩打\n{}", "x\n0投了\n".repeat(2_335))
}

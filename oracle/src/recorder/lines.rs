//! Move lines.

use super::spellings::shown_special;
use super::{numbers, places, rest_at, Sample};
use crate::original::converter::{kakinoki as show, kif as show_kif};
use crate::original::parser::kif;
use crate::record::entry_bytes;
use crate::rng::Rng;
use crate::times;
use crate::translate::{entry, KINDS, SPECIALS};

/// Move lines, one part of each varied at a time, and some of them damaged.
pub(super) fn move_lines(sample: &mut Sample) {
    let mut texts: Vec<String> = [numbered(), aimed(), placed(), timed(), ended()].concat();
    texts.sort();
    texts.dedup();
    for text in &texts {
        move_line(sample, 0, text);
    }
    let [plain, special] = ["   1 ７六歩(77) ( 0:16/00:00:16)\r\n", "\t2 投了 (1:02/0:00:03) x\n"];
    for text in [plain, special] {
        places(text).iter().for_each(|&place| move_line(sample, place, text));
        every_damage(text).iter().for_each(|text| move_line(sample, 0, text));
    }
    move_line(sample, plain.len() as u64, &[plain, special, plain].concat());
    for _ in 0..120 {
        let text = damaged(&mut sample.r, &texts);
        let place = places(&text)[sample.r.below(4) / 3];
        move_line(sample, place, &text);
    }
}

fn move_line(sample: &mut Sample, place: u64, text: &str) {
    let answer = kif::read_move_line(rest_at(place, text)).map_or(numbers(&[0, 0, 0]), |(left, (ply, read))| {
        let after = (text.len() - left.len()) as u64;
        // The four bytes of its comments, of which a line has none.
        [numbers(&[1, ply as u64, after]), entry_bytes(&entry(&read)).into(), vec![0; 4]].concat()
    });
    sample.add(&[numbers(&[place]), text.into()].concat(), &answer);
}

/// A move or an ending after what may be a number.
fn numbered() -> Vec<String> {
    let plies = [
        "", "0", "1", "2", "007", "   1", "\t1", " \t 12", "　1", "1　", "１", "一", "-1", "+1", "1.", "1 2", "256",
        "9999", "18446744073709551614", "18446744073709551615", "18446744073709551616",
        "000000000000000000000000000003",
    ];
    let mut texts: Vec<_> =
        plies.iter().flat_map(|ply| [format!("{ply} ７六歩(77)\n"), format!("{ply}投了\n")]).collect();
    texts.extend(
        ["", "\n", "\r\n", "1", "1\n", "1 \n", "   1 ７六歩(77)\n   2 ３四歩(33)\n", "\n1 ７六歩(77)\n"]
            .map(String::from),
    );
    texts.extend(
        ["\u{feff}1 ７六歩(77)\n", "\r1 ７六歩(77)\n", "1\n７六歩(77)\n", "1\u{a0}７六歩(77)\n"].map(String::from),
    );
    texts
}

/// Every file and rank, 同 with its blanks, and every kind as it is written anywhere.
fn aimed() -> Vec<String> {
    let targets = [
        "", "１", "六", "１一", "２二", "３三", "４四", "５五", "６六", "７七", "８八", "９九", "０一", "１十", "１〇",
        "11", "一１", "同", "同　", "同 ", "同\t", "同　　", "同  ", "同 　", "同　 ", "同同", "同７六", "７六同",
        "７ 六", "７六 ", "７六　", "同\n",
    ];
    let mut texts: Vec<_> = targets.iter().map(|target| format!("1 {target}歩(77)\n")).collect();
    let kinds = KINDS.iter().flat_map(|&kind| [show_kif::show_move_kind(kind), show::show_board_kind(kind)]);
    let others = ["王", "竜", "成", "成歩", "成竜", "不", "", "x", "歩歩", "と成"].map(String::from);
    for kind in kinds.chain(others) {
        texts.push(format!("1 ７六{kind}(77)\n"));
        texts.push(format!("2 同　{kind}成(77)\n"));
    }
    texts
}

/// Promotions and origins.
fn placed() -> Vec<String> {
    let marks = ["", "成", "不成", "不", "成成", "不成成", "成不成", " 成", "生", "左", "直上"];
    let origins = [
        "(77)", "打", "", "()", "(7)", "(0)", "(00)", "(077)", "(99)", "(100)", "(199)", "(255)", "(256)", "(0255)",
        "(999)", "(77", "77)", "( 77)", "(77 )", "（77）", "(７７)", "(-1)", "(77)打", "打(77)", " (77)", "　打",
        "(18446744073709551616)",
    ];
    let marked = marks.iter().flat_map(|mark| ["(77)", "打", ""].map(|origin| format!("1 ７六銀{mark}{origin}\n")));
    marked.chain(origins.iter().map(|origin| format!("2 同　銀{origin}\n"))).collect()
}

/// Times after a move and after an ending.
fn timed() -> Vec<String> {
    let times = [
        "( 0:16/00:00:16)", "(0:16/0:16)", "(1:2:3/4:5)", "(1:2:3/4:5:6)", "(1:2/3:4)", "(1:2:300/0:0)", "(1:300/0:0)",
        "(300:1/0:0)", "(256:1:2/0:0)", "(1:256:2/0:0)", "(255:255:255/255:255:255)", "(1:2/3:4:256)", "(1:2/3:256)",
        "(1:2/256:4)", "(1:2/3:4:5:6)", "(1:2:3:4/5:6)", "(1:2)", "(1:2/)", "(/1:2)", "()", "(1/2)", "(1:/2:3)",
        "(:1/2:3)", "(1:2:/3:4)", "(1:2/3:4:)", "(1:2/3:4", "(1:2/3:4x)", "1:2/3:4)", "(1:2//3:4)",
        "(\t1:2 \t/ \t3:4\t )", "( 1:2 / 3:4 )", "(　1:2/3:4)", "(1 :2/3:4)", "(1: 2/3:4)", "(1:2/3: 4)",
        "(001:0002/0:0000)", "(1:2/3:4)x", "(1:2/3:4) +", "(1:2/3:4)(5:6/7:8)", "( \n1:2/3:4)", "(1:2/3:4\n)",
        "\t(1:2/3:4)", "　(1:2/3:4)", "(1:2/3:4)\r", "(1:1:256/1:1)", "(0256:1/1:1)", "(１:2/3:4)", "x(1:2/3:4)",
        "(1：2/3:4)",
    ];
    let times = times.into_iter().chain(times::cases().map(|(time, _, _)| time));
    times.flat_map(|time| [format!("1 ７六歩(77){time}\n"), format!("2 中断 {time}\r\n")]).collect()
}

/// Every ending, and what may stand between a move and the end of the text.
fn ended() -> Vec<String> {
    let ends = [
        "", "\n", "\r\n", "\r", "\r\r\n", " \n", "\t\r\n", "　\n", "x", "x\n", "x\ry\n", "x\r\ny\n", "x\r", "歩🀄\n",
        "\0\n", "\n\n", "\u{2028}\n", "\u{85}", "+\n", "*\n", "\n\r",
    ];
    let moved =
        ends.iter().flat_map(|end| ["７六歩(77)", "詰み", "同歩打(1:2/3:4)"].map(|what| format!("1 {what}{end}")));
    let specials = SPECIALS.iter().map(|&special| shown_special(special));
    let others = ["不詰", "まで", "投", "投了投了", "詰", "切れ", "入玉勝", "反則勝ち", "最善手"].map(String::from);
    let timed = |word: String| [format!("3 {word}\n"), format!("4 {word} ( 0:16/00:00:16)\n")];
    moved.chain(specials.chain(others).flat_map(timed)).collect()
}

/// A text with each of its characters dropped, and with each doubled.
pub(super) fn every_damage(text: &str) -> Vec<String> {
    let damage = |(at, character): (usize, char)| {
        let (before, after) = (&text[..at], &text[at + character.len_utf8()..]);
        [format!("{before}{after}"), format!("{before}{character}{character}{after}")]
    };
    text.char_indices().flat_map(damage).collect()
}

/// One of these texts, one or two of its characters dropped, doubled or changed.
fn damaged(r: &mut Rng, texts: &[String]) -> String {
    let others =
        [' ', '\t', '　', '\n', '\r', '(', ')', ':', '/', '0', '7', '９', '同', '歩', '成', '不', '打', '投', 'x'];
    let mut characters: Vec<char> = texts[r.below(texts.len())].chars().chain(['\n', '\n']).collect();
    for _ in 0..1 + r.below(2) {
        let at = r.below(characters.len());
        match r.below(3) {
            0 => drop(characters.remove(at)),
            1 => characters.insert(at, characters[at]),
            _ => characters[at] = others[r.below(others.len())],
        }
    }
    characters.into_iter().collect()
}

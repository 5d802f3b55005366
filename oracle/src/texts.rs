//! Texts to read: made by the grammar, damaged, round every limit.

use crate::record::LIMIT;
use crate::rng::Rng;
use crate::times;

pub const KINDS: [&str; 19] = [
    "歩", "香", "桂", "銀", "金", "角", "飛", "玉", "王", "と", "杏", "成香", "圭", "成桂", "全", "成銀", "馬", "龍",
    "竜",
];
const HAND_KINDS: [&str; 7] = ["飛", "角", "金", "銀", "桂", "香", "歩"];
pub const SPECIALS: [&str; 8] = ["投了", "中断", "千日手", "切れ負け", "反則負け", "持将棋", "入玉勝ち", "詰み"];
const OTHER_SPECIALS: [&str; 5] = ["不詰", "待った", "引き分け", "反則", "千日"];
pub const PRESETS: [&str; 17] = [
    "平手", "香落ち", "右香落ち", "角落ち", "飛車落ち", "飛香落ち", "二枚落ち", "三枚落ち", "四枚落ち", "五枚落ち",
    "左五枚落ち", "六枚落ち", "左七枚落ち", "右七枚落ち", "八枚落ち", "十枚落ち", "その他",
];
const OTHER_PRESETS: [&str; 4] = ["七枚落ち", "平", "詰将棋", ""];
pub const SIDES: [&str; 4] = ["先手", "後手", "下手", "上手"];
const COUNTS: [&str; 16] =
    ["", "", "", "一", "二", "九", "十", "一十", "十一", "二十", "九十", "九十九", "九十八", "十十", "百", "2"];
const KEYS: [&str; 20] = [
    "開始日時", "終了日時", "表題", "棋戦", "戦型", "持ち時間", "秒読み", "場所", "先手", "下手", "後手", "上手",
    "手合割", "備考", "a", "b", "*c", "\u{feff}a", "変化", " 1",
];
const WORDS: [&str; 15] =
    ["", "x", "名人", "&x", "*", "：", "#", "a：b", "　", "\t", "\0", "🀄𠮷", "(0:1/0:2)", "(300)", "手"];
pub const FILES: [&str; 9] = ["１", "２", "３", "４", "５", "６", "７", "８", "９"];
pub const RANKS: [&str; 9] = ["一", "二", "三", "四", "五", "六", "七", "八", "九"];
const SKIP_LINES: [&str; 12] = [
    "手数----指手---------消費時間--", "手数--", "", "変化：2手", "まで2手で先手の勝ち", "#c", "&b", "|x",
    "\t1 同歩打(300)", "：", "+", "先手番",
];
const LARGE_FIGURES: [&str; 8] =
    ["256", "257", "300", "1000", "65537", "00000000000000000000300", "18446744073709551617", "99999999999999999999"];
/// Of what times are made, and what comes near it.
const TIME_SPLINTERS: [&str; 16] =
    ["(", ")", "/", "/", ":", ":", " ", "\t", "0", "1", "59", "255", "256", "300", ".", "３"];
/// What may stand for each part of a move line, in their order: first as the rules have it, then as they may not.
const STOPS: [&[&str]; 8] = [
    &["\t", "\t", "\t ", "   ", "", "*", "&", "▲", "\n"],
    &["1", "2", "9", "007", "18446744073709551615", "18446744073709551616", "99999999999999999999", "", "１"],
    &[" ", " ", "", "\t", "　", "."],
    &[
        "７六", "３四", "同", "同　", "同 ", "７", "７6", "76", "７十", "投了", "千日手", "千日", "反則", "反則勝ち",
        "入玉", "切れ負", "詰", "",
    ],
    &["歩", "歩", "成香", "と", "成", "步", ""],
    &["", "", "成", "不成", "不", "生", "右"],
    &[
        "(77)", "打", "", "(", "()", "(77", "(255)", "(256)", "(256", "(７７)", "（77）", "(18446744073709551616)",
        " (77)",
    ],
    &["\n", "\r\n", "", "", "\r", "\r\r\n", "\rx\n", " (0:1/0:2)", "x", " "],
];
const HEAD_LINE: &str = "  ９ ８ ７ ６ ５ ４ ３ ２ １";
const EDGE_LINE: &str = "+---------------------------+";
/// What breaks a rule when it stands in the wrong place.
const SPLINTERS: [&str; 40] = [
    "\n", "\r\n", "\r", " ", "　", "\t", "0", "1", "9", "*", "&", "#", "：", ":", "/", "(", ")", "▲", "△", "同", "打",
    "成", "不成", "歩", "王", "十", "二", "７", "v", "|", "+", "・", "なし", "番", "の持駒：", "手合割：", "投了",
    "\u{feff}", "\0", "🀄",
];

/// A text of any sort.
pub fn text(r: &mut Rng) -> Vec<u8> {
    match r.below(400) {
        0 => sized(r),
        1..=3 => vec![],
        4..=19 => soup(r).into_bytes(),
        20..=39 => not_utf8(r),
        40..=159 => damaged(r),
        _ => whole(r).into_bytes(),
    }
}

/// A text without a step beside the rules, so that mostly each move has the number of its ply.
pub fn numbered(r: &mut Rng) -> Vec<u8> {
    let mut maker = Maker { strays: usize::MAX, ..Maker::new(r) };
    maker.whole();
    maker.text.into_bytes()
}

/// A text in which reading mostly stops: some lines of a good one, then one that is spoiled or cut short, then mostly nothing.
pub fn stopping(r: &mut Rng) -> Vec<u8> {
    let mut maker = Maker { strays: usize::MAX, ..Maker::new(r) };
    maker.whole();
    maker.keep_lines();
    match maker.r.below(4) {
        0 => (0..1 + maker.r.below(2)).for_each(|_| maker.skip_line()),
        1 => maker.line("*c"),
        _ => {}
    }
    maker.spoiled_line();
    if maker.r.one_in(4) {
        maker.moves(1, 1);
    }
    maker.text.into_bytes()
}

/// A variation to put in, mostly at this ply and mostly well formed; of one in eight a number is not one more than the one before.
pub fn variation(r: &mut Rng, ply: u64) -> Vec<u8> {
    let mut maker = Maker::new(r);
    let moves = 1 + maker.r.below(4);
    let mut numbers: Vec<u64> = (0..moves as u64).map(|k| ply.wrapping_add(k)).collect();
    if maker.r.one_in(8) {
        let at = maker.r.below(moves);
        numbers[at] = maker.stray_number(numbers[at]);
    }
    maker.numbered(&numbers);
    match maker.r.below(40) {
        0 => maker.line("変化：2手"),
        1 => maker.skip_line(),
        2 => maker.splinter(),
        3 => maker.text.insert_str(0, "*c\n"),
        4 => maker.text.truncate(0),
        _ => {}
    }
    let mut text = maker.text.into_bytes();
    match r.below(60) {
        0 => text.push(0xff),
        1 => drop(text.pop()),
        2 => text.resize(text.len() + LIMIT, b'\n'),
        _ => {}
    }
    text
}

/// A text as the reading rules have it, here and there a step beside them.
fn whole(r: &mut Rng) -> String {
    let mut maker = Maker::new(r);
    maker.whole();
    maker.text
}

/// Splinters without any order.
fn soup(r: &mut Rng) -> String {
    (0..r.below(30)).map(|_| r.pick(&SPLINTERS)).collect()
}

/// A good text with up to three wounds, each at a character.
fn damaged(r: &mut Rng) -> Vec<u8> {
    let mut characters: Vec<char> = whole(r).chars().collect();
    for _ in 0..1 + r.below(3) {
        let at = r.below(characters.len() + 1);
        let end = characters.len().min(at + 1 + r.below(4));
        match r.below(5) {
            0 => drop(characters.drain(at..end)),
            1 => drop(characters.splice(at..end, r.pick(&SPLINTERS).chars())),
            2 => drop(characters.splice(at..at, r.pick(&SPLINTERS).chars())),
            3 => characters.truncate(at),
            _ => {
                let again = characters[at..].to_vec();
                characters.extend(again);
            }
        }
    }
    characters.into_iter().collect::<String>().into_bytes()
}

/// A text with a byte or a cut that UTF-8 does not allow, or just does.
fn not_utf8(r: &mut Rng) -> Vec<u8> {
    const BYTES: [&[u8]; 14] = [
        b"\x80", b"\xc0\x80", b"\xc1\xbf", b"\xc2", b"\xe0\x9f\xbf", b"\xe0\xa0\x80", b"\xed\xa0\x80", b"\xed\x9f\xbf",
        b"\xf0\x8f\xbf\xbf", b"\xf0\x90\x80\x80", b"\xf4\x8f\xbf\xbf", b"\xf4\x90\x80\x80", b"\xf5", b"\xff",
    ];
    let mut text = whole(r).into_bytes();
    let at = r.below(text.len() + 1);
    if r.one_in(3) {
        text.truncate(at);
    } else {
        text.splice(at..at, r.pick(&BYTES).iter().copied());
    }
    text
}

/// A text near a limit: of the text's length, or of the block's.
fn sized(r: &mut Rng) -> Vec<u8> {
    let repeated = r.pick(&[
        "1同歩打\n", "1同歩打(0:0/0:0)\n", "1同歩打(300)\n", "*c\n", "x\n1同歩打\n", "x\n0投了\n", "#\n", "a：b\n",
    ]);
    let mut text = if repeated.contains("：") { String::new() } else { String::from("手数\n1同歩打\n") };
    let end = [LIMIT - 1, LIMIT, LIMIT + 1, 70_000, 30_000 + r.below(36_000), 36_000 + r.below(200)][r.below(6)];
    let distinct = r.one_in(2);
    while text.len() + repeated.len() <= end {
        if distinct && repeated.contains("：") {
            text += &r.below(100_000).to_string();
        }
        text += repeated;
    }
    if r.one_in(2) {
        text += &"x".repeat(end.saturating_sub(text.len() + 1));
        text += "\n";
    }
    if r.one_in(4) {
        text += "x\n9999同歩打\n";
    }
    text.into_bytes()
}

/// A text while it grows. `strays` is how often, one in so many, a step beside the rules is taken.
struct Maker<'a> {
    r: &'a mut Rng,
    text: String,
    breaks: usize,
    strays: usize,
}

impl<'a> Maker<'a> {
    fn new(r: &'a mut Rng) -> Self {
        let (breaks, strays) = (r.below(3), [30, 300, usize::MAX][r.below(3)]);
        Maker { r, text: String::new(), breaks, strays }
    }

    fn stray(&mut self) -> bool {
        self.r.one_in(self.strays)
    }

    fn add(&mut self, from: &[&str]) {
        self.text += self.r.pick(from);
    }

    fn splinter(&mut self) {
        self.add(&SPLINTERS);
    }

    fn end_line(&mut self) {
        match (self.breaks, self.stray()) {
            (_, true) => self.add(&["", "\r", "\r\r\n", "\n\n"]),
            (0, _) => self.text += "\n",
            (1, _) => self.text += "\r\n",
            _ => self.add(&["\n", "\r\n"]),
        }
    }

    fn line(&mut self, line: &str) {
        self.text += line;
        self.end_line();
    }

    fn padding(&mut self) {
        self.add(&["", "", "", " ", "　", "　 　"]);
        if self.stray() {
            self.add(&["\t", "x"]);
        }
    }

    fn blanks(&mut self) {
        self.add(&["", "", " ", "\t", "   "]);
    }

    /// A number, sometimes behind many zeros, sometimes another number.
    fn number(&mut self, n: u64) {
        if self.stray() {
            self.add(&[
                "18446744073709551615", "18446744073709551616", "65535", "65536", "65537", "255", "256", "0", "",
                "99999999999999999999999999",
            ]);
            return;
        }
        if self.r.one_in(12) {
            let zeros = [1, 2, 20, 40][self.r.below(4)];
            self.text += &"0".repeat(zeros);
        }
        self.text += &n.to_string();
    }

    fn whole(&mut self) {
        if self.r.one_in(30) {
            self.text += "\u{feff}";
        }
        self.information_block();
        if self.r.one_in(4) {
            self.board();
            self.information_block();
        }
        let head = self.r.below(20);
        if head > 1 {
            self.add(&["手数--", "手数--", "手数----指手---------消費時間--", ""]);
            self.end_line();
        } else if head == 1 {
            self.skip_line();
        }
        self.comments();
        let moves = [0, self.r.below(4), 2 + self.r.below(10)][self.r.below(8).min(2)];
        self.moves(1, moves);
        let mut lines = vec![(0, moves as u64 + 1)];
        for _ in 0..[0, self.r.below(3), self.r.below(9)][self.r.below(3)] {
            self.variation(&mut lines);
        }
        if self.r.one_in(6) {
            self.add(&["まで", "*x", "end", "", "3 ７六", "#", "変化：1手"]);
            self.end_line();
        }
    }

    fn information_block(&mut self) {
        for _ in 0..self.r.below(5) {
            match self.r.below(9) {
                0 => self.preset(),
                1 => self.turn(),
                2..=3 => self.hand(),
                4 => self.line("# comment"),
                _ => self.key_and_value(),
            }
        }
    }

    fn preset(&mut self) {
        self.text += "手合割：";
        let unknown = self.r.one_in(6);
        self.add(if unknown { &OTHER_PRESETS } else { &PRESETS });
        self.padding();
        self.end_line();
    }

    fn turn(&mut self) {
        self.add(&SIDES);
        self.text += "番";
        self.padding();
        self.end_line();
    }

    fn hand(&mut self) {
        self.add(&SIDES);
        self.text += "の持駒：";
        match self.r.below(8) {
            0 => self.text += "なし",
            1 => {}
            2 => {
                // Round 255: twice 九十九 and what brings it there or past it.
                self.text += "歩九十九　歩九十九";
                self.add(&["歩五十六", "歩五十七", "歩五十八", ""]);
            }
            _ => (0..self.r.below(5)).for_each(|_| self.hand_piece()),
        }
        self.padding();
        if self.stray() {
            self.splinter();
        }
        self.end_line();
    }

    fn hand_piece(&mut self) {
        if self.stray() {
            self.add(&KINDS);
        } else {
            self.add(&HAND_KINDS);
        }
        let counts = if self.stray() { &COUNTS[..] } else { &COUNTS[..13] };
        self.add(counts);
        self.padding();
    }

    fn key_and_value(&mut self) {
        self.add(&KEYS);
        if self.r.one_in(5) {
            self.add(&KEYS);
        }
        self.text += "：";
        self.add(&WORDS);
        self.end_line();
    }

    fn board(&mut self) {
        self.line(HEAD_LINE);
        self.line(EDGE_LINE);
        for _ in 0..9 - usize::from(self.stray()) {
            self.text += "|";
            (0..9 - usize::from(self.stray())).for_each(|_| self.cell());
            self.text += "|";
            self.add(&RANKS);
            self.end_line();
        }
        self.line(EDGE_LINE);
    }

    fn cell(&mut self) {
        if self.r.one_in(2) {
            self.text += " ・";
        } else {
            self.add(&[" ", "v"]);
            self.add(&KINDS);
        }
        if self.stray() && self.stray() {
            self.splinter();
        }
    }

    fn skip_line(&mut self) {
        let line = self.r.pick(&SKIP_LINES);
        self.line(line);
    }

    fn comments(&mut self) {
        while self.r.one_in(5) {
            self.add(&["*", "*", "&"]);
            self.add(&WORDS);
            self.end_line();
        }
    }

    /// Skip lines and a line of play, its start mostly a ply of an earlier line.
    fn variation(&mut self, lines: &mut Vec<(u64, u64)>) {
        let (start, count) = lines[self.r.below(lines.len())];
        let start = match self.r.below(30) {
            0 => start + count,
            1 => 0,
            _ => start + self.r.below(count as usize) as u64,
        };
        self.end_line();
        self.line(&format!("変化：{start}手"));
        while self.stray() {
            self.skip_line();
        }
        let moves = 1 + self.r.below(5);
        self.moves(start, moves);
        lines.push((start, moves as u64));
    }

    /// A number that may not follow: off by one or two either way, far off, or the largest.
    fn stray_number(&mut self, number: u64) -> u64 {
        match self.r.below(6) {
            0 => u64::MAX,
            1 => self.r.next(),
            2 => number.wrapping_add(2),
            3 => number.wrapping_sub(2),
            4 => number.wrapping_sub(1),
            _ => number.wrapping_add(1),
        }
    }

    /// Move lines with comments, numbered from this ply on.
    fn moves(&mut self, start: u64, count: usize) {
        self.numbered(&(start..start + count as u64).collect::<Vec<_>>());
    }

    /// Move lines with comments, numbered so.
    fn numbered(&mut self, numbers: &[u64]) {
        for &ply in numbers {
            self.blanks();
            self.number(ply);
            self.blanks();
            match self.r.below(16) {
                0 => self.add(&SPECIALS),
                1 if self.stray() => self.add(&OTHER_SPECIALS),
                _ => self.play(),
            }
            self.blanks();
            self.time();
            if self.r.one_in(12) {
                self.add(&WORDS);
            }
            self.end_line();
            self.comments();
        }
    }

    /// Leaves out some of the last lines.
    fn keep_lines(&mut self) {
        let ends: Vec<_> = self.text.match_indices('\n').map(|(at, _)| at + 1).collect();
        let kept = self.r.below(ends.len() + 1);
        self.text.truncate(ends.get(kept).copied().unwrap_or(self.text.len()));
    }

    /// A move line with up to two parts that may not be as the rules have them; in half of the cases cut short.
    fn spoiled_line(&mut self) {
        let spoiled = [0; 2].map(|_| self.r.below(STOPS.len()));
        let start = self.text.len();
        self.add(STOPS[0]);
        for (part, words) in STOPS.iter().enumerate().skip(1) {
            self.add(if spoiled.contains(&part) { words } else { &words[..1] });
        }
        if self.r.one_in(2) {
            let places: Vec<_> = self.text[start..].char_indices().map(|(at, _)| start + at).collect();
            self.text.truncate(places[self.r.below(places.len())]);
        }
    }

    fn play(&mut self) {
        if self.r.one_in(6) {
            self.add(&["同", "同　"]);
        } else {
            self.add(&FILES);
            self.add(&RANKS);
        }
        if self.stray() {
            self.splinter();
        }
        self.add(&KINDS);
        self.add(&["", "", "", "成", "不成"]);
        match self.r.below(5) {
            0 => self.text += "打",
            1 => self.add(&["(0)", "(7)", "(255)", "(00000077)", "(100)", "(99)"]),
            _ => self.text += &format!("({}{})", 1 + self.r.below(9), 1 + self.r.below(9)),
        }
        if self.stray() {
            let end = self.text.len() - 1;
            self.text.truncate(if self.text.ends_with(')') { end } else { end - 2 });
            self.add(&["", "(256)", "( 77)", "(77 )", "()", "(99999999999999999999)"]);
        }
    }

    /// In half of the lines: mostly two clocks, now and then a known case, or pieces of times without any order.
    fn time(&mut self) {
        match self.r.below(24) {
            0..=11 => return,
            12..=14 => {
                let row = &times::ROWS[self.r.below(times::ROWS.len())];
                self.add(row.times);
            }
            15..=16 => {
                self.text += "(";
                (0..self.r.below(10)).for_each(|_| self.add(&TIME_SPLINTERS));
            }
            _ => self.clocks(),
        }
        if self.stray() {
            self.splinter();
        }
    }

    fn clocks(&mut self) {
        self.text += "(";
        self.clock();
        self.text += "/";
        self.clock();
        self.text += ")";
    }

    fn clock(&mut self) {
        self.blanks();
        for place in 0..2 + self.r.below(2) {
            self.text += if place > 0 { ":" } else { "" };
            self.figure();
        }
        self.blanks();
    }

    /// Mostly below 60, sometimes 0, round 255 or far over it.
    fn figure(&mut self) {
        let small = self.r.below(60) as u64;
        match self.r.below(30) {
            0..=1 => self.add(&LARGE_FIGURES),
            2 => self.number(0),
            3 => self.number(254),
            4 => self.number(255),
            _ => self.number(small),
        }
    }
}

//! Texts as they are met: a game, a lesson, a lesson full of remarks, a study; and files of header lines.

use crate::rng::Rng;

const SEED: u64 = 1;
const FILES: [&str; 9] = ["１", "２", "３", "４", "５", "６", "７", "８", "９"];
const RANKS: [&str; 9] = ["一", "二", "三", "四", "五", "六", "七", "八", "九"];
const KINDS: [&str; 12] = ["歩", "歩", "歩", "香", "桂", "銀", "銀", "金", "角", "飛", "玉", "成銀"];
const HEADER: &str = "\
開始日時：2024/01/12 10:00:00
終了日時：2024/01/12 18:31:00
棋戦：順位戦
持ち時間：6時間
手合割：平手
先手：名人太郎
後手：竜王次郎
戦型：相矢倉
手数----指手---------消費時間--
";
const REMARKS: [&str; 4] = [
    "この手が好手で、先手がはっきり優勢になった。",
    "ここでは金を上がる手も有力だった。",
    "&次の一手",
    "以下は変化。後手は受けても一手一手である。",
];

/// Where remarks of any length are taken from.
const COMMENTARY: &str = "\
序盤は角換わりの出だしから、後手が早めに端を突いて工夫を見せた。先手は銀を繰り出して飛車先の交換を急いだが、この手が\
疑問で、後手に反撃の機会を与えている。本譜のように金を上がって受けるのが冷静な手で、以下は一手一手の寄せになった。";

/// Each text with its name.
pub fn texts() -> [(&'static str, String); 6] {
    [
        ("game", game()),
        ("lesson", lesson()),
        ("remarks", remarks()),
        ("study", study()),
        ("headers", headers()),
        ("keys", keys()),
    ]
}

fn game() -> String {
    let mut maker = Maker::new();
    maker.moves(1, 120, usize::MAX);
    maker.text
}

/// Twelve variations from the end of the main line to its beginning, comments all over.
fn lesson() -> String {
    let mut maker = Maker::new();
    maker.comment();
    maker.moves(1, 84, 4);
    for k in 0..12 {
        maker.variation(72 - 6 * k, 12, 3);
    }
    maker.text
}

/// A lesson with twelve variations and a remark at every second move.
fn remarks() -> String {
    let mut maker = Maker::new();
    maker.remarked(1, 70);
    for k in 0..12 {
        let start = 66 - 5 * k;
        maker.heading(start);
        maker.remarked(start, 8);
    }
    maker.text
}

/// 150 variations, every third of them on the one before it.
fn study() -> String {
    let mut maker = Maker::new();
    maker.comment();
    maker.moves(1, 160, 3);
    for k in 0..150 {
        let start = 155 - k;
        let nested = u64::from(k % 3 == 2) * 3;
        maker.variation(start + nested, 7, 8);
    }
    maker.text
}

/// 3,600 distinct keys in no order. With CR LF: with LF alone a text of this length has a block over the limit.
fn headers() -> String {
    let r = &mut Rng::new(SEED);
    let numbers = shuffled(r, 3_600);
    numbers.iter().map(|number| format!("{number}：{}\r\n", 10_000 + r.below(90_000))).collect()
}

/// 3,200 distinct Japanese keys in no order.
fn keys() -> String {
    shuffled(&mut Rng::new(SEED), 3_200).iter().map(|number| format!("鍵{number}：値\n")).collect()
}

/// So many distinct numbers of five digits.
fn shuffled(r: &mut Rng, count: usize) -> Vec<usize> {
    let mut numbers: Vec<usize> = (0..count).map(|k| 10_000 + 23 * k).collect();
    for end in (1..numbers.len()).rev() {
        numbers.swap(end, r.below(end + 1));
    }
    numbers
}

/// A text while it grows.
struct Maker {
    r: Rng,
    text: String,
}

impl Maker {
    fn new() -> Self {
        Maker { r: Rng::new(SEED), text: HEADER.into() }
    }

    fn comment(&mut self) {
        let remark = self.r.pick(&REMARKS);
        self.text += if remark.starts_with('&') { "" } else { "*" };
        self.text += remark;
        self.text += "\n";
    }

    /// A comment of 8 to 40 characters.
    fn remark(&mut self) {
        let count = 8 + self.r.below(33);
        let from = self.r.below(COMMENTARY.chars().count() - count);
        self.text += "*";
        self.text.extend(COMMENTARY.chars().skip(from).take(count));
        self.text += "\n";
    }

    fn heading(&mut self, start: u64) {
        self.text += &format!("\n変化：{start}手\n");
    }

    fn variation(&mut self, start: u64, count: u64, commented: usize) {
        self.heading(start);
        self.moves(start, count, commented);
    }

    /// Move lines from this ply on, one in so many with a comment.
    fn moves(&mut self, start: u64, count: u64, commented: usize) {
        for ply in start..start + count {
            self.play(ply);
            if self.r.one_in(commented) {
                self.comment();
            }
        }
    }

    /// Move lines from this ply on, with a remark at every even one.
    fn remarked(&mut self, start: u64, count: u64) {
        for ply in start..start + count {
            self.play(ply);
            if ply % 2 == 0 {
                self.remark();
            }
        }
    }

    fn play(&mut self, ply: u64) {
        let [file, rank, from_file, from_rank] = [0; 4].map(|_| self.r.below(9));
        let to = if self.r.one_in(8) { "同　".into() } else { [FILES[file], RANKS[rank]].concat() };
        let (kind, promotes) = (self.r.pick(&KINDS), self.r.one_in(12));
        // 成銀 with 成 and a time is a move that can be read and not written.
        let promoted = if promotes && kind != "成銀" { "成" } else { "" };
        let (minutes, seconds) = (self.r.below(9), self.r.below(60));
        let origin = format!("({}{})", 1 + from_file, 1 + from_rank);
        let total = format!("{:02}:{:02}:{seconds:02}", ply / 60, ply % 60);
        self.text += &format!("{ply:4} {to}{kind}{promoted}{origin}  ({minutes:2}:{seconds:02}/{total})\n");
    }
}

//! All texts of a few pieces: whatever the reading rules tell apart shows in texts so short.

/// Every text of up to so many pieces, between what stands before them and after them.
struct Alphabet {
    before: &'static [&'static str],
    pieces: &'static [&'static str],
    after: &'static [&'static str],
    most: u32,
}

/// Literals, so that the board's tokens and the whole board are made of one text.
macro_rules! files {
    () => {
        "  ９ ８ ７ ６ ５ ４ ３ ２ １\n"
    };
}
macro_rules! edge {
    () => {
        "+---------------------------+\n"
    };
}
macro_rules! rows {
    () => {
        "\
| ・v玉 ・ ・ ・ ・ ・ ・v香|二
| 歩 ・ ・ ・ ・ ・ ・ ・ ・|三
| ・ ・ ・ ・ ・ ・ ・ ・ ・|四
| ・ ・v成香 ・ ・ ・ ・ ・ ・|五
| ・ ・ ・ ・ ・ ・ ・ ・ ・|六
| ・ ・ ・ ・ ・ ・ と ・ ・|七
| ・ ・ ・ ・ ・ ・ ・ ・ ・|八
| ・ ・ ・ ・ ・ ・ ・ ・ 飛|九
"
    };
}
const EDGE: &str = edge!();
const FILES: &str = files!();
const ROWS: &str = rows!();
const BOARD: &str = concat!(files!(), edge!(), "|v香 ・ ・ ・ ・ ・ ・ ・ ・|一\n", rows!(), edge!());

const ALPHABETS: [Alphabet; 12] = [
    // What a break, a comment and a skip line are.
    Alphabet { before: &[], pieces: &["\n", "\r\n", "\r", "*", "&", "x", "1同歩打"], after: &[], most: 6 },
    // Which lines of the head are information, skipped, comments of the slot, or moves.
    Alphabet {
        before: &[],
        pieces: &["\n", "#c\n", "手数\n", "*c\n", "a：b\n", "1同歩打\n", "\t0同歩打\r\n"],
        after: &[],
        most: 6,
    },
    // Where variations begin, end and hang.
    Alphabet {
        before: &["手数\n1同歩打\n2投了\n"],
        pieces: &["0同歩打\n", "1同歩打(300)\n", "2同歩打(0:1/0:2)\n", "3投了\r\n", "変化：2手\n", "*c\n", "\n"],
        after: &[],
        most: 6,
    },
    // Presets, turns, keys and values.
    Alphabet {
        before: &[],
        pieces: &["手合割：", "香落ち", "先手", "番", "：", "　", "\n"],
        after: &["\n手数\n"],
        most: 6,
    },
    // The pieces of a hand line.
    Alphabet {
        before: &[BOARD, "先手の持駒："],
        pieces: &["歩", "九十九", "十", "五", "　", "玉", "なし"],
        after: &["\n手数\n"],
        most: 6,
    },
    // What wins or adds up in a block and over the two.
    Alphabet {
        before: &[],
        pieces: &[
            BOARD, "先手の持駒：歩九十九\n", "後手の持駒：飛　金二\r\n", "後手番\n", "a：1\n", "a：2\n",
            "手合割：香落ち\n",
        ],
        after: &["手数\n1同歩打\n"],
        most: 6,
    },
    // Target, kind and promotion of a move.
    Alphabet {
        before: &["手数\n1"],
        pieces: &["同", "　", "７六", "香", "成", "不成", "打"],
        after: &["\n2投了\n"],
        most: 6,
    },
    // Its number and its origin.
    Alphabet { before: &["手数\n"], pieces: &["0", "1", "25", "(", ")", "同歩", " "], after: &["\n"], most: 6 },
    // Its time.
    Alphabet {
        before: &["手数\n1同歩打"],
        pieces: &["(", "1:2", "/", ":3", ")", " ", "256"],
        after: &["\n*c\n"],
        most: 6,
    },
    // Where a figure of it that is too large is met.
    Alphabet {
        before: &["手数\n1同歩打("],
        pieces: &["1:", "2", "/", ":", ")", " ", "256"],
        after: &["\n2投了\n"],
        most: 6,
    },
    // The last cells of a row of the board.
    Alphabet {
        before: &[FILES, EDGE, "| ・ ・ ・ ・ ・ ・"],
        pieces: &[" ・", " ", "v", "歩", "成", "香", "|"],
        after: &["|一\n", ROWS, EDGE, "手数\n1同歩打\n"],
        most: 6,
    },
    // All of this beside one another.
    Alphabet {
        before: &[],
        pieces: &[
            "\n", "\r\n", "\r", "1", "0", "2", "同歩打", "投了", "*", "&", "#", "：", "x", " ", "　", "(0:1/0:2)",
            "先手の持駒：", "歩", "先手番", "手合割：平手",
        ],
        after: &[],
        most: 4,
    },
];

/// How many texts there are in all.
pub const SHORT: u64 = {
    let (mut sum, mut at) = (0, 0);
    while at < ALPHABETS.len() {
        sum += ALPHABETS[at].texts();
        at += 1;
    }
    sum
};

/// Steps of this prime go through all texts, and in a shorter run through some of every alphabet.
const STEP: u64 = 1_000_003;
const _: () = assert!(SHORT % STEP != 0);

/// The n-th of all texts: so many seeds in a row as there are texts give each of them once.
pub fn short(n: u64) -> Vec<u8> {
    let mut left = n % SHORT * STEP % SHORT;
    for alphabet in &ALPHABETS {
        if left < alphabet.texts() {
            return alphabet.text(left);
        }
        left -= alphabet.texts();
    }
    unreachable!("there are no more texts")
}

impl Alphabet {
    const fn texts(&self) -> u64 {
        let (mut sum, mut pieces) = (1, 0);
        while pieces < self.most {
            sum = sum * self.pieces.len() as u64 + 1;
            pieces += 1;
        }
        sum
    }

    /// The n-th text, shorter ones first.
    fn text(&self, mut n: u64) -> Vec<u8> {
        let count = self.pieces.len() as u64;
        let mut text = self.before.concat();
        while n > 0 {
            text += self.pieces[((n - 1) % count) as usize];
            n = (n - 1) / count;
        }
        (text + &self.after.concat()).into_bytes()
    }
}

//! Sides, kinds, squares, presets and positions.

use std::fmt;

/// Black, who moves first, or White.
#[derive(Clone, Copy, Debug, PartialEq, Eq, Hash)]
pub enum Side {
    /// 先手.
    Black,
    /// 後手.
    White,
}

impl Side {
    /// The side with a block's number.
    pub(crate) fn of(number: u8) -> Side {
        match number {
            0 => Side::Black,
            _ => Side::White,
        }
    }
}

impl fmt::Display for Side {
    fn fmt(&self, f: &mut fmt::Formatter<'_>) -> fmt::Result {
        f.write_str(match self {
            Side::Black => "Black",
            Side::White => "White",
        })
    }
}

/// A kind of piece. `Display` writes it as a move does, 成香 and not 杏.
#[derive(Clone, Copy, Debug, PartialEq, Eq, Hash)]
pub enum Kind {
    /// 歩.
    Pawn,
    /// 香.
    Lance,
    /// 桂.
    Knight,
    /// 銀.
    Silver,
    /// 金.
    Gold,
    /// 角.
    Bishop,
    /// 飛.
    Rook,
    /// 玉 or 王.
    King,
    /// と.
    PromotedPawn,
    /// 成香 or 杏.
    PromotedLance,
    /// 成桂 or 圭.
    PromotedKnight,
    /// 成銀 or 全.
    PromotedSilver,
    /// 馬.
    PromotedBishop,
    /// 龍 or 竜.
    PromotedRook,
}

impl Kind {
    /// All kinds, in the order of a block's numbers, which begin at 1. The first seven can be held in hand.
    pub const ALL: [Kind; 14] = [
        Kind::Pawn,
        Kind::Lance,
        Kind::Knight,
        Kind::Silver,
        Kind::Gold,
        Kind::Bishop,
        Kind::Rook,
        Kind::King,
        Kind::PromotedPawn,
        Kind::PromotedLance,
        Kind::PromotedKnight,
        Kind::PromotedSilver,
        Kind::PromotedBishop,
        Kind::PromotedRook,
    ];

    pub(crate) fn of(number: u8) -> Kind {
        Kind::ALL[usize::from(number) - 1]
    }
}

impl fmt::Display for Kind {
    fn fmt(&self, f: &mut fmt::Formatter<'_>) -> fmt::Result {
        const WORDS: [&str; 14] =
            ["歩", "香", "桂", "銀", "金", "角", "飛", "玉", "と", "成香", "成桂", "成銀", "馬", "龍"];
        f.write_str(WORDS[*self as usize])
    }
}

/// A file and a rank. Those on the board go from 1 to 9; a record may have others.
#[derive(Clone, Copy, Debug, PartialEq, Eq, Hash)]
pub struct Square {
    /// The file.
    pub file: u8,
    /// The rank.
    pub rank: u8,
}

impl Square {
    /// Its place among the cells of a board, if it is on the board.
    fn place(self) -> Option<usize> {
        let is_on_board = (1..=9).contains(&self.file) && (1..=9).contains(&self.rank);
        is_on_board.then(|| 9 * usize::from(self.file - 1) + usize::from(self.rank - 1))
    }
}

/// A starting position by its name. `Display` writes the name.
#[derive(Clone, Copy, Debug, PartialEq, Eq, Hash)]
pub struct Preset(u8);

impl Preset {
    /// 平手: no handicap.
    pub const EVEN: Preset = Preset(0);

    pub(crate) fn of(number: u8) -> Preset {
        Preset(number)
    }

    /// Its number, 0 to 16, as a block has it.
    pub fn number(self) -> u8 {
        self.0
    }

    /// Its name, as KIF files have it behind 手合割.
    pub fn name(self) -> &'static str {
        const NAMES: [&str; 17] = [
            "平手",
            "香落ち",
            "右香落ち",
            "角落ち",
            "飛車落ち",
            "飛香落ち",
            "二枚落ち",
            "三枚落ち",
            "四枚落ち",
            "五枚落ち",
            "左五枚落ち",
            "六枚落ち",
            "左七枚落ち",
            "右七枚落ち",
            "八枚落ち",
            "十枚落ち",
            "その他",
        ];
        NAMES[usize::from(self.0)]
    }
}

impl fmt::Display for Preset {
    fn fmt(&self, f: &mut fmt::Formatter<'_>) -> fmt::Result {
        f.write_str(self.name())
    }
}

/// A piece on the board.
#[derive(Clone, Copy, Debug, PartialEq, Eq, Hash)]
pub struct Piece {
    /// Whose it is.
    pub side: Side,
    /// What it is.
    pub kind: Kind,
}

/// A position: the board, both hands and the side to move.
#[derive(Clone, Debug, PartialEq, Eq, Hash)]
pub struct Position {
    /// The side to move.
    pub turn: Side,
    /// File 1 first, in each file rank 1 first.
    cells: [Option<Piece>; 81],
    hands: [[u8; 7]; 2],
}

impl Position {
    /// The position of a block's 100 bytes, if they have a diagram.
    pub(crate) fn of(bytes: &[u8]) -> Position {
        let piece = |cell: u8| (cell != 0).then(|| Piece { side: Side::of(cell / 16), kind: Kind::of(cell % 16) });
        let hand = |at: usize| bytes[at..at + 7].try_into().expect("seven counts");
        Position {
            turn: Side::of(bytes[2]),
            cells: std::array::from_fn(|place| piece(bytes[4 + place])),
            hands: [hand(85), hand(92)],
        }
    }

    /// The piece that stands on a square, if one does.
    pub fn piece(&self, square: Square) -> Option<Piece> {
        self.cells[square.place()?]
    }

    /// How many pieces of a kind a side has in hand. Kings and promoted pieces are none that can be held.
    pub fn held(&self, side: Side, kind: Kind) -> u8 {
        self.hands[side as usize].get(kind as usize).copied().unwrap_or(0)
    }
}

/// Where a record starts.
#[derive(Clone, Debug, PartialEq, Eq, Hash)]
pub enum Start {
    /// From a position that has a name.
    Preset(Preset),
    /// From a diagram of its own.
    Diagram(Position),
}

impl Start {
    /// The start of a block's 100 bytes.
    pub(crate) fn of(bytes: &[u8]) -> Start {
        match bytes[1] {
            0 => Start::Preset(Preset::of(bytes[0])),
            _ => Start::Diagram(Position::of(bytes)),
        }
    }
}

//! A position in one line, for answers known by hand: SFEN without its move number.

/// Kinds in the order of `piece_kind`, from 1; a `+` before a letter makes it the promoted kind.
const LETTERS: &str = "PLNSGBRK";
const PROMOTED: [u8; 8] = [9, 10, 11, 12, 0, 13, 14, 0];

/// The hundred bytes that a block has of it: その他, with a diagram.
pub fn position(sfen: &str) -> [u8; 100] {
    let [board, side, hands] = sfen.split(' ').collect::<Vec<_>>()[..] else { panic!("{sfen:?} has not three parts") };
    let mut bytes = [0; 100];
    bytes[..3].copy_from_slice(&[16, 1, u8::from(side == "w")]);
    for (rank, row) in board.split('/').enumerate() {
        let cells = cells(row);
        assert_eq!(cells.len(), 9, "{sfen:?}");
        // The first cell is file 9.
        cells.iter().rev().enumerate().for_each(|(file, cell)| bytes[4 + 9 * file + rank] = *cell);
    }
    bytes[85..99].copy_from_slice(&counts(hands));
    bytes
}

fn cells(row: &str) -> Vec<u8> {
    let (mut cells, mut promoted) = (vec![], false);
    for letter in row.chars() {
        match letter.to_digit(10) {
            Some(empty) => cells.extend(vec![0; empty as usize]),
            None if letter == '+' => promoted = true,
            None => {
                let (side, kind) = side_and_kind(letter);
                cells.push(16 * side + if promoted { PROMOTED[kind as usize - 1] } else { kind });
                promoted = false;
            }
        }
    }
    cells
}

/// Each kind with its count before it; 1 is left out.
fn counts(hands: &str) -> [u8; 14] {
    let (mut counts, mut count) = ([0; 14], String::new());
    for letter in hands.trim_start_matches('-').chars() {
        if letter.is_ascii_digit() {
            count.push(letter);
            continue;
        }
        let (side, kind) = side_and_kind(letter);
        counts[usize::from(7 * side + kind - 1)] = if count.is_empty() { 1 } else { count.parse().expect("a count") };
        count.clear();
    }
    counts
}

/// A capital is Black's.
fn side_and_kind(letter: char) -> (u8, u8) {
    let kind = LETTERS.find(letter.to_ascii_uppercase()).expect("a letter of a piece");
    (u8::from(letter.is_ascii_lowercase()), 1 + kind as u8)
}

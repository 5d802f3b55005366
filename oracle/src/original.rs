//! The Rust original, unchanged: its files are included from where they stand, never copied. What this project asks
//! of its private functions follows each file, in the same module.

#[allow(dead_code)]
pub mod parser {
    pub mod kakinoki {
        include!(concat!(env!("KIF_RUST"), "/src/parser/kakinoki.rs"));

        pub fn read_kind(input: &str) -> IResult<&str, Kind, VerboseError<&str>> {
            piece_kind(input)
        }

        pub fn read_kanji_digit(input: &str) -> IResult<&str, u8, VerboseError<&str>> {
            kansuji_digit(input)
        }

        pub fn read_wide_digit(input: &str) -> IResult<&str, u8, VerboseError<&str>> {
            place_x(input)
        }

        pub fn read_count(input: &str) -> IResult<&str, u8, VerboseError<&str>> {
            kansuji(input)
        }

        pub fn read_side(input: &str) -> IResult<&str, Color, VerboseError<&str>> {
            color_prefix(input)
        }

        /// A preset's name with the padding after it.
        pub fn read_preset(input: &str) -> IResult<&str, Preset, VerboseError<&str>> {
            map(information_value_preset, |information| match information {
                Information::Preset(preset) => preset,
                _ => unreachable!("information_value_preset answers presets alone"),
            })(input)
        }

        /// A comment, its `&` kept and its `*` dropped.
        pub fn read_comment_line(input: &str) -> IResult<&str, String, VerboseError<&str>> {
            move_comment_line(input)
        }

        pub fn read_skip_line(input: &str) -> IResult<&str, &str, VerboseError<&str>> {
            not_move_line(input)
        }

        /// Header and position, and what is left of the text.
        pub fn read_head(input: &str) -> IResult<&str, JsonKifuFormat, VerboseError<&str>> {
            parse_without_moves(input)
        }
    }

    pub mod kif {
        include!(concat!(env!("KIF_RUST"), "/src/parser/kif.rs"));
        use nom::combinator::{consumed, recognize};
        use std::iter;

        /// A line as it stands in the text, its start (of a variation the number on its first move), and its entries.
        pub type Line<'a> = (&'a str, (usize, Vec<MoveFormat>));

        /// The lines in file order, as `entire_moves` has them before it attaches them.
        pub fn read_lines(input: &str) -> IResult<&str, Vec<Line<'_>>, VerboseError<&str>> {
            let main = consumed(map(main_moves, |moves| (0, moves)));
            let variation = preceded(many0(not_move_line), consumed(moves_with_index));
            map(pair(preceded(opt(not_move_line), main), many0(variation)), |(main, variations)| {
                iter::once(main).chain(variations).collect()
            })(input)
        }

        /// The move lines of a line, each as it stands in the text and with its entry.
        pub fn read_move_lines(line: &str) -> IResult<&str, Vec<(&str, MoveFormat)>, VerboseError<&str>> {
            let moved = map(consumed(move_line), |(text, (_, entry))| Some((text, entry)));
            let lines = many0(alt((moved, value(None, move_comment_line))));
            map(lines, |lines| lines.into_iter().flatten().collect())(line)
        }

        /// A move line up to where its time would stand.
        pub fn read_up_to_time(input: &str) -> IResult<&str, &str, VerboseError<&str>> {
            recognize(tuple((space0, digit1, space0, alt((move_special, move_move)), space0)))(input)
        }

        /// Move lines with their comments, and no skip line after them.
        pub fn read_moves(input: &str) -> IResult<&str, Vec<(usize, MoveFormat)>, VerboseError<&str>> {
            many1(move_with_comments)(input)
        }

        pub fn read_special(input: &str) -> IResult<&str, Option<MoveSpecial>, VerboseError<&str>> {
            map(move_special, |entry| entry.special)(input)
        }

        /// The number printed on a move line, and its entry.
        pub fn read_move_line(input: &str) -> IResult<&str, (usize, MoveFormat), VerboseError<&str>> {
            move_line(input)
        }
    }
}

#[allow(dead_code)]
pub mod converter {
    pub mod kakinoki {
        include!(concat!(env!("KIF_RUST"), "/src/converter/kakinoki.rs"));

        pub fn show_board_kind(kind: Kind) -> String {
            let mut shown = String::new();
            write_board_kind(kind, &mut shown).unwrap();
            shown
        }

        pub fn show_preset_line(preset: Preset) -> String {
            let mut shown = String::new();
            write_initial_preset(preset, &mut shown).unwrap();
            shown
        }

        pub fn show_count(count: u8) -> String {
            let mut shown = String::new();
            write_kansuji(count, &mut shown).unwrap();
            shown
        }
    }

    pub mod kif {
        include!(concat!(env!("KIF_RUST"), "/src/converter/kif.rs"));

        /// Header and position.
        pub fn show_head(record: &JsonKifuFormat) -> String {
            let mut shown = String::new();
            write_header(&record.header, &mut shown).unwrap();
            write_initial(&record.initial, false, &mut shown).unwrap();
            shown
        }

        pub fn show_move_kind(kind: Kind) -> String {
            let mut shown = String::new();
            write_move_kind(kind, &mut shown, &mut 0).unwrap();
            shown
        }

        pub fn show_move_line(entry: MoveFormat) -> String {
            let mut shown = String::new();
            write_move_lines(&[entry], 1, &mut shown).unwrap();
            shown
        }
    }
}

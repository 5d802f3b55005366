//! All that the original's reader and writer take from its normalizer.

use crate::jkf::Piece;

pub(crate) const MAX_HAND_COUNT: u8 = 99;

impl Piece {
    pub(crate) const fn empty() -> Self {
        Piece { color: None, kind: None }
    }
}

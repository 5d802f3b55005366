//! Where reading stops, and why.

use super::{numbers, Sample};
use crate::call::Call;
use crate::cases;
use crate::stop::stop;
use crate::stops;

/// The most bytes of a drawn text, so that the sample stays small.
const TEXT: usize = 240;

/// Every known case, and drawn texts.
pub(super) fn stops(sample: &mut Sample) {
    let mut texts: Vec<_> = stops::cases().map(|(text, _)| text).collect();
    while texts.len() < 1_000 {
        let Call::Stop { text } = cases::any_stop(sample.r.next()) else { unreachable!() };
        texts.extend(Some(text).filter(|text| text.len() <= TEXT));
    }
    for text in texts {
        sample.add(&text, &numbers(&stop(&text)));
    }
}

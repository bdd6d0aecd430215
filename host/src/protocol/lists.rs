//! Lists of the lengths that a request lends.

use dwg_hatch::{Hatch, HatchBody, ReadHatch, Refusal};

use crate::protocol::request::Lent;

/// How long the lent lists are: as a request says, but not above what the body needs and one entry more, since a request may name any
/// length and there may not be so much memory. A body that cannot be measured is refused for every list as it is here.
pub fn lengths(body: &HatchBody, lent: Option<Lent>) -> Result<Lent, Refusal> {
    let needed = body.measure()?;
    let lent = lent.unwrap_or(Lent { words: usize::MAX, numbers: usize::MAX });
    Ok(Lent { words: lent.words.min(needed.words + 1), numbers: lent.numbers.min(needed.numbers + 1) })
}

/// The body's record and lists, by the call that is given. Lists of the lengths that a request lends may be too short, which is refused.
pub fn lists<Double: Clone + Default>(
    body: &HatchBody,
    lent: Option<Lent>,
    decode: impl FnOnce(&mut [Double], &mut [u32]) -> Result<Hatch<Double>, Refusal>,
) -> Result<ReadHatch<Double>, Refusal> {
    let Lent { words, numbers } = lengths(body, lent)?;
    let (mut words, mut numbers) = (vec![0; words], vec![Double::default(); numbers]);
    let hatch = decode(&mut numbers, &mut words)?;
    words.truncate(hatch.words_used);
    numbers.truncate(hatch.numbers_used);
    Ok(ReadHatch { hatch, words, numbers })
}

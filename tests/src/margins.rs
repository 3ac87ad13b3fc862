//! Margins to try: those that a host may pass, and those that are refused.

use crate::noise::Noise;
use crate::reference::board::MOST_MARGIN;

/// One that may be passed, for a board with these sides: any; small against the shorter side, so that much of the
/// board is left; or such that twice the margin, or the margin itself, is about a side.
pub fn for_sides(noise: &mut Noise, width: u16, length: u16) -> u64 {
    let side = noise.pick(&[width, length]);
    let about = |noise: &mut Noise, number: u16| noise.between(-1, 1) + i64::from(number);
    let margin = match noise.below(5) {
        0 => noise.between(0, MOST_MARGIN as i64),
        1 | 2 => noise.between(1, i64::from(width.min(length) / 4).max(1)),
        3 => about(noise, side / 2),
        _ => about(noise, side),
    };
    margin.clamp(0, MOST_MARGIN as i64) as u64
}

/// One that is refused: just above the most, of the size that a type of so many bits holds, or such that cut to 8,
/// 16 or 32 bits it would be one that may be passed.
pub fn above(noise: &mut Noise) -> u64 {
    let low = noise.pick(&[0, 1, 2, MOST_MARGIN]);
    match noise.below(5) {
        0 => MOST_MARGIN + 1,
        1 => noise.pick(&[65, 127, 128, 255, 1000, 65_535, u64::MAX - 1, u64::MAX]),
        _ => low + (1 << noise.pick(&[8, 16, 32, 63])),
    }
}

/// One for a job of which nothing is known.
pub fn any(noise: &mut Noise) -> u64 {
    match noise.below(3) {
        0 => 0,
        1 => noise.between(1, MOST_MARGIN as i64) as u64,
        _ => above(noise),
    }
}

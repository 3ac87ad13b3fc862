//! Random outlines: sound ones, ones spoilt for a certain cause of 14 or for two at once, and ones hit at random.

mod drawn;
mod spoilt;

use crate::noise::Noise;
use crate::shapes::Corner;

/// An outline to try, and what it was made for.
pub struct MadeOutline {
    pub bytes: Vec<u8>,
    /// The refusal that its bytes were made to cause, 0 for none; nothing where they were hit at random.
    pub intended: Option<u8>,
}

pub fn make(noise: &mut Noise) -> MadeOutline {
    match noise.below(16) {
        0..=8 => MadeOutline { bytes: bytes_of(&drawn::outline(noise)), intended: Some(0) },
        9..=12 => MadeOutline { bytes: spoilt::once(noise), intended: Some(14) },
        13 => MadeOutline { bytes: spoilt::twice(noise), intended: Some(14) },
        14 => MadeOutline { bytes: hit_at_random(noise), intended: None },
        _ => MadeOutline { bytes: scattered(noise), intended: None },
    }
}

/// Coordinates of -128 to 127; a negative one is 256 plus it.
pub fn bytes_of(corners: &[Corner]) -> Vec<u8> {
    corners.iter().flat_map(|&(x, y)| [x as u8, y as u8]).collect()
}

/// A sound outline with a byte or two changed, lost or added.
fn hit_at_random(noise: &mut Noise) -> Vec<u8> {
    let mut bytes = bytes_of(&drawn::outline(noise));
    for _ in 0..noise.between(1, 2) {
        let hit = noise.below(bytes.len());
        match noise.below(4) {
            0 => drop(bytes.remove(hit)),
            1 => bytes.insert(hit, noise.byte()),
            2 => bytes[hit] ^= 1 << noise.below(8),
            _ => bytes[hit] = bytes[hit].wrapping_add(noise.pick(&[1, 255])),
        }
    }
    bytes
}

/// Corners anywhere, or bytes of no meaning.
fn scattered(noise: &mut Noise) -> Vec<u8> {
    if noise.one_in(4) {
        let length =
            noise.pick(&[0, 1, 2, 3, 4, 5, 6, 7, 8, 9, 10, 11, 12, 13, 14, 15, 16, 17, 18, 19, 20, 33, 64, 255, 1024]);
        return noise.bytes(length);
    }
    let (count, reach) = (noise.between(3, 6), drawn::reach(noise));
    let corners: Vec<Corner> = (0..count).map(|_| drawn::dot(noise, reach)).collect();
    bytes_of(&corners)
}

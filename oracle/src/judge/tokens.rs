//! What the calls that read tokens must answer. The coefficients and the contexts are the Rust's, over the stand-in for its
//! bool decoder; the refusals, their order and what they leave behind are from the project's papers.

use crate::expected::{DONE, UNKNOWN_BYTE, WRONG_LENGTH};
use vp8::bool_decoder::BoolDecoder;
use vp8::dct_tokens::{decode_block, decode_mb_coeffs, BlockType, CoeffProbs, MbEntropyCtx, ZIGZAG};

pub const PAST_END: u32 = 9;
pub const ZERO_PROBABILITY: u32 = 10;

/// Where the Rust's reading of a partition stands: nowhere, for good, where its first two bytes are not there.
pub type Place<'a> = Option<BoolDecoder<'a>>;

pub fn start(partition: &[u8]) -> Place<'_> {
    BoolDecoder::new(partition).ok()
}

/// The probabilities as the Rust takes them.
fn tables(probabilities: &[u8]) -> CoeffProbs {
    let at = |plane, band, context, node| probabilities[((8 * plane + band) * 3 + context) * 11 + node];
    std::array::from_fn(|p| std::array::from_fn(|b| std::array::from_fn(|c| std::array::from_fn(|n| at(p, b, c, n)))))
}

/// A macroblock's coefficients and its two contexts, or nothing where a bool needs a byte past the end.
pub type Walked = Option<([i16; 400], [bool; 9], [bool; 9])>;

/// The walk by `decode_mb_coeffs`.
pub fn by_macroblock(
    place: &mut BoolDecoder<'_>,
    probabilities: &[u8],
    y2: bool,
    above: [bool; 9],
    left: [bool; 9],
) -> Walked {
    let (mut above, mut left) = (MbEntropyCtx { nonzero: above }, MbEntropyCtx { nonzero: left });
    let read = decode_mb_coeffs(place, y2, false, &tables(probabilities), &mut above, &mut left).ok()?;
    let blocks = [read.y2].into_iter().chain(read.y).chain(read.u).chain(read.v);
    let mut coeffs = [0; 400];
    for (into, block) in coeffs.chunks_mut(16).zip(blocks) {
        into.copy_from_slice(&block);
    }
    Some((coeffs, above.nonzero, left.nonzero))
}

/// The same by `decode_block`, one call for each block, whose answer is in the order of the zigzag.
pub fn by_blocks(
    place: &mut BoolDecoder<'_>,
    probabilities: &[u8],
    y2: bool,
    above: [bool; 9],
    left: [bool; 9],
) -> Walked {
    let (probabilities, mut above, mut left) = (tables(probabilities), above, left);
    let mut coeffs = [0; 400];
    let mut one = |k: usize, kind: BlockType, a: usize, l: usize| {
        let mut scan = [0; 16];
        let count = decode_block(place, kind, &probabilities, above[a], left[l], &mut scan).ok()?;
        for (x, at) in scan.into_iter().zip(ZIGZAG) {
            coeffs[16 * k + at] = x;
        }
        (above[a], left[l]) = (count > 0, count > 0);
        Some(())
    };
    if y2 {
        one(0, BlockType::Y2, 8, 8)?;
    }
    for k in 0..16 {
        one(1 + k, if y2 { BlockType::YAfterY2 } else { BlockType::YNoY2 }, k % 4, k / 4)?;
    }
    for (first, slot) in [(17, 4), (21, 6)] {
        for k in 0..4 {
            one(first + k, BlockType::UV, slot + k % 2, slot + k / 2)?;
        }
    }
    Some((coeffs, above, left))
}

/// The answer of `zopredil_tokens`; the place is none where `state` has another length than 4. First the lengths, with
/// nothing written; then the bytes that are neither 0 nor 1, the probabilities and the partition's end, with zeros for
/// coefficients and all else as it came.
pub fn tokens(
    probabilities: &[u8],
    y2: u8,
    above: &mut [u8],
    left: &mut [u8],
    place: Option<&mut Place<'_>>,
    coeffs: &mut [i16],
) -> u32 {
    let (Ok(above), Ok(left)) = (<&mut [u8; 9]>::try_from(above), <&mut [u8; 9]>::try_from(left)) else {
        return WRONG_LENGTH;
    };
    let Some(place) = place else { return WRONG_LENGTH };
    if probabilities.len() != 1056 || coeffs.len() != 400 {
        return WRONG_LENGTH;
    }
    coeffs.fill(0);
    if y2 > 1 || above.iter().chain(&*left).any(|&flag| flag > 1) {
        return UNKNOWN_BYTE;
    }
    if probabilities.contains(&0) {
        return ZERO_PROBABILITY;
    }
    let flags = |bytes: &[u8; 9]| bytes.map(|byte| byte == 1);
    let mut next = place.clone();
    let walked = next.as_mut().and_then(|at| by_macroblock(at, probabilities, y2 == 1, flags(above), flags(left)));
    let Some((read, new_above, new_left)) = walked else { return PAST_END };
    coeffs.copy_from_slice(&read);
    (*above, *left) = (new_above.map(u8::from), new_left.map(u8::from));
    *place = next;
    DONE
}

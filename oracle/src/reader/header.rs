//! What stands before the macroblocks of a key frame: RFC 6386, section 9, in the order of 19.2.

use crate::bools::Bools;
use crate::tables::{COEFF_UPDATE_PROBS, DEFAULT_COEFF_PROBS};
use std::ops::Range;

/// The ten bytes at the frame's head (9.1).
#[derive(Debug, Clone, Copy)]
pub struct Tag {
    pub width: usize,
    pub height: usize,
    pub first_partition: usize,
}

impl Tag {
    pub fn read(frame: &[u8]) -> Result<Tag, String> {
        let head: [u8; 10] = frame.get(..10).and_then(|head| head.try_into().ok()).ok_or("it has no ten bytes")?;
        let tag = u32::from_le_bytes([head[0], head[1], head[2], 0]);
        if tag & 1 != 0 || head[3..6] != [0x9D, 0x01, 0x2A] {
            return Err("it is no key frame".to_string());
        }
        let side = |at: usize| usize::from(u16::from_le_bytes([head[at], head[at + 1]]) & 0x3FFF);
        let tag = Tag { width: side(6), height: side(8), first_partition: (tag >> 5) as usize };
        if tag.width == 0 || tag.height == 0 || frame.len() - 10 < tag.first_partition {
            return Err("its tag does not fit".to_string());
        }
        Ok(tag)
    }
}

/// Numbers by segment (9.3): in the place of the frame's, or on top of them.
#[derive(Debug, Clone, Default)]
pub struct Segments {
    pub absolute: bool,
    pub quantiser: [i32; 4],
    pub level: [i32; 4],
    /// The probabilities of the segments' tree, where each macroblock says its segment.
    pub map: Option<[u8; 3]>,
}

impl Segments {
    fn read(bools: &mut Bools<'_>) -> Segments {
        let mut segments = Segments::default();
        if !bools.flag() {
            return segments;
        }
        let (map, data) = (bools.flag(), bools.flag());
        if data {
            segments.absolute = bools.flag();
            segments.quantiser = std::array::from_fn(|_| bools.optional(7).unwrap_or(0));
            segments.level = std::array::from_fn(|_| bools.optional(6).unwrap_or(0));
        }
        if map {
            let prob = |bools: &mut Bools<'_>| if bools.flag() { bools.literal(8) as u8 } else { 255 };
            segments.map = Some(std::array::from_fn(|_| prob(bools)));
        }
        segments
    }

    /// A segment's number, given the frame's.
    pub fn adjusted(&self, frame: i32, own: i32) -> i32 {
        if self.absolute {
            own
        } else {
            frame + own
        }
    }
}

/// The loop filter's fields (9.6). Of the eight deltas a key frame uses two: that of its reference frame, itself, and that
/// of mode B.
#[derive(Debug, Clone, Default)]
pub struct Filter {
    pub simple: bool,
    pub level: i32,
    pub sharpness: u8,
    pub intra: i32,
    pub mode_b: i32,
}

impl Filter {
    fn read(bools: &mut Bools<'_>) -> Filter {
        let mut filter = Filter { simple: bools.flag(), ..Filter::default() };
        filter.level = bools.literal(6) as i32;
        filter.sharpness = bools.literal(3) as u8;
        // one flag says that there are deltas, a second, read only then, that they follow
        if bools.flag() && bools.flag() {
            let frames: [Option<i32>; 4] = std::array::from_fn(|_| bools.optional(6));
            let modes: [Option<i32>; 4] = std::array::from_fn(|_| bools.optional(6));
            (filter.intra, filter.mode_b) = (frames[0].unwrap_or(0), modes[0].unwrap_or(0));
        }
        filter
    }
}

/// The coded header.
pub struct Header {
    pub segments: Segments,
    pub filter: Filter,
    /// How many token partitions there are: 1, 2, 4 or 8.
    pub partitions: usize,
    /// The quantiser's index, and the deltas of Y DC, Y2 DC, Y2 AC, chroma DC and chroma AC.
    pub index: i32,
    pub deltas: [i32; 5],
    /// The 1,056 token probabilities, the frame's updates made (13.4).
    pub probs: [u8; 1056],
    /// The probability of a macroblock's skip flag, where they have one.
    pub skip: Option<u8>,
}

impl Header {
    /// The bools then stand at the first macroblock's modes.
    pub fn read(bools: &mut Bools<'_>) -> Header {
        let (_color_space, _clamping) = (bools.flag(), bools.flag());
        let segments = Segments::read(bools);
        let filter = Filter::read(bools);
        let partitions = 1 << bools.literal(2);
        let index = bools.literal(7) as i32;
        let deltas = std::array::from_fn(|_| bools.optional(4).unwrap_or(0));
        let _refresh_entropy = bools.flag();
        let mut probs = DEFAULT_COEFF_PROBS;
        for (prob, update) in probs.iter_mut().zip(COEFF_UPDATE_PROBS) {
            if bools.bool(update) {
                *prob = bools.literal(8) as u8;
            }
        }
        let skip = bools.flag().then(|| bools.literal(8) as u8);
        Header { segments, filter, partitions, index, deltas, probs, skip }
    }
}

/// Where the token partitions lie (9.5): after the first partition the sizes of all but the last, three bytes each, then
/// the partitions, the last one up to the frame's end.
pub fn token_partitions(frame: &[u8], first_end: usize, count: usize) -> Result<Vec<Range<usize>>, String> {
    let short = || "its partitions pass its end".to_string();
    let sizes = frame.get(first_end..first_end + 3 * (count - 1)).ok_or_else(short)?;
    let mut at = first_end + sizes.len();
    let mut all = Vec::new();
    for size in sizes.chunks(3) {
        let size = u32::from_le_bytes([size[0], size[1], size[2], 0]) as usize;
        all.push(at..at + size);
        at += size;
    }
    if at > frame.len() {
        return Err(short());
    }
    all.push(at..frame.len());
    Ok(all)
}

//! A whole key frame, one macroblock after another.

use crate::bools::Bools;
use crate::header::{token_partitions, Header, Tag};
use crate::modes;
use crate::tables::{AC_TABLE, DC_TABLE};
use crate::tokens::{self, Flags, Rule};
use std::ops::Range;

pub struct Macroblock {
    pub luma: u8,
    pub chroma: u8,
    pub subs: [u8; 16],
    /// It has no tokens in its partition.
    pub skip: bool,
    /// Its coefficients as read; zeros where it has no tokens.
    pub tokens: [i16; 400],
    /// The same dequantised (14.1).
    pub coeffs: [i16; 400],
    /// The loop filter's level, and whether the inner edges are filtered.
    pub level: u8,
    pub inner: bool,
}

impl Macroblock {
    pub fn with_y2(&self) -> bool {
        self.luma != 4
    }
}

pub struct Frame {
    pub width: usize,
    pub height: usize,
    pub cols: usize,
    pub rows: usize,
    pub header: Header,
    pub first_partition: Range<usize>,
    pub partitions: Vec<Range<usize>>,
    /// In raster order.
    pub macroblocks: Vec<Macroblock>,
}

/// The factors of a segment by the order Y DC, Y AC, Y2 DC, Y2 AC, chroma DC, chroma AC (14.1).
fn factors(header: &Header, segment: usize) -> [i32; 6] {
    let index = header.segments.adjusted(header.index, header.segments.quantiser[segment]);
    let [ydc, y2dc, y2ac, uvdc, uvac] = header.deltas;
    let dc = |delta: i32| i32::from(DC_TABLE[(index + delta).clamp(0, 127) as usize]);
    let ac = |delta: i32| i32::from(AC_TABLE[(index + delta).clamp(0, 127) as usize]);
    [dc(ydc), ac(0), 2 * dc(y2dc), (ac(y2ac) * 155 / 100).max(8), dc(uvdc).min(132), ac(uvac)]
}

fn dequantised(tokens: &[i16; 400], factors: [i32; 6]) -> [i16; 400] {
    let [ydc, yac, y2dc, y2ac, uvdc, uvac] = factors;
    std::array::from_fn(|i| {
        let (dc, ac) = match i {
            0..=15 => (y2dc, y2ac),
            16..=271 => (ydc, yac),
            _ => (uvdc, uvac),
        };
        (i32::from(tokens[i]) * if i % 16 == 0 { dc } else { ac }) as i16
    })
}

/// The level of a macroblock (9.3, 9.6): its segment's, held within 0 and 63, then with the deltas, held again. A frame's
/// level of 0 switches the filter off.
fn level(header: &Header, segment: usize, luma: u8) -> u8 {
    let filter = &header.filter;
    if filter.level == 0 {
        return 0;
    }
    let own = header.segments.adjusted(filter.level, header.segments.level[segment]).clamp(0, 63);
    let delta = filter.intra + if luma == 4 { filter.mode_b } else { 0 };
    (own + delta).clamp(0, 63) as u8
}

impl Frame {
    /// Reads a frame, with the contexts of its tokens by a rule.
    pub fn read(bytes: &[u8], rule: Rule) -> Result<Frame, String> {
        let tag = Tag::read(bytes)?;
        let first_partition = 10..10 + tag.first_partition;
        let mut first = Bools::new(&bytes[first_partition.clone()]);
        let header = Header::read(&mut first);
        let partitions = token_partitions(bytes, first_partition.end, header.partitions)?;
        let mut streams: Vec<Bools<'_>> = partitions.iter().map(|part| Bools::new(&bytes[part.clone()])).collect();
        let (cols, rows) = (tag.width.div_ceil(16), tag.height.div_ceil(16));
        let mut macroblocks = Vec::new();
        let mut above_modes = vec![[0; 4]; cols];
        let mut above_flags: Vec<Flags> = vec![[false; 9]; cols];
        for row in 0..rows {
            let stream = &mut streams[row % header.partitions];
            let (mut left_modes, mut left_flags) = ([0; 4], [false; 9]);
            for col in 0..cols {
                let m = modes::read(&mut first, &header, &above_modes[col], &left_modes);
                above_modes[col] = std::array::from_fn(|k| m.subs[12 + k]);
                left_modes = std::array::from_fn(|k| m.subs[4 * k + 3]);
                let (with_y2, above) = (m.luma != 4, &mut above_flags[col]);
                let (mut tokens, mut some) = ([0; 400], false);
                if m.skip {
                    tokens::clear(above, with_y2);
                    tokens::clear(&mut left_flags, with_y2);
                } else {
                    let read = tokens::macroblock(stream, &header.probs, with_y2, rule, above, &mut left_flags);
                    (tokens, some) = (read.coeffs, read.some);
                    if stream.past {
                        return Err(format!("macroblock {} passes the end of its partition", row * cols + col));
                    }
                }
                if first.past {
                    return Err(format!("the modes of macroblock {} pass the first partition", row * cols + col));
                }
                macroblocks.push(Macroblock {
                    luma: m.luma,
                    chroma: m.chroma,
                    subs: m.subs,
                    skip: m.skip,
                    tokens,
                    coeffs: dequantised(&tokens, factors(&header, m.segment)),
                    level: level(&header, m.segment, m.luma),
                    inner: m.luma == 4 || some,
                });
            }
        }
        let Tag { width, height, .. } = tag;
        Ok(Frame { width, height, cols, rows, header, first_partition, partitions, macroblocks })
    }
}

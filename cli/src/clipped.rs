//! Where a drawn still hit the stop: the pixels whose sum of prediction and residue was below 0 or above 255 before it
//! was clamped. The library counts them and draws them; where they are follows from what it draws: a pixel is clipped
//! exactly where it is not its prediction plus its residue, and all three are the library's.
//!
//! - The pixel stands in the finished planes, and so does all that its macroblock was predicted from.
//! - The prediction of chroma and of luma in a 16x16 mode is the macroblock drawn skipped. That of a sub-block of mode B
//!   is the macroblock drawn with the sub-block's own coefficients 0, since no other changes what stands before it.
//! - The residue is the inverse DCT, whose first coefficient is the inverse WHT's for luma in a 16x16 mode.

use crate::picture::Picture;
use crate::still_file::StillFile;
use std::array;
use zopredil::{
    gather, inverse_dct, inverse_wht, macroblock, right_pixels, IntraBmode, IntraUvMode, IntraYMode, MbModes,
    Neighbors, Reply,
};

/// What a clipped pixel is drawn in: magenta, which is no grey.
pub const COLOR: [u8; 3] = [255, 0, 255];

/// Pixels of a macroblock: Y 256, U 64, V 64.
type Pixels = [u8; 384];

/// A mark for each pixel: of each macroblock 384 bits, Y 256, U 64, V 64.
pub struct Marks {
    macroblocks: Vec<[u64; 6]>,
    /// Macroblocks a row.
    cols: usize,
}

impl Marks {
    /// The marks of a still, by the planes that were drawn of it.
    pub fn find(still: &StillFile, picture: &Picture) -> Result<Marks, String> {
        let (cols, count) = (picture.cols, still.sizes.count());
        let mut macroblocks = Vec::new();
        macroblocks.try_reserve_exact(count).map_err(|_| "there is no memory for the marks".to_string())?;
        for index in 0..count {
            let found = Coded { still, picture, index }.marks();
            let why = |reply: Reply| format!("marking macroblock {index}: reply {}, {reply}", reply.number());
            macroblocks.push(found.map_err(why)?);
        }
        Ok(Marks { macroblocks, cols })
    }

    /// How many pixels are marked, of the three planes together.
    pub fn count(&self) -> u64 {
        self.macroblocks.iter().flatten().map(|bits| u64::from(bits.count_ones())).sum()
    }

    /// How many of them show in a picture of this size: those of Y in grey, those of U and V too in colour.
    pub fn shown(&self, width: u32, height: u32, color: bool) -> u64 {
        let (width, height) = (width as usize, height as usize);
        let within = |width: usize, height: usize, marked: &dyn Fn(usize, usize) -> bool| {
            (0..height).map(|row| (0..width).filter(|&x| marked(row, x)).count() as u64).sum::<u64>()
        };
        let y = within(width, height, &|row, x| self.y(row, x));
        let half = |side: usize| side.div_ceil(2);
        let chroma = |plane: usize| within(half(width), half(height), &|row, x| self.chroma(plane, row, x));
        if color {
            y + chroma(256) + chroma(320)
        } else {
            y
        }
    }

    /// Is a pixel of the picture drawn from a clipped one? In grey it is drawn from Y alone, in colour from U and V too.
    pub fn at(&self, row: usize, x: usize, color: bool) -> bool {
        self.y(row, x) || color && (self.chroma(256, row / 2, x / 2) || self.chroma(320, row / 2, x / 2))
    }

    fn y(&self, row: usize, x: usize) -> bool {
        bit(&self.macroblocks[row / 16 * self.cols + x / 16], row % 16 * 16 + x % 16)
    }

    /// A pixel of U, whose bits begin at 256, or of V, whose bits begin at 320.
    fn chroma(&self, plane: usize, row: usize, x: usize) -> bool {
        bit(&self.macroblocks[row / 8 * self.cols + x / 8], plane + row % 8 * 8 + x % 8)
    }
}

fn bit(bits: &[u64; 6], at: usize) -> bool {
    bits[at / 64] >> (at % 64) & 1 == 1
}

/// Where a 4x4 block stands in a plane of `n` pixels a row: the places of its sixteen pixels.
fn places(n: usize, block: usize) -> [usize; 16] {
    let (row, col) = (4 * (block / (n / 4)), 4 * (block % (n / 4)));
    array::from_fn(|i| (row + i / 4) * n + col + i % 4)
}

/// A macroblock of a still and of the picture that was drawn of it.
struct Coded<'a> {
    still: &'a StillFile,
    picture: &'a Picture,
    index: usize,
}

impl Coded<'_> {
    /// Its marks. Without coefficients there is no sum, and without a black or a white pixel none that was clamped.
    fn marks(&self) -> Result<[u64; 6], Reply> {
        let (modes, sub_modes) = self.modes()?;
        let drawn = self.drawn();
        if modes.skip || !drawn.iter().any(clamped) {
            return Ok([0; 6]);
        }
        let (neighbors, coeffs) = (self.neighbors()?, self.coeffs());
        let draw = |skip: bool, coeffs: &[i16; 400]| -> Result<Pixels, Reply> {
            let drawn = macroblock(MbModes { skip, ..modes }, Some(&sub_modes), &neighbors, coeffs)?;
            let mut pixels = [0; 384];
            pixels[..256].copy_from_slice(&drawn.y);
            pixels[256..320].copy_from_slice(&drawn.u);
            pixels[320..].copy_from_slice(&drawn.v);
            Ok(pixels)
        };
        let skipped = draw(true, coeffs)?;
        let first = inverse_wht(&array::from_fn(|i| coeffs[i]));
        let mut marks = [0; 6];
        for k in 0..24 {
            // the block's place in Y, U or V, and its coefficients behind those of Y2
            let at: [usize; 16] = match k {
                0..16 => places(16, k),
                16..20 => places(8, k - 16).map(|i| 256 + i),
                _ => places(8, k - 20).map(|i| 320 + i),
            };
            if !at.iter().any(|&i| clamped(&drawn[i])) {
                continue;
            }
            let mut block: [i16; 16] = array::from_fn(|i| coeffs[16 * (k + 1) + i]);
            let mut prediction = skipped;
            match (k < 16, modes.y) {
                (true, IntraYMode::B) => {
                    let mut without = *coeffs;
                    without[16 * (k + 1)..][..16].fill(0);
                    prediction = draw(false, &without)?;
                }
                (true, _) => block[0] = first[k],
                (false, _) => {}
            }
            let residue = inverse_dct(&block);
            for (&i, r) in at.iter().zip(residue) {
                let is_sum = i32::from(drawn[i]) == i32::from(prediction[i]) + i32::from(r);
                marks[i / 64] |= u64::from(!is_sum) << (i % 64);
            }
        }
        Ok(marks)
    }

    /// Its column and its row.
    fn place(&self) -> (usize, usize) {
        (self.index % self.picture.cols, self.index / self.picture.cols)
    }

    fn modes(&self) -> Result<(MbModes, [IntraBmode; 16]), Reply> {
        let bytes = &self.still.modes[3 * self.index..][..3];
        let y = IntraYMode::from_number(bytes[0]).ok_or(Reply::UnknownByte)?;
        let uv = IntraUvMode::from_number(bytes[1]).ok_or(Reply::UnknownByte)?;
        let mut sub_modes = [IntraBmode::Dc; 16];
        if y == IntraYMode::B {
            for (mode, &byte) in sub_modes.iter_mut().zip(&self.still.sub_modes[16 * self.index..]) {
                *mode = IntraBmode::from_number(byte).ok_or(Reply::UnknownByte)?;
            }
        }
        Ok((MbModes { y, uv, skip: bytes[2] == 1 }, sub_modes))
    }

    fn coeffs(&self) -> &[i16; 400] {
        const NONE: &[i16; 400] = &[0; 400];
        self.still.coeffs[400 * self.index..].first_chunk().unwrap_or(NONE)
    }

    /// Its finished pixels.
    fn drawn(&self) -> Pixels {
        let (col, row) = self.place();
        let part =
            |plane: &[u8], n: usize, i: usize| plane[(n * row + i / n) * n * self.picture.cols + n * col + i % n];
        array::from_fn(|i| match i {
            0..256 => part(&self.picture.y, 16, i),
            256..320 => part(&self.picture.u, 8, i - 256),
            _ => part(&self.picture.v, 8, i - 320),
        })
    }

    fn neighbors(&self) -> Result<Neighbors, Reply> {
        let (cols, rows) = (self.picture.cols, self.still.sizes.rows as usize);
        let ((col, row), Picture { y, u, v, .. }) = (self.place(), self.picture);
        let last_below = row > 0 && col + 1 == cols;
        let right = if last_below { right_pixels(y, cols, rows, row)? } else { [0; 4] };
        gather(y, u, v, cols, rows, col, row, right)
    }
}

/// May a pixel have been clamped?
fn clamped(pixel: &u8) -> bool {
    matches!(pixel, 0 | 255)
}

#[cfg(test)]
mod tests {
    use super::*;
    use crate::progress::Progress;
    use crate::still_file::{self, Sizes};
    use std::path::Path;
    use zopredil::{still_alone, PlanesMut};

    /// Draws a still: the picture, and how many sums the library counted.
    fn drawn(still: &StillFile) -> (Picture, u64) {
        let (Sizes { width, height, cols, .. }, count) = (still.sizes, still.sizes.count());
        let (mut y, mut u, mut v) = (vec![0; 256 * count], vec![0; 64 * count], vec![0; 64 * count]);
        let clipped = still_alone(&still.lent(), PlanesMut { y: &mut y, u: &mut u, v: &mut v }).unwrap();
        (Picture { y, u, v, cols: cols as usize, width, height }, clipped)
    }

    /// How many are marked in Y, U and V.
    fn by_plane(marks: &Marks) -> [u64; 3] {
        let bits = |from: usize, to: usize| {
            marks.macroblocks.iter().flat_map(|bits| &bits[from..to]).map(|bits| u64::from(bits.count_ones())).sum()
        };
        [bits(0, 4), bits(4, 5), bits(5, 6)]
    }

    /// The marks of a still are as many as the library counts, in each macroblock, and each is at a black or white pixel.
    fn agree(still: &StillFile) -> Marks {
        let (picture, clipped) = drawn(still);
        let marks = Marks::find(still, &picture).unwrap();
        assert_eq!(marks.count(), clipped);
        for index in 0..still.sizes.count() {
            let coded = Coded { still, picture: &picture, index };
            let (modes, sub_modes) = coded.modes().unwrap();
            let alone = macroblock(modes, Some(&sub_modes), &coded.neighbors().unwrap(), coded.coeffs()).unwrap();
            let bits = marks.macroblocks[index];
            assert_eq!(bits.iter().map(|bits| u64::from(bits.count_ones())).sum::<u64>(), alone.clipped);
            assert!(coded.drawn().iter().enumerate().all(|(i, pixel)| !bit(&bits, i) || clamped(pixel)));
        }
        marks
    }

    #[test]
    fn marks_of_the_included_rooms() {
        let examples = Path::new(env!("CARGO_MANIFEST_DIR")).join("../examples");
        for (room, total, shown) in [("hall", 0, 0), ("chapel", 0, 0), ("studio", 959, 893)] {
            let mut file = std::fs::File::open(examples.join(room).with_extension("still")).unwrap();
            let still = still_file::read(&mut file, None, &mut Progress::on(None)).unwrap();
            let (marks, Sizes { width, height, .. }) = (agree(&still), still.sizes);
            assert_eq!((marks.count(), marks.shown(width, height, false)), (total, shown), "{room}");
        }
    }

    #[test]
    fn marks_of_stills_by_chance() {
        let mut seed = 1u32;
        let mut below = |n: u32| {
            seed = seed.wrapping_mul(1664525).wrapping_add(1013904223);
            (seed >> 16) % n
        };
        let mut planes = [0; 3];
        for (cols, rows) in [(1, 1), (1, 5), (6, 1), (4, 4), (9, 7)] {
            for loud in [2, 40, 400, 8000] {
                let count = (cols * rows) as usize;
                let modes = (0..count).flat_map(|_| [below(5) as u8, below(4) as u8, (below(6) == 0).into()]).collect();
                let sub_modes = (0..16 * count).map(|_| below(10) as u8).collect();
                let coeffs = (0..400 * count).map(|_| (below(2 * loud + 1) as i32 - loud as i32) as i16).collect();
                let sizes = Sizes { width: 16 * cols, height: 16 * rows, cols, rows };
                let marks = agree(&StillFile { sizes, modes, sub_modes, coeffs });
                planes.iter_mut().zip(by_plane(&marks)).for_each(|(total, plane)| *total += plane);
            }
        }
        assert!(planes.iter().all(|&total| total > 1000), "{planes:?}");
    }

    #[test]
    fn a_picture_pixel_in_grey_and_in_colour() {
        let mut marks = Marks { macroblocks: vec![[0; 6]; 2], cols: 2 };
        let mut set = |index: usize, at: usize| marks.macroblocks[index][at / 64] |= 1 << (at % 64);
        set(1, 5 * 16 + 4); // Y: row 5, column 20
        set(0, 256 + 3 * 8 + 2); // U: row 3, column 2
        set(1, 320 + 7 * 8 + 7); // V: row 7, column 15
        let marked = |color: bool| -> Vec<(usize, usize)> {
            (0..512).map(|i| (i / 32, i % 32)).filter(|&(row, x)| marks.at(row, x, color)).collect()
        };
        assert_eq!(marked(false), [(5, 20)]);
        let four = |row: usize, x: usize| [(row, x), (row, x + 1), (row + 1, x), (row + 1, x + 1)];
        let mut all = [&[(5, 20)][..], &four(6, 4), &four(14, 30)].concat();
        all.sort_unstable();
        assert_eq!(marked(true), all);
        assert_eq!(marks.count(), 3);
        for (width, height, grey, color) in
            [(32, 16, 1, 3), (31, 15, 1, 3), (30, 16, 1, 2), (20, 16, 0, 1), (21, 6, 1, 1), (5, 7, 0, 1), (4, 7, 0, 0)]
        {
            assert_eq!(
                (marks.shown(width, height, false), marks.shown(width, height, true)),
                (grey, color),
                "{width}x{height}"
            );
        }
    }
}

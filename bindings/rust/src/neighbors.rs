//! The neighbour record of a macroblock and its 81 bytes: ten marks, then a row and a left column for each plane.

use crate::Reply;

/// The finished pixels around a macroblock, and which of them are there. The default has none.
///
/// ```text
/// row     P | a a a a .. a | R R R R        P top-left, a above, R above right (luma alone)
///         --+--------------+--------
/// left    l |              |
///         l |  macroblock  |
///         ..
/// ```
///
/// Pixels of a part that is not there change no answer.
#[derive(Debug, Clone, Copy, PartialEq, Eq, Hash, Default)]
pub struct Neighbors {
    /// Luma.
    pub y: LumaEdges,
    /// The first chroma plane.
    pub u: ChromaEdges,
    /// The second chroma plane.
    pub v: ChromaEdges,
}

/// The luma edges: one row of 21 pixels with a mark for each of its three parts, and a left column with a mark.
#[derive(Debug, Clone, Copy, PartialEq, Eq, Hash, Default)]
pub struct LumaEdges {
    /// The pixel above left, the sixteen above, the four above right.
    pub row: [u8; 21],
    /// Whether the first pixel of the row is there.
    pub topleft_there: bool,
    /// Whether the next sixteen are.
    pub above_there: bool,
    /// Whether the last four are.
    pub above_right_there: bool,
    /// The column to the left.
    pub left: [u8; 16],
    /// Whether the column is there.
    pub left_there: bool,
}

/// The edges of U or V: one row of 9 pixels with a mark for each of its two parts, and a left column with a mark.
#[derive(Debug, Clone, Copy, PartialEq, Eq, Hash, Default)]
pub struct ChromaEdges {
    /// The pixel above left, the eight above.
    pub row: [u8; 9],
    /// Whether the first pixel of the row is there.
    pub topleft_there: bool,
    /// Whether the next eight are.
    pub above_there: bool,
    /// The column to the left.
    pub left: [u8; 8],
    /// Whether the column is there.
    pub left_there: bool,
}

impl LumaEdges {
    /// The edges of the 16x16 block whose first pixel is in column `x` and line `y` of a plane that has `stride` pixels a
    /// line: each part that lies in the plane whole is there, any other is absent and 0. `None` unless the block lies in
    /// the plane.
    ///
    /// ```
    /// use zopredil::LumaEdges;
    ///
    /// let plane: Vec<u8> = (0..32 * 32).map(|i| (i / 32 + i % 32) as u8).collect(); // 32 pixels a line
    /// let inner = LumaEdges::cut(&plane, 32, 8, 16).unwrap();
    /// assert_eq!((inner.row[0], inner.row[1], inner.row[20], inner.left[0]), (22, 23, 42, 23));
    /// assert!(inner.topleft_there && inner.above_there && inner.above_right_there && inner.left_there);
    /// let corner = LumaEdges::cut(&plane, 32, 0, 0).unwrap();
    /// assert_eq!(corner, LumaEdges::default());
    /// let last = LumaEdges::cut(&plane, 32, 16, 16).unwrap();
    /// assert!(last.above_there && !last.above_right_there);
    /// assert_eq!(LumaEdges::cut(&plane, 32, 17, 16), None);
    /// ```
    pub fn cut(plane: &[u8], stride: usize, x: usize, y: usize) -> Option<LumaEdges> {
        let block = Block::of(plane, stride, x, y, 16)?;
        let mut edges = LumaEdges::default();
        edges.topleft_there = block.above(-1, &mut edges.row[..1]);
        edges.above_there = block.above(0, &mut edges.row[1..17]);
        edges.above_right_there = block.above(16, &mut edges.row[17..]);
        edges.left_there = block.left(&mut edges.left);
        Some(edges)
    }
}

impl ChromaEdges {
    /// The edges of the 8x8 block whose first pixel is in column `x` and line `y` of a plane, as [`LumaEdges::cut`] has
    /// them.
    ///
    /// ```
    /// use zopredil::ChromaEdges;
    ///
    /// let plane = [7; 16 * 16];
    /// let edges = ChromaEdges::cut(&plane, 16, 8, 8).unwrap();
    /// assert_eq!((edges.row, edges.left), ([7; 9], [7; 8]));
    /// assert!(!ChromaEdges::cut(&plane, 16, 0, 8).unwrap().topleft_there);
    /// ```
    pub fn cut(plane: &[u8], stride: usize, x: usize, y: usize) -> Option<ChromaEdges> {
        let block = Block::of(plane, stride, x, y, 8)?;
        let mut edges = ChromaEdges::default();
        edges.topleft_there = block.above(-1, &mut edges.row[..1]);
        edges.above_there = block.above(0, &mut edges.row[1..]);
        edges.left_there = block.left(&mut edges.left);
        Some(edges)
    }
}

/// A block that lies in its plane.
struct Block<'a> {
    plane: &'a [u8],
    stride: usize,
    x: usize,
    y: usize,
}

impl<'a> Block<'a> {
    fn of(plane: &'a [u8], stride: usize, x: usize, y: usize, side: usize) -> Option<Block<'a>> {
        let lines = y.checked_add(side)?;
        let inside = x.checked_add(side)? <= stride && lines.checked_mul(stride)? <= plane.len();
        inside.then_some(Block { plane, stride, x, y })
    }

    /// Pixels of the line above, from `from` columns right of the block's first on; whether the plane has them all.
    fn above(&self, from: isize, pixels: &mut [u8]) -> bool {
        let (Some(line), Some(start)) = (self.y.checked_sub(1), self.x.checked_add_signed(from)) else {
            return false;
        };
        if start + pixels.len() > self.stride {
            return false;
        }
        let at = line * self.stride + start;
        pixels.copy_from_slice(&self.plane[at..at + pixels.len()]);
        true
    }

    /// The column to the left; whether the plane has it.
    fn left(&self, pixels: &mut [u8]) -> bool {
        let Some(column) = self.x.checked_sub(1) else {
            return false;
        };
        for (line, pixel) in (self.y..).zip(pixels) {
            *pixel = self.plane[line * self.stride + column];
        }
        true
    }
}

impl Neighbors {
    /// The record's 81 bytes: the ten marks, then the pixels as they stand, also those of parts that are not there.
    ///
    /// ```
    /// use zopredil::{LumaEdges, Neighbors};
    ///
    /// let y = LumaEdges { row: [7; 21], above_there: true, ..LumaEdges::default() };
    /// let bytes = Neighbors { y, ..Neighbors::default() }.to_bytes();
    /// assert_eq!(bytes[..10], [0, 1, 0, 0, 0, 0, 0, 0, 0, 0]);
    /// assert_eq!((&bytes[10..31], &bytes[31..]), (&[7; 21][..], &[0; 50][..]));
    /// ```
    pub fn to_bytes(&self) -> [u8; 81] {
        let Neighbors { y, u, v } = self;
        let luma = [y.topleft_there, y.above_there, y.above_right_there, y.left_there];
        let chroma = |edges: &ChromaEdges| [edges.topleft_there, edges.above_there, edges.left_there];
        let marks = luma.into_iter().chain(chroma(u)).chain(chroma(v)).map(u8::from);
        let pixels = [y.row.as_slice(), &y.left, &u.row, &u.left, &v.row, &v.left].concat();
        let mut bytes = [0; 81];
        for (byte, value) in bytes.iter_mut().zip(marks.chain(pixels)) {
            *byte = value;
        }
        bytes
    }

    /// The record of 81 bytes. A mark that is neither 0 nor 1 is [`Reply::UnknownByte`].
    ///
    /// ```
    /// use zopredil::{ChromaEdges, Neighbors, Reply};
    ///
    /// let u = ChromaEdges { left: [1, 2, 3, 4, 5, 6, 7, 8], left_there: true, ..ChromaEdges::default() };
    /// let record = Neighbors { u, ..Neighbors::default() };
    /// assert_eq!(Neighbors::from_bytes(&record.to_bytes()), Ok(record));
    /// assert_eq!(Neighbors::from_bytes(&[2; 81]), Err(Reply::UnknownByte));
    /// ```
    pub fn from_bytes(bytes: &[u8; 81]) -> Result<Neighbors, Reply> {
        let there = |k: usize| match bytes[k] {
            0 => Ok(false),
            1 => Ok(true),
            _ => Err(Reply::UnknownByte),
        };
        let chroma = |mark: usize, at: usize| {
            Ok(ChromaEdges {
                row: part(bytes, at),
                topleft_there: there(mark)?,
                above_there: there(mark + 1)?,
                left: part(bytes, at + 9),
                left_there: there(mark + 2)?,
            })
        };
        let y = LumaEdges {
            row: part(bytes, 10),
            topleft_there: there(0)?,
            above_there: there(1)?,
            above_right_there: there(2)?,
            left: part(bytes, 31),
            left_there: there(3)?,
        };
        Ok(Neighbors { y, u: chroma(4, 47)?, v: chroma(7, 64)? })
    }
}

/// The pixels from `at` on.
fn part<const N: usize>(bytes: &[u8; 81], at: usize) -> [u8; N] {
    let mut pixels = [0; N];
    pixels.copy_from_slice(&bytes[at..at + N]);
    pixels
}

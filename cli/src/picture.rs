//! A drawn picture: three planes of whole macroblocks, seen through its crop.

/// The planes, and the part of them that is shown, from the top left on.
pub struct Picture {
    pub y: Vec<u8>,
    pub u: Vec<u8>,
    pub v: Vec<u8>,
    /// Macroblocks a row.
    pub cols: usize,
    /// Pixels that are shown: at most 16 times the macroblocks.
    pub width: u32,
    pub height: u32,
}

impl Picture {
    /// A row of the Y plane.
    pub fn grey(&self, row: usize) -> &[u8] {
        &self.y[row * 16 * self.cols..][..self.width as usize]
    }

    /// A row as red, green and blue, a pixel after another. Each pixel of U and V covers two by two of Y.
    pub fn color(&self, row: usize, out: &mut Vec<u8>) {
        let chroma = row / 2 * 8 * self.cols;
        let (u, v) = (&self.u[chroma..], &self.v[chroma..]);
        out.clear();
        for (x, &y) in self.grey(row).iter().enumerate() {
            out.extend(rgb(y, u[x / 2], v[x / 2]));
        }
    }
}

/// BT.601 in the limited range, 16 to 235 for Y and 16 to 240 for U and V, which VP8 decoders take: the factors 1.164,
/// 1.596, 0.392, 0.813 and 2.017 in 256ths, rounded.
fn rgb(y: u8, u: u8, v: u8) -> [u8; 3] {
    let (y, u, v) = (298 * (i32::from(y) - 16), i32::from(u) - 128, i32::from(v) - 128);
    [y + 409 * v, y - 100 * u - 208 * v, y + 516 * u].map(|x| ((x + 128) >> 8).clamp(0, 255) as u8)
}

#[cfg(test)]
mod tests {
    use super::*;

    #[test]
    fn known_colours() {
        assert_eq!(rgb(16, 128, 128), [0, 0, 0]);
        assert_eq!(rgb(235, 128, 128), [255, 255, 255]);
        assert_eq!(rgb(0, 128, 128), [0, 0, 0]);
        assert_eq!(rgb(255, 128, 128), [255, 255, 255]);
        // the primaries at full strength
        assert_eq!(rgb(81, 90, 240), [255, 0, 0]);
        assert_eq!(rgb(145, 54, 34), [0, 255, 1]);
        assert_eq!(rgb(41, 240, 110), [0, 0, 255]);
    }

    #[test]
    fn greys_stay_grey() {
        for y in 0..=255 {
            let [r, g, b] = rgb(y, 128, 128);
            assert!(r == g && g == b);
        }
    }

    #[test]
    fn rows_of_a_crop() {
        let picture = Picture {
            y: (0..512).map(|k| (k % 32 + 32 * (k / 32 % 4)) as u8).collect(),
            u: (0..128).map(|k| (k % 16) as u8 * 8 + 64).collect(),
            v: vec![128; 128],
            cols: 2,
            width: 19,
            height: 3,
        };
        assert_eq!(picture.grey(1), (32..51).collect::<Vec<u8>>());
        let mut row = Vec::new();
        picture.color(2, &mut row);
        assert_eq!(row.len(), 3 * 19);
        assert_eq!(row[..3], rgb(64, 64, 128));
        assert_eq!(row[3..6], rgb(65, 64, 128));
        assert_eq!(row[6..9], rgb(66, 72, 128));
        assert_eq!(row[54..], rgb(82, 64 + 9 * 8, 128));
    }
}

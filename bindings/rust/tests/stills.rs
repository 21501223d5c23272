//! Whole stills: the planes are what gathering and drawing one macroblock after another give, and what is refused.

use zopredil::*;

const MARK: u8 = 0xA5;

/// A still of its own numbers, and planes full of marks.
struct Owned {
    cols: usize,
    rows: usize,
    modes: Vec<u8>,
    sub_modes: Vec<u8>,
    coeffs: Vec<i16>,
}

#[derive(Debug, Clone, PartialEq, Eq)]
struct Planes {
    y: Vec<u8>,
    u: Vec<u8>,
    v: Vec<u8>,
}

impl Planes {
    fn marked(count: usize) -> Planes {
        Planes { y: vec![MARK; 256 * count], u: vec![MARK; 64 * count], v: vec![MARK; 64 * count] }
    }

    fn lent(&mut self) -> PlanesMut<'_> {
        PlanesMut { y: &mut self.y, u: &mut self.u, v: &mut self.v }
    }

    fn part(&mut self, y: usize, u: usize, v: usize) -> PlanesMut<'_> {
        PlanesMut { y: &mut self.y[..y], u: &mut self.u[..u], v: &mut self.v[..v] }
    }

    /// Each plane with its pixels a side for a macroblock.
    fn each(&mut self) -> [(&mut [u8], usize); 3] {
        [(&mut self.y, 16), (&mut self.u, 8), (&mut self.v, 8)]
    }

    /// Marks the macroblocks from `index` on.
    fn mark_from(&mut self, cols: usize, rows: usize, index: usize) {
        for k in index..cols * rows {
            let (row, col) = (k / cols, k % cols);
            for (plane, n) in self.each() {
                for line in n * row..n * row + n {
                    plane[line * n * cols + n * col..][..n].fill(MARK);
                }
            }
        }
    }
}

impl Owned {
    /// Modes of every kind, and coefficients of a picture's size.
    fn new(cols: usize, rows: usize) -> Owned {
        let mut seed = 12345u32;
        let mut below = |n: u32| {
            seed = seed.wrapping_mul(1664525).wrapping_add(1013904223);
            (seed >> 16) % n
        };
        let count = cols * rows;
        let mut modes = Vec::new();
        for _ in 0..count {
            modes.extend([below(5) as u8, below(4) as u8, u8::from(below(4) == 0)]);
        }
        let sub_modes = (0..16 * count).map(|_| below(10) as u8).collect();
        let coeffs = (0..400 * count).map(|k| if k % 16 < 3 { below(401) as i16 - 200 } else { 0 }).collect();
        Owned { cols, rows, modes, sub_modes, coeffs }
    }

    fn lent(&self) -> Still<'_> {
        Still { cols: self.cols, rows: self.rows, modes: &self.modes, sub_modes: &self.sub_modes, coeffs: &self.coeffs }
    }

    fn count(&self) -> usize {
        self.cols * self.rows
    }

    /// Gathered and drawn one macroblock after another: the planes, and the clipped sums of each.
    fn one_by_one(&self) -> (Planes, Vec<u64>) {
        let (cols, rows) = (self.cols, self.rows);
        let mut planes = Planes::marked(self.count());
        let mut counts = Vec::new();
        for k in 0..self.count() {
            let (row, col) = (k / cols, k % cols);
            let right = if row == 0 { [0; 4] } else { right_pixels(&planes.y, cols, rows, row).unwrap() };
            let edges = gather(&planes.y, &planes.u, &planes.v, cols, rows, col, row, right).unwrap();
            let [y, uv, skip] = self.modes[3 * k..3 * k + 3].try_into().unwrap();
            let modes = MbModes {
                y: IntraYMode::from_number(y).unwrap(),
                uv: IntraUvMode::from_number(uv).unwrap(),
                skip: skip == 1,
            };
            let sub_modes = std::array::from_fn(|i| IntraBmode::from_number(self.sub_modes[16 * k + i]).unwrap());
            let coeffs = self.coeffs[400 * k..][..400].try_into().unwrap();
            let drawn = macroblock(modes, Some(&sub_modes), &edges, coeffs).unwrap();
            for ((plane, n), pixels) in planes.each().into_iter().zip([&drawn.y[..], &drawn.u, &drawn.v]) {
                for (line, pixels) in pixels.chunks(n).enumerate() {
                    plane[(n * row + line) * n * cols + n * col..][..n].copy_from_slice(pixels);
                }
            }
            counts.push(drawn.clipped);
        }
        (planes, counts)
    }

    /// The four pixels of each row after the first that `still_alone` takes.
    fn right_of(&self, planes: &Planes) -> Vec<u8> {
        (1..self.rows).flat_map(|row| [planes.y[16 * row * 16 * self.cols - 1]; 4]).collect()
    }
}

/// A still that is refused at a macroblock, after sums were clipped in those before it.
fn unknown(macroblock: usize, clipped: u64) -> Result<u64, StillRefused> {
    Err(StillRefused { reply: Reply::UnknownByte, macroblock, clipped })
}

#[test]
fn alone_is_with_the_pixels_of_the_row_above() {
    for (cols, rows) in [(1, 1), (1, 4), (5, 1), (4, 5)] {
        let given = Owned::new(cols, rows);
        let (mut alone, mut with) = (Planes::marked(given.count()), Planes::marked(given.count()));
        let clipped = still_alone(&given.lent(), alone.lent());
        assert_eq!(still(&given.lent(), &given.right_of(&alone), with.lent()), clipped);
        assert_eq!(with, alone);
    }
}

#[test]
fn a_still_is_its_macroblocks_one_after_another() {
    for (cols, rows) in [(1, 1), (1, 4), (5, 1), (4, 5), (7, 3)] {
        let given = Owned::new(cols, rows);
        let (planes, counts) = given.one_by_one();
        let mut drawn = Planes::marked(given.count());
        assert_eq!(still_alone(&given.lent(), drawn.lent()), Ok(counts.iter().sum()));
        assert_eq!(drawn, planes);
    }
    assert!(Owned::new(4, 5).one_by_one().1.iter().filter(|&&count| count > 0).count() > 3);
}

#[test]
fn a_skipped_still_has_no_clipped_sums() {
    let mut given = Owned::new(4, 5);
    given.coeffs.fill(i16::MAX);
    assert!(still_alone(&given.lent(), Planes::marked(20).lent()).unwrap() > 0);
    given.modes.chunks_mut(3).for_each(|modes| modes[2] = 1);
    assert_eq!(still_alone(&given.lent(), Planes::marked(20).lent()), Ok(0));
}

#[test]
fn the_first_macroblock_is_drawn_without_neighbours() {
    for k in 0..20 {
        let given = Owned::new(20, 1);
        let modes = &given.modes[3 * k..3 * k + 3];
        let one = Still {
            cols: 1,
            rows: 1,
            modes,
            sub_modes: &given.sub_modes[16 * k..16 * k + 16],
            coeffs: &given.coeffs[400 * k..400 * k + 400],
        };
        let mut planes = Planes::marked(1);
        still(&one, &[], planes.lent()).unwrap();
        let by_number = MbModes {
            y: IntraYMode::from_number(modes[0]).unwrap(),
            uv: IntraUvMode::from_number(modes[1]).unwrap(),
            skip: modes[2] == 1,
        };
        let sub_modes = std::array::from_fn(|i| IntraBmode::from_number(one.sub_modes[i]).unwrap());
        let coeffs = one.coeffs.try_into().unwrap();
        let drawn = macroblock(by_number, Some(&sub_modes), &Neighbors::default(), coeffs).unwrap();
        assert_eq!((&planes.y[..], &planes.u[..], &planes.v[..]), (&drawn.y[..], &drawn.u[..], &drawn.v[..]));
    }
}

#[test]
fn the_left_margin_below_the_first_row_has_129_above_left() {
    // TM below a skipped DC: left 129, above 128, above left 129
    let given = Still { cols: 1, rows: 2, modes: &[0, 0, 1, 3, 3, 1], sub_modes: &[0; 32], coeffs: &[0; 800] };
    let mut planes = Planes::marked(2);
    still_alone(&given, planes.lent()).unwrap();
    assert_eq!(planes, Planes { y: vec![128; 512], u: vec![128; 128], v: vec![128; 128] });
}

#[test]
fn the_given_pixels_reach_the_last_column_only() {
    let mut given = Owned::new(3, 3);
    given.modes = [4, 0, 1].repeat(9);
    given.sub_modes = vec![4; 9 * 16]; // Ld, which reads above and to the right
    let draw = |right: &[u8]| {
        let mut planes = Planes::marked(9);
        still(&given.lent(), right, planes.lent()).unwrap();
        planes.y
    };
    let (dark, light) = (draw(&[0; 8]), draw(&[255; 8]));
    for (place, (d, l)) in dark.iter().zip(&light).enumerate() {
        let (line, x) = (place / 48, place % 48);
        if line < 16 || line < 32 && x < 32 {
            assert_eq!(d, l);
        }
        if (line, x) == (31, 47) {
            assert_eq!((*d, *l), (0, 255));
        }
    }
}

#[test]
fn a_damaged_still_keeps_what_is_finished() {
    let (cols, rows) = (4, 3);
    let (whole, counts) = Owned::new(cols, rows).one_by_one();
    for index in 0..cols * rows {
        let refused = unknown(index, counts[..index].iter().sum());
        for (part, byte) in [(0, 5), (0, 255), (1, 4), (2, 2)] {
            let mut given = Owned::new(cols, rows);
            given.modes[3 * index + part] = byte;
            let mut planes = Planes::marked(cols * rows);
            assert_eq!(still_alone(&given.lent(), planes.lent()), refused);
            let mut kept = whole.clone();
            kept.mark_from(cols, rows, index);
            assert_eq!(planes, kept);
            let mut planes = Planes::marked(cols * rows);
            assert_eq!(still(&given.lent(), &given.right_of(&whole), planes.lent()), refused);
            assert_eq!(planes, kept);
        }
    }
}

#[test]
fn sub_block_bytes_are_looked_at_in_mode_b_only() {
    for luma in 0..5 {
        for place in 0..16 {
            let mut given = Owned::new(3, 1);
            given.modes[3] = luma;
            let (good, counts) = given.one_by_one();
            given.sub_modes[16 + place] = 10;
            let mut planes = Planes::marked(3);
            let answered = still_alone(&given.lent(), planes.lent());
            if luma == 4 {
                assert_eq!(answered, unknown(1, counts[0]));
            } else {
                assert_eq!((answered, planes), (Ok(counts.iter().sum()), good));
            }
        }
    }
}

#[test]
fn the_first_wrong_macroblock_is_named() {
    let mut given = Owned::new(2, 2);
    let (_, counts) = given.one_by_one();
    given.modes[3 * 3] = 9;
    given.modes[3 * 2 + 2] = 9;
    let refused = unknown(2, counts[0] + counts[1]);
    assert_eq!(still_alone(&given.lent(), Planes::marked(4).lent()), refused);
    assert_eq!(refused.unwrap_err().to_string(), format!("macroblock 2: {}", Reply::UnknownByte));
}

#[test]
fn sizes_outside_the_limits() {
    let refused = Err(StillRefused { reply: Reply::OutsidePicture, macroblock: 0, clipped: 0 });
    let given = Owned::new(1, 1);
    for (cols, rows) in [(0, 1), (1, 0), (0, 0), (1025, 1), (1, 1025), (1 << 32, 1 << 32), (usize::MAX, usize::MAX)] {
        let one = Still { cols, rows, ..given.lent() };
        let mut planes = Planes::marked(1);
        assert_eq!(still_alone(&one, planes.lent()), refused);
        assert_eq!(still(&one, &[], planes.lent()), refused);
        let none = Still { cols, rows, modes: &[], sub_modes: &[], coeffs: &[] }; // 7 comes before 1
        assert_eq!(still_alone(&none, planes.lent()), refused);
        assert_eq!(planes, Planes::marked(1));
    }
}

#[test]
fn wrong_lengths() {
    let refused = Err(StillRefused { reply: Reply::WrongLength, macroblock: 0, clipped: 0 });
    let mut given = Owned::new(3, 3);
    given.modes[0] = 99; // 1 comes before 8
    let large = Owned::new(5, 2);
    let right = [0; 9];
    // modes, sub_modes, coeffs, right, y, u, v
    let fit = [27, 144, 3600, 8, 2304, 576, 576];
    for slice in 0..7 {
        for length in [fit[slice] - 1, fit[slice] + 1] {
            let mut cut = fit;
            cut[slice] = length;
            let wrong = Still {
                cols: 3,
                rows: 3,
                modes: &large.modes[..cut[0]],
                sub_modes: &large.sub_modes[..cut[1]],
                coeffs: &large.coeffs[..cut[2]],
            };
            let mut planes = Planes::marked(10);
            assert_eq!(still(&wrong, &right[..cut[3]], planes.part(cut[4], cut[5], cut[6])), refused);
            if slice != 3 {
                assert_eq!(still_alone(&wrong, planes.part(cut[4], cut[5], cut[6])), refused);
            }
            assert_eq!(planes, Planes::marked(10));
        }
    }
    let mut planes = Planes::marked(10);
    assert_eq!(still(&given.lent(), &right[..8], planes.part(2304, 576, 575)), refused);
    assert_eq!(still(&given.lent(), &right[..8], planes.part(2304, 576, 576)), unknown(0, 0));
}

/// Draws a still alone through the C interface: the answer, and what stands in two counts afterwards, of which some are
/// lent.
fn counted(given: &Still<'_>, planes: &mut Planes, counts: usize) -> (u64, [u64; 2]) {
    let mut clipped = [u64::MAX; 2];
    let answered = unsafe {
        raw::zopredil_still_alone(
            given.cols,
            given.rows,
            given.modes.as_ptr(),
            given.modes.len(),
            given.sub_modes.as_ptr(),
            given.sub_modes.len(),
            given.coeffs.as_ptr(),
            given.coeffs.len(),
            planes.y.as_mut_ptr(),
            planes.y.len(),
            planes.u.as_mut_ptr(),
            planes.u.len(),
            planes.v.as_mut_ptr(),
            planes.v.len(),
            clipped.as_mut_ptr(),
            counts,
        )
    };
    (answered, clipped)
}

#[test]
fn lengths_of_the_count() {
    let mut given = Owned::new(2, 1);
    given.modes[3] = 9;
    let (fit, none) = (given.lent(), u64::MAX);
    let short = Still { modes: &[0; 5], ..fit };
    let large = Still { cols: 1025, ..fit };
    let mut planes = Planes::marked(2);
    for counts in [0, 2] {
        assert_eq!(counted(&fit, &mut planes, counts), (1, [none; 2])); // 1 comes before 8
        assert_eq!(counted(&short, &mut planes, counts), (1, [none; 2]));
        assert_eq!(counted(&large, &mut planes, counts), (7, [none; 2])); // 7 comes before 1
    }
    assert_eq!(counted(&short, &mut planes, 1), (1, [0, none]));
    assert_eq!(counted(&large, &mut planes, 1), (7, [0, none]));
    assert_eq!(planes, Planes::marked(2));
    let (answered, clipped) = counted(&fit, &mut planes, 1);
    assert_eq!((answered, clipped[1]), (256 + 8, none));
}

/// The library refuses a macroblock exactly where one of its bytes is named as unknown, and it is the first such.
#[test]
fn the_byte_that_a_still_is_refused_for() {
    for y_mode in [0, 4] {
        for place in 0..19 {
            for value in 0..=255 {
                let (mut modes, mut sub_modes) = ([0, 0, 1, y_mode, 0, 1], [0; 32]);
                match place {
                    0..3 => modes[3 + place] = value,
                    _ => sub_modes[16 + place - 3] = value,
                }
                let still = Still { cols: 2, rows: 1, modes: &modes, sub_modes: &sub_modes, coeffs: &[0; 800] };
                let answer = still_alone(&still, Planes::marked(2).lent());
                let (byte, in_b) = match place {
                    0 => (ModeByte::Luma, false),
                    1 => (ModeByte::Chroma, false),
                    2 => (ModeByte::Skip, false),
                    _ => (ModeByte::SubBlock(place - 3), true),
                };
                assert_eq!(still.unknown_byte(0), None);
                match answer {
                    Ok(_) => assert_eq!(still.unknown_byte(1), None),
                    Err(refused) => {
                        assert_eq!((refused.reply, refused.macroblock), (Reply::UnknownByte, 1));
                        assert_eq!(still.unknown_byte(1), Some(UnknownByte { byte, value }));
                        assert!(!in_b || y_mode == 4);
                    }
                }
            }
        }
    }
    // macroblocks that the lists do not have
    let still = Still { cols: 2, rows: 1, modes: &[9; 5], sub_modes: &[9; 3], coeffs: &[] };
    assert_eq!(still.unknown_byte(0).map(|unknown| unknown.byte), Some(ModeByte::Luma));
    for macroblock in [1, 2, usize::MAX / 3, usize::MAX] {
        assert_eq!(still.unknown_byte(macroblock), None);
    }
}

#[test]
fn refusals_are_errors() {
    fn line(error: impl std::error::Error + Send + Sync + 'static) -> String {
        let boxed: Box<dyn std::error::Error + Send + Sync> = error.into();
        boxed.to_string()
    }
    assert_eq!(line(Reply::OutsidePlane), "a 4x4 block does not lie in its plane");
    let refused = StillRefused { reply: Reply::UnknownByte, macroblock: 7, clipped: 0 };
    assert!(line(refused).starts_with("macroblock 7: "));
}

#[test]
fn the_version_is_the_header_s() {
    let header = include_str!("../../../include/zopredil.h");
    assert!(header.contains(&format!("\n#define ZOPREDIL_VERSION \"{VERSION}\"\n")));
    assert_eq!(VERSION, env!("CARGO_PKG_VERSION"));
}

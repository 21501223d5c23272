//! What each function draws: small pictures whose answers follow from RFC 6386 by hand.

use zopredil::*;

/// A block with one coefficient.
fn only(place: usize, value: i16) -> [i16; 16] {
    let mut block = [0; 16];
    block[place] = value;
    block
}

/// An edge whose pixels sum to `sum`, at most 255.
fn edge_of_sum<const N: usize>(sum: u8) -> [u8; N] {
    let mut edge = [0; N];
    edge[N - 1] = sum;
    edge
}

const SKIPPED_B: MbModes = MbModes { y: IntraYMode::B, uv: IntraUvMode::Dc, skip: true };

#[test]
fn factors_are_the_tables_at_clamped_indices() {
    let factors = |q, d| y1_factors(q, d).map(|f| (f.dc, f.ac));
    assert_eq!(factors(0, 128), Ok((157, 4)));
    assert_eq!(factors(-1, 0), Ok((4, 4)));
    assert_eq!(factors(127, 0), Ok((157, 284)));
    assert_eq!(factors(1000, -1000), Ok((4, 284)));
    assert_eq!(factors(i32::MIN, i32::MAX), Ok((4, 4)));
}

#[test]
fn products_are_cut_to_sixteen_bits() {
    let mut block = only(0, 300);
    block[15] = -3;
    dequant_block(&mut block, 200, 7);
    assert_eq!(block[0], -5536);
    assert_eq!(block[1..15], [0; 14]);
    assert_eq!(block[15], -21);
}

#[test]
fn wht_rounds_down() {
    for (dc, all) in [(4, 0), (5, 1), (-3, 0), (-4, -1)] {
        assert_eq!(inverse_wht(&only(0, dc)), [all; 16]);
        assert_eq!(inverse_wht_dc_only(dc), [all; 16]);
    }
    assert_eq!(inverse_wht(&[32767; 16]), only(0, -2));
}

#[test]
fn dct_rounds_down() {
    for (dc, all) in [(3, 0), (4, 1), (-4, 0), (-5, -1)] {
        assert_eq!(inverse_dct(&only(0, dc)), [all; 16]);
    }
}

#[test]
fn dct_of_one_coefficient_is_its_wave() {
    let across = inverse_dct(&only(1, 100));
    let down = inverse_dct(&only(4, 100));
    for i in 0..16 {
        let wave = [16, 7, -7, -16];
        assert_eq!((across[i], down[i]), (wave[i % 4], wave[i / 4]));
    }
}

#[test]
fn add_into_changes_its_block_alone() {
    let mut plane = [10; 256];
    assert_eq!(inverse_dct_add_into(&only(0, 8 * 250), &mut plane, 16, 3, 3), Ok(16));
    for (i, &pixel) in plane.iter().enumerate() {
        let inside = i / 16 >= 12 && i % 16 >= 12;
        assert_eq!(pixel, if inside { 255 } else { 10 });
    }
}

#[test]
fn clipped_sums_are_those_past_the_ends() {
    let added = |pixel: u8, levels: i16| {
        let mut plane = [pixel; 16];
        let clipped = inverse_dct_add_into(&only(0, 8 * levels), &mut plane, 4, 0, 0).unwrap();
        (plane[0], clipped)
    };
    for (pixel, levels, drawn) in
        [(250, 5, (255, 0)), (250, 6, (255, 16)), (5, -5, (0, 0)), (5, -6, (0, 16)), (0, 0, (0, 0)), (255, 0, (255, 0))]
    {
        assert_eq!(added(pixel, levels), drawn);
    }
    // a wave of 16, 7, -7 and -16: only some columns pass
    let mut plane = [245; 16];
    assert_eq!(inverse_dct_add_into(&only(1, 100), &mut plane, 4, 0, 0), Ok(4));
    assert_eq!(plane[..4], [255, 252, 238, 229]);
}

#[test]
fn clipped_sums_of_a_macroblock() {
    let non_b = MbModes { y: IntraYMode::Dc, uv: IntraUvMode::Dc, skip: false };
    let mut coeffs = [0; 400];
    coeffs[0] = 64 * 200; // every luma pixel 128 + 200
    coeffs[272 + 16] = -8 * 129; // the sixteen of U block 1 below 0
    coeffs[336] = 8 * 127; // those of V block 0 at 255
    let drawn = macroblock(non_b, None, &Neighbors::default(), &coeffs).unwrap();
    assert_eq!((drawn.y, drawn.clipped), ([255; 256], 256 + 16));
    assert_eq!((drawn.u[4], drawn.v[0]), (0, 255));
    let skipped = macroblock(MbModes { skip: true, ..non_b }, None, &Neighbors::default(), &coeffs).unwrap();
    assert_eq!((skipped.y, skipped.clipped), ([128; 256], 0));
    // mode B: the first sub-block is raised past white; the last line of those to its right is white without a residue
    let in_b = MbModes { skip: false, ..SKIPPED_B };
    let mut coeffs = [0; 400];
    coeffs[16] = 8 * 200;
    let drawn = macroblock(in_b, Some(&[IntraBmode::He; 16]), &Neighbors::default(), &coeffs).unwrap();
    assert_eq!((drawn.y[0], drawn.y[3 * 16 + 15], drawn.y[64], drawn.clipped), (255, 255, 129, 16));
}

#[test]
fn residue_sums_are_clamped() {
    let mut out = [1; 4];
    add_residue(&[0, 255, 128, 128], &[i16::MIN, i16::MAX, 127, -128], &mut out).unwrap();
    assert_eq!(out, [0, 255, 255, 0]);
    assert_eq!(add_residue(&[], &[], &mut []), Ok(()));
}

#[test]
fn dc_averages_the_edges_that_are_there() {
    let dc = |above: Option<&[u8; 16]>, left: Option<&[u8; 16]>| predict_y16x16(IntraYMode::Dc, above, left, 0);
    assert_eq!(dc(None, None), Ok([128; 256]));
    assert_eq!(dc(Some(&edge_of_sum(7)), None), Ok([0; 256]));
    assert_eq!(dc(Some(&edge_of_sum(8)), None), Ok([1; 256]));
    assert_eq!(dc(None, Some(&edge_of_sum(8))), Ok([1; 256]));
    assert_eq!(dc(Some(&edge_of_sum(8)), Some(&edge_of_sum(7))), Ok([0; 256]));
    assert_eq!(dc(Some(&edge_of_sum(8)), Some(&edge_of_sum(8))), Ok([1; 256]));
}

#[test]
fn absent_edges_have_their_constants() {
    let y = |mode| predict_y16x16(mode, None, None, 127).unwrap();
    assert_eq!(y(IntraYMode::V), [127; 256]);
    assert_eq!(y(IntraYMode::H), [129; 256]);
    assert_eq!(y(IntraYMode::Tm), [129; 256]);
    let uv = |mode| predict_uv8x8(mode, None, None, 127);
    assert_eq!(uv(IntraUvMode::Dc), [128; 64]);
    assert_eq!(uv(IntraUvMode::V), [127; 64]);
    assert_eq!(uv(IntraUvMode::H), [129; 64]);
    assert_eq!(uv(IntraUvMode::Tm), [129; 64]);
}

#[test]
fn tm_is_clamped() {
    for (left, above, p, all) in [(250, 20, 10, 255), (5, 5, 11, 0), (100, 50, 20, 130)] {
        assert_eq!(predict_y16x16(IntraYMode::Tm, Some(&[above; 16]), Some(&[left; 16]), p), Ok([all; 256]));
        assert_eq!(predict_uv8x8(IntraUvMode::Tm, Some(&[above; 8]), Some(&[left; 8]), p), [all; 64]);
        assert_eq!(predict_b4x4(IntraBmode::Tm, &[above; 8], &[left; 4], p), [all; 16]);
    }
}

#[test]
fn the_irregular_corner_of_vl() {
    let above = [0, 8, 16, 24, 32, 40, 48, 56];
    let ld = predict_b4x4(IntraBmode::Ld, &above, &[0; 4], 0);
    assert_eq!((ld[0], ld[15]), (8, 54));
    let vl = predict_b4x4(IntraBmode::Vl, &above, &[0; 4], 0);
    assert_eq!((vl[11], vl[15]), (40, 48));
}

#[test]
fn every_sub_block_mode_keeps_a_flat_picture() {
    for mode in IntraBmode::ALL {
        assert_eq!(predict_b4x4(mode, &[77; 8], &[77; 4], 77), [77; 16]);
    }
}

#[test]
fn mode_b_without_edges() {
    let draw = |mode| macroblock(SKIPPED_B, Some(&[mode; 16]), &Neighbors::default(), &[0; 400]).unwrap();
    let he = draw(IntraBmode::He);
    assert_eq!(he.y, [129; 256]);
    assert_eq!((he.u, he.v), ([128; 64], [128; 64]));
    let ve = draw(IntraBmode::Ve).y;
    for (i, &pixel) in ve.iter().enumerate() {
        assert_eq!(pixel, if i % 16 == 0 && i / 16 >= 4 { 128 } else { 127 });
    }
}

#[test]
fn a_skipped_macroblock_is_its_prediction() {
    for y in [IntraYMode::Dc, IntraYMode::V, IntraYMode::H, IntraYMode::Tm] {
        for uv in IntraUvMode::ALL {
            let above: [u8; 16] = std::array::from_fn(|i| 5 * i as u8);
            let edges = Neighbors {
                y: LumaEdges {
                    row: std::array::from_fn(|i| if i == 0 { 3 } else { *above.get(i - 1).unwrap_or(&0) }),
                    topleft_there: true,
                    above_there: true,
                    left: std::array::from_fn(|i| 200 - i as u8),
                    left_there: true,
                    ..LumaEdges::default()
                },
                u: ChromaEdges { row: [9; 9], above_there: true, ..ChromaEdges::default() },
                v: ChromaEdges { left: [7; 8], left_there: true, ..ChromaEdges::default() },
            };
            let drawn = macroblock(MbModes { y, uv, skip: true }, None, &edges, &[999; 400]).unwrap();
            assert_eq!(Ok(drawn.y), predict_y16x16(y, Some(&above), Some(&edges.y.left), 3));
            assert_eq!(drawn.u, predict_uv8x8(uv, Some(&[9; 8]), None, 127));
            assert_eq!(drawn.v, predict_uv8x8(uv, None, Some(&edges.v.left), 127));
        }
    }
}

#[test]
fn coefficients_stand_in_their_blocks() {
    let modes = MbModes { y: IntraYMode::Dc, uv: IntraUvMode::Dc, skip: false };
    let mut coeffs = [0; 400];
    coeffs[0] = 8 * 8 * 2; // Y2: 16 luma DCs of 16, which add 2 to every luma pixel
    coeffs[16 + 16 * 5] = 8000; // a luma block's own DC is not used
    coeffs[16 + 16 * 15 + 1] = 100; // luma block 15
    coeffs[272 + 16 * 2] = 8 * 5; // U block 2
    coeffs[336 + 16 * 3] = -8 * 5; // V block 3
    let drawn = macroblock(modes, None, &Neighbors::default(), &coeffs).unwrap();
    for (i, &pixel) in drawn.y.iter().enumerate() {
        let (row, col) = (i / 16, i % 16);
        let wave = if row >= 12 && col >= 12 { [16, 7, -7, -16][col - 12] } else { 0 };
        assert_eq!(i32::from(pixel), 130 + wave);
    }
    for (i, (&u, &v)) in drawn.u.iter().zip(&drawn.v).enumerate() {
        let (row, col) = (i / 8, i % 8);
        assert_eq!(u, if row >= 4 && col < 4 { 133 } else { 128 });
        assert_eq!(v, if row >= 4 && col >= 4 { 123 } else { 128 });
    }
}

#[test]
fn mode_b_does_not_use_the_first_sixteen() {
    let modes = MbModes { skip: false, ..SKIPPED_B };
    let mut coeffs = [0; 400];
    let plain = macroblock(modes, Some(&[IntraBmode::Dc; 16]), &Neighbors::default(), &coeffs);
    coeffs[..16].fill(i16::MAX);
    assert_eq!(macroblock(modes, Some(&[IntraBmode::Dc; 16]), &Neighbors::default(), &coeffs), plain);
    coeffs[16] = 80;
    assert_ne!(macroblock(modes, Some(&[IntraBmode::Dc; 16]), &Neighbors::default(), &coeffs), plain);
}

#[test]
fn right_column_takes_the_same_above_right_pixels() {
    let row = std::array::from_fn(|i| if i < 17 { 50 } else { 90 });
    let y = LumaEdges { row, above_there: true, above_right_there: true, ..LumaEdges::default() };
    let edges = Neighbors { y, ..Neighbors::default() };
    let drawn = macroblock(SKIPPED_B, Some(&[IntraBmode::Ld; 16]), &edges, &[0; 400]).unwrap();
    for row in [3, 7, 11, 15] {
        assert_eq!(drawn.y[16 * row + 15], 90);
    }
}

/// A picture of 3 by 2 macroblocks whose pixels tell their place.
fn picture() -> (Vec<u8>, Vec<u8>, Vec<u8>) {
    let plane =
        |n: usize, tone: usize| (0..6 * n * n).map(|i| (tone + 7 * (i / (3 * n)) + i % (3 * n)) as u8).collect();
    (plane(16, 0), plane(8, 100), plane(8, 200))
}

#[test]
fn gathering_in_the_middle() {
    let (y, u, v) = picture();
    let edges = gather(&y, &u, &v, 3, 2, 1, 1, [9; 4]).unwrap();
    let at = |tone: usize, row: usize, col: usize| (tone + 7 * row + col) as u8;
    assert_eq!(edges.y.row, std::array::from_fn(|i| at(0, 15, 15 + i)));
    assert_eq!(edges.y.left, std::array::from_fn(|i| at(0, 16 + i, 15)));
    assert_eq!(edges.u.row, std::array::from_fn(|i| at(100, 7, 7 + i)));
    assert_eq!(edges.u.left, std::array::from_fn(|i| at(100, 8 + i, 7)));
    assert_eq!(edges.v.row, std::array::from_fn(|i| at(200, 7, 7 + i)));
    assert_eq!(edges.v.left, std::array::from_fn(|i| at(200, 8 + i, 7)));
    // inside the picture gathering and cutting are one
    assert_eq!(LumaEdges::cut(&y, 48, 16, 16), Some(edges.y));
    assert_eq!(ChromaEdges::cut(&u, 24, 8, 8), Some(edges.u));
    assert_eq!(ChromaEdges::cut(&v, 24, 8, 8), Some(edges.v));
}

#[test]
fn gathering_at_the_rim() {
    let (y, u, v) = picture();
    for row in 0..2 {
        for col in 0..3 {
            let right = [9, 8, 7, 6];
            let edges = gather(&y, &u, &v, 3, 2, col, row, right).unwrap();
            let (above, left) = (row > 0, col > 0);
            let rows = [
                (edges.y.row[0], edges.y.topleft_there, edges.y.above_there, edges.y.left_there),
                (edges.u.row[0], edges.u.topleft_there, edges.u.above_there, edges.u.left_there),
                (edges.v.row[0], edges.v.topleft_there, edges.v.above_there, edges.v.left_there),
            ];
            for (first, topleft_there, above_there, left_there) in rows {
                assert_eq!((topleft_there, above_there, left_there), (above, above, left));
                assert!(!above || left || first == 129);
            }
            assert_eq!(edges.y.above_right_there, above);
            assert_eq!(edges.y.row[17..] == right, above && col == 2);
            // elsewhere than in the last column below the first row the given pixels are not read
            let other = gather(&y, &u, &v, 3, 2, col, row, [1, 2, 3, 4]).unwrap();
            assert_eq!(other == edges, !(above && col == 2));
        }
    }
}

#[test]
fn right_pixels_are_copies_of_the_last() {
    let (y, u, v) = picture();
    let right = right_pixels(&y, 3, 2, 1).unwrap();
    assert_eq!(right, [y[15 * 48 + 47]; 4]);
    let edges = gather(&y, &u, &v, 3, 2, 2, 1, right).unwrap().y;
    assert!(edges.above_there && edges.above_right_there);
    assert_eq!(edges.row[17..], [edges.row[16]; 4]);
}

//! The modes of a macroblock: RFC 6386, sections 10 and 11. The numbers of the modes are those of `include/zopredil.h`.

use crate::bools::Bools;
use crate::header::Header;
use crate::tables::KF_BMODE_PROBS;

const DC: i8 = 0;
const V: i8 = 1;
const H: i8 = 2;
const TM: i8 = 3;
const B: i8 = 4;

/// Section 10.
const SEGMENT_TREE: [i8; 6] = [2, 4, 0, -1, -2, -3];
/// 11.2: `kf_ymode_tree` and its probabilities.
const Y_TREE: [i8; 8] = [-B, 2, 4, 6, -DC, -V, -H, -TM];
const Y_PROBS: [u8; 4] = [145, 156, 163, 128];
/// 11.2: `uv_mode_tree` and its probabilities.
const UV_TREE: [i8; 6] = [-DC, 2, -V, 4, -H, -TM];
const UV_PROBS: [u8; 3] = [142, 114, 183];
/// 11.2: `bmode_tree`. DC 0, TM 1, VE 2, HE 3, LD 4, RD 5, VR 6, VL 7, HD 8, HU 9.
const B_TREE: [i8; 18] = [0, 2, -1, 4, -2, 6, 8, 12, -3, 10, -5, -6, -4, 14, -7, 16, -8, -9];

/// The sub-block mode that stands for a 16x16 mode beside a macroblock of mode B (11.3): DC, VE, HE, TM.
const STANDS_FOR: [u8; 4] = [0, 2, 3, 1];

#[derive(Debug, Clone, Copy)]
pub struct Modes {
    pub segment: usize,
    pub skip: bool,
    pub luma: u8,
    pub chroma: u8,
    /// In mode B those of the sub-blocks; else all sixteen stand for the luma mode.
    pub subs: [u8; 16],
}

/// `above` and `left` are the sub-block modes beside the macroblock, DC outside the picture.
pub fn read(bools: &mut Bools<'_>, header: &Header, above: &[u8; 4], left: &[u8; 4]) -> Modes {
    let segment = header.segments.map.map_or(0, |probs| bools.tree(&SEGMENT_TREE, &probs, 0));
    let skip = header.skip.is_some_and(|prob| bools.bool(prob));
    let luma = bools.tree(&Y_TREE, &Y_PROBS, 0) as u8;
    let mut subs = [0; 16];
    for k in 0..16 {
        subs[k] = match STANDS_FOR.get(usize::from(luma)) {
            Some(&mode) => mode,
            None => {
                let up = if k < 4 { above[k] } else { subs[k - 4] };
                let before = if k % 4 == 0 { left[k / 4] } else { subs[k - 1] };
                bools.tree(&B_TREE, &KF_BMODE_PROBS[usize::from(up)][usize::from(before)], 0) as u8
            }
        };
    }
    let chroma = bools.tree(&UV_TREE, &UV_PROBS, 0) as u8;
    Modes { segment, skip, luma, chroma, subs }
}

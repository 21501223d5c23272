//! sample: writes the fixed sample of answers to standard output. Each case is chosen, or made from the data that the
//! comparison tries with a fixed seed, so that the file is always the same; the expected bytes are what the Rust and the
//! project's papers say. The library has no part in it. `oracle/README.md` describes the format.

use judge::data;
use judge::expected;
use judge::format::{checksum, FILL, KINDS, PLANES};
use judge::random::Random;
use std::io::Write;

/// What every number of a slice holds that a function is to write.
const FILL_SHORT: i16 = i16::from_le_bytes([FILL; 2]);

/// The records written so far.
struct Sample {
    bytes: Vec<u8>,
    counts: [usize; 18],
    random: Random,
}

impl Sample {
    fn record(&mut self, number: u8, input: &[u8], expected: &[u8]) {
        let kind = &KINDS[usize::from(number) - 1];
        assert_eq!((kind.number, kind.input, kind.expected), (number, input.len(), expected.len()));
        self.bytes.push(number);
        self.bytes.extend(input);
        self.bytes.extend(expected);
        self.counts[usize::from(number)] += 1;
    }
}

/// The bytes of numbers, low byte first.
fn low_first(numbers: &[i16]) -> Vec<u8> {
    numbers.iter().flat_map(|x| x.to_le_bytes()).collect()
}

/// Parts put one behind another.
fn join(parts: &[&[u8]]) -> Vec<u8> {
    parts.concat()
}

fn reply(number: u32) -> [u8; 1] {
    [number as u8]
}

/// A block with one coefficient.
fn only(place: usize, value: i16) -> [i16; 16] {
    let mut block = [0; 16];
    block[place] = value;
    block
}

// ---- coefficients

/// Every index of the two tables; indices and deltas past their ends; sums at the ends of 32 bits.
fn y1_factors(s: &mut Sample) {
    let mut case = |q: i32, d: i32| {
        let mut out = [FILL_SHORT; 2];
        let number = expected::y1_factors(q, d, &mut out);
        s.record(1, &join(&[&q.to_le_bytes(), &d.to_le_bytes()]), &join(&[&reply(number), &low_first(&out)]));
    };
    for q in 0..128 {
        case(q, 0);
    }
    for d in -16..16 {
        case(5, d);
        case(120, d);
    }
    for q in [i32::MIN, i32::MIN + 1, -129, -128, -1, 0, 127, 128, i32::MAX - 1, i32::MAX] {
        for d in [i32::MIN, -128, -1, 0, 1, 128, i32::MAX] {
            case(q, d);
        }
    }
}

/// Blocks of every kind, by factors of the tables, by the ends of 16 bits, and by numbers that narrow.
fn dequant_block(s: &mut Sample) {
    let factors =
        [(4, 4), (157, 284), (1, -1), (200, 200), (8, 155), (i16::MIN, i16::MAX), (i16::MAX, i16::MIN), (0, 1)];
    for (k, (dc, ac)) in (0..25).flat_map(|k| factors.map(|f| (k, f))) {
        let mut block = [300; 16];
        if k > 0 {
            data::block(&mut s.random, k % 8, &mut block);
        }
        let input = join(&[&low_first(&block), &low_first(&[dc, ac])]);
        let number = expected::dequant_block(&mut block, dc, ac);
        s.record(2, &input, &join(&[&reply(number), &low_first(&block)]));
    }
}

/// One coefficient in every place, one number in all places, the roundings of DC, and blocks of every kind.
fn transform(s: &mut Sample, number: u8, by: fn(&[i16], &mut [i16]) -> u32, kinds: usize) {
    let mut blocks = Vec::new();
    for place in 0..16 {
        blocks.extend([1, -1, 100, 8191, -32768].map(|x| only(place, x)));
    }
    blocks.extend(data::LIMITS.map(|x| [x; 16]));
    blocks.extend((-12..=12).map(|dc| only(0, dc)));
    for k in 0..kinds {
        let mut block = [0; 16];
        data::block(&mut s.random, k % 8, &mut block);
        blocks.push(block);
    }
    for block in blocks {
        let mut out = [FILL_SHORT; 16];
        let answer = by(&block, &mut out);
        s.record(number, &low_first(&block), &join(&[&reply(answer), &low_first(&out)]));
    }
}

/// Around 0, around every limit and every power of two.
fn inverse_wht_dc_only(s: &mut Sample) {
    let mut dcs: Vec<i16> = (-48..=48).chain(data::LIMITS).collect();
    for power in 4..15 {
        dcs.extend([-1, 0, 1].iter().flat_map(|d| [(1 << power) + d, -(1 << power) + d]));
    }
    dcs.sort_unstable();
    dcs.dedup();
    for dc in dcs {
        let mut out = [FILL_SHORT; 16];
        let number = expected::inverse_wht_dc_only(dc, &mut out);
        s.record(4, &dc.to_le_bytes(), &join(&[&reply(number), &low_first(&out)]));
    }
}

/// A plane of `room` bytes, of which the first `length` are lent.
fn add_into(s: &mut Sample, number: u8, room: usize, kind: usize, length: usize, at: (usize, usize, usize)) {
    let (stride, sub_row, sub_col) = at;
    let mut block = [0; 16];
    data::block(&mut s.random, kind % 8, &mut block);
    let mut plane = vec![0; room];
    data::pixels(&mut s.random, kind % 3, &mut plane);
    let mut input = low_first(&block);
    for size in [stride, sub_row, sub_col] {
        input.extend((size as u64).to_le_bytes());
    }
    input.extend((length as u16).to_le_bytes());
    input.extend(&plane);
    let answer = expected::inverse_dct_add_into(&block, &mut plane[..length], stride, sub_row, sub_col, &mut [0]);
    s.record(number, &input, &join(&[&reply(answer), &plane]));
}

/// Sizes that no plane has, whose products wrap at 64 bits.
const HUGE: [usize; 6] = [1 << 32, 1 << 60, 1 << 61, 1 << 62, 1 << 63, usize::MAX];

/// Every block of every plane of at most 64 bytes, with the shortest plane that holds it; then one byte less, a stride
/// of one less, and huge numbers.
fn add_into_64(s: &mut Sample) {
    let mut kind = 0;
    for stride in 3..=17 {
        for sub_row in 0..4 {
            for sub_col in 0..4 {
                let shortest = (4 * sub_row + 3) * stride + 4 * sub_col + 4;
                if shortest <= 64 && stride >= 4 * sub_col + 4 {
                    add_into(s, 6, 64, kind, shortest, (stride, sub_row, sub_col));
                    add_into(s, 6, 64, kind + 3, 64, (stride, sub_row, sub_col));
                    add_into(s, 6, 64, kind, shortest - 1, (stride, sub_row, sub_col));
                    add_into(s, 6, 64, kind, 64, (4 * sub_col + 3, sub_row, sub_col));
                    kind += 1;
                }
            }
        }
    }
    for huge in HUGE {
        add_into(s, 6, 64, 0, 64, (huge, 0, 0));
        add_into(s, 6, 64, 0, 64, (16, huge, 0));
        add_into(s, 6, 64, 0, 64, (16, 0, huge));
        add_into(s, 6, 64, 0, 64, (huge, huge, huge));
    }
    for length in [0, 1, 3, 4, 15, 16] {
        add_into(s, 6, 64, 5, length, (4, 0, 0));
        add_into(s, 6, 64, 5, length, (0, 0, 0));
    }
}

/// The sixteen blocks of a luma plane, and the boundary of its last one: length 256 passes and 255 is refused, stride 15
/// is refused.
fn add_into_256(s: &mut Sample) {
    for k in 0..16 {
        add_into(s, 15, 256, k, 256, (16, k / 4, k % 4));
    }
    for (length, stride) in [(255, 16), (256, 15), (256, 17), (0, 16)] {
        add_into(s, 15, 256, 0, length, (stride, 3, 3));
    }
    for (stride, sub_row, sub_col) in
        [(32, 1, 7), (60, 0, 14), (64, 0, 15), (84, 0, 0), (85, 0, 0), (4, 15, 0), (4, 16, 0)]
    {
        add_into(s, 15, 256, 2, 256, (stride, sub_row, sub_col));
    }
}

/// Every length to 24, each end of pixels and residues; lengths that differ.
fn add_residue(s: &mut Sample) {
    let mut lengths: Vec<[usize; 3]> = (0..=24).flat_map(|n| [[n; 3]; 6]).collect();
    for (n, other) in [(0, 1), (1, 0), (4, 5), (16, 15), (16, 17), (16, 0), (24, 23), (23, 24)] {
        lengths.extend([[n, n, other], [n, other, n], [other, n, n]]);
    }
    for (k, [p, r, o]) in lengths.into_iter().enumerate() {
        let (mut prediction, mut residue, mut out) = ([0; 24], [0; 24], [FILL; 24]);
        data::pixels(&mut s.random, k % 3, &mut prediction);
        data::block(&mut s.random, k % 4, &mut residue);
        let number = expected::add_residue(&prediction[..p], &residue[..r], &mut out[..o]);
        let lengths = [p as u8, r as u8, o as u8];
        s.record(7, &join(&[&lengths, &prediction, &low_first(&residue)]), &join(&[&reply(number), &out]));
    }
}

// ---- prediction

/// Each mode with each combination of edges and each kind of pixels; modes that are none.
fn predict(s: &mut Sample, number: u8, n: usize, by: fn(u8, &[u8], &[u8], u8, &mut [u8]) -> u32, kinds: usize) {
    let known = (0..4).flat_map(|mode| (0..kinds).map(move |kind| (mode, kind)));
    let none = [4, 5, 6, 128, 255].map(|mode| (mode, 0));
    for (mode, kind) in known.chain(none) {
        for there in 0..4 {
            let (mut above, mut left) = (vec![0; n], vec![0; n]);
            data::pixels(&mut s.random, kind % data::SHADES, &mut above);
            data::pixels(&mut s.random, (kind + kind / data::SHADES) % data::SHADES, &mut left);
            let p = if kind % 2 == 0 { s.random.byte() } else { s.random.of(&data::PIXELS) };
            let (above_len, left_len) = (n * (there & 1), n * (there >> 1));
            let mut out = vec![FILL; n * n];
            let answer = by(mode, &above[..above_len], &left[..left_len], p, &mut out);
            let input = join(&[&[mode, above_len as u8], &above, &[left_len as u8], &left, &[p]]);
            s.record(number, &input, &join(&[&reply(answer), &out]));
        }
    }
}

/// Each mode with each kind of pixels, and the two known pictures of Ld and Vl; modes that are none.
fn predict_b4x4(s: &mut Sample) {
    let mut case = |mode: u8, above: [u8; 8], left: [u8; 4], p: u8| {
        let mut out = [FILL; 16];
        let number = expected::predict_b4x4(mode, &above, &left, p, &mut out);
        s.record(10, &join(&[&[mode], &above, &left, &[p]]), &join(&[&reply(number), &out]));
    };
    let mut r = Random::new(4);
    for mode in (0..10).chain([10, 11, 127, 128, 255]) {
        case(mode, [0, 8, 16, 24, 32, 40, 48, 56], [0; 4], 0);
        case(mode, [255; 8], [255; 4], 255);
        case(mode, [0; 8], [255; 4], 255);
        case(mode, [255; 8], [0; 4], 0);
        for kind in 0..if mode < 10 { 26 } else { 1 } {
            let (mut above, mut left) = ([0; 8], [0; 4]);
            data::pixels(&mut r, kind % 4, &mut above);
            data::pixels(&mut r, kind / 4 % 4, &mut left);
            case(mode, above, left, r.byte());
        }
    }
}

// ---- macroblocks

/// The input bytes that both kinds of macroblock begin with.
fn begin(modes: [u8; 3], sub_modes: Option<[u8; 16]>, unused: [u8; 16], record: &[u8; 81]) -> Vec<u8> {
    let given = if sub_modes.is_some() { 16 } else { 0 };
    join(&[&modes, &[given], &sub_modes.unwrap_or(unused), record])
}

fn drawn(modes: [u8; 3], sub_modes: Option<[u8; 16]>, record: &[u8; 81], coeffs: &[i16; 400]) -> Vec<u8> {
    let mut out = [FILL; 384];
    let given = sub_modes.as_ref().map_or(&[][..], |modes| &modes[..]);
    let number = expected::macroblock(&modes, given, record, coeffs, &mut out, &mut [0]);
    join(&[&reply(number), &out])
}

/// Combinations of edges: none, all, each alone, each missing, and those of a picture's places.
fn marks() -> Vec<usize> {
    let mut marks = vec![0, 1023];
    marks.extend((0..10).flat_map(|k| [1 << k, 1023 - (1 << k)]));
    // the first row past the first column; the first column past the first row, and without its top-left pixels; all but
    // above-right
    marks.extend([0b10_0100_1000, 0b01_1011_0111, 0b01_0010_0110, 0b11_1111_1011]);
    marks
}

/// Macroblocks with all their coefficients: each luma mode with each chroma mode, blocks of every kind.
fn dense(s: &mut Sample) {
    let combinations = marks();
    for k in 0..64 {
        // half of them in mode B
        let luma = if k % 2 == 0 { 4 } else { (k / 2 % 4) as u8 };
        let modes = [luma, (k / 8 % 4) as u8, u8::from(k % 16 == 15)];
        let record = data::record(&mut s.random, combinations[(5 * k + 1) % combinations.len()]);
        let sub_modes = data::sub_modes(&mut s.random);
        let given = (luma == 4 || k % 4 == 1).then_some(sub_modes);
        let mut coeffs = [0; 400];
        for block in coeffs.chunks_mut(16) {
            let kind = if k < 32 { k / 4 } else { s.random.below(data::BLOCKS) };
            data::block(&mut s.random, kind, block);
        }
        let input = join(&[&begin(modes, given, sub_modes, &record), &low_first(&coeffs)]);
        s.record(11, &input, &drawn(modes, given, &record, &coeffs));
    }
}

/// A macroblock with one number in all places but sixteen.
fn sparse(s: &mut Sample, modes: [u8; 3], sub_modes: Option<[u8; 16]>, record: &[u8; 81], all: i16) {
    let mut coeffs = [all; 400];
    let mut unused = [0; 16];
    s.random.bytes(&mut unused);
    let mut input = begin(modes, sub_modes, unused, record);
    input.extend(all.to_le_bytes());
    for _ in 0..16 {
        // half of them are DCs, and most are as small as a picture's
        let place = if s.random.once_in(2) { 16 * s.random.below(25) } else { s.random.below(400) };
        let value = if s.random.once_in(4) { s.random.of(&data::LIMITS) } else { s.random.below(1201) as i16 - 600 };
        coeffs[place] = value;
        input.extend((place as u16).to_le_bytes());
        input.extend(value.to_le_bytes());
    }
    s.record(14, &input, &drawn(modes, sub_modes, record, &coeffs));
}

/// Every combination of edges in every luma mode; every sub-block mode alone; then what is refused.
fn sparse_cases(s: &mut Sample) {
    let combinations = marks();
    for (k, &marks) in combinations.iter().enumerate() {
        for b in [false, true] {
            let modes = [if b { 4 } else { (k % 4) as u8 }, (k / 4 % 4) as u8, u8::from(k % 5 == 4)];
            let record = data::record(&mut s.random, marks);
            let sub_modes = data::sub_modes(&mut s.random);
            sparse(s, modes, b.then_some(sub_modes), &record, 0);
            let skipped = [modes[0], modes[1], 1];
            if k % 3 == 0 {
                sparse(s, skipped, b.then_some(sub_modes), &record, 1000);
            }
        }
    }
    for mode in 0..10 {
        for (skip, marks, all) in [(0, 1023, 0), (1, 0, 0), (1, 1023, 77), (0, 0, -3)] {
            let record = data::record(&mut s.random, marks);
            sparse(s, [4, mode % 4, skip], Some([mode; 16]), &record, all);
        }
    }
    for luma in 0..4 {
        for chroma in 0..4 {
            let record = data::record(&mut s.random, 1023);
            sparse(s, [luma, chroma, 0], None, &record, 0);
        }
    }
    refused_macroblocks(s);
}

/// Unknown bytes in each place, no sub-block modes, and both; sub-block bytes that are not looked at.
fn refused_macroblocks(s: &mut Sample) {
    let record = data::record(&mut s.random, 1023);
    for modes in [[5, 0, 0], [255, 0, 0], [0, 4, 0], [4, 255, 0], [0, 0, 2], [4, 0, 255]] {
        sparse(s, modes, Some([0; 16]), &record, 5);
    }
    for mark in 0..10 {
        let mut wrong = record;
        wrong[mark] = if mark % 2 == 0 { 2 } else { 255 };
        sparse(s, [if mark < 5 { 1 } else { 4 }, 0, 0], Some([0; 16]), &wrong, 5);
    }
    for place in [0, 7, 15] {
        let mut wrong = [9; 16];
        wrong[place] = 10;
        sparse(s, [4, 0, 0], Some(wrong), &record, 0);
        sparse(s, [3, 0, 0], Some(wrong), &record, 0);
    }
    let mut wrong = record;
    wrong[3] = 9;
    for skip in [0, 1] {
        sparse(s, [4, 0, skip], None, &record, 5);
        sparse(s, [4, 0, skip], None, &wrong, 5);
    }
}

// ---- gathering

/// Every place of pictures of at most six macroblocks, and the right-hand pixels of every row; sizes and places outside
/// the limits; planes of other lengths.
fn gather(s: &mut Sample) {
    for kind in 0..3 {
        let mut planes = PLANES.map(|length| vec![0; length]);
        for (k, plane) in planes.iter_mut().enumerate() {
            match kind {
                // pixels that tell their place
                0 => plane.iter_mut().enumerate().for_each(|(i, x)| *x = (i + i / 256 * 3 + 85 * k) as u8),
                1 => s.random.bytes(plane),
                _ => data::pixels(&mut s.random, 1, plane),
            }
        }
        s.record(13, &planes.concat(), &[]);
        for (cols, rows) in [(1, 1), (2, 1), (1, 2), (2, 2), (3, 2), (2, 3), (6, 1), (1, 6), (5, 1), (1, 5)] {
            for row in 0..rows {
                for col in 0..cols {
                    let count = cols * rows;
                    gathered(s, &planes, [256 * count, 64 * count, 64 * count], [cols, rows, col, row]);
                }
                right_given(s, &planes, 256 * cols * rows, [cols, rows, row]);
            }
        }
        if kind > 0 {
            continue;
        }
        let two = [512, 128, 128];
        for side in [0, 1025, 1 << 32, 1 << 56, usize::MAX] {
            gathered(s, &planes, two, [side, 1, 0, 0]);
            gathered(s, &planes, two, [1, side, 0, 0]);
            gathered(s, &planes, two, [side, side, 0, 0]);
            right_given(s, &planes, 512, [side, 2, 1]);
            right_given(s, &planes, 512, [1, side, 1]);
            right_given(s, &planes, 512, [1, 2, side]);
        }
        for place in [2, 3, 1024, 1 << 60, usize::MAX] {
            gathered(s, &planes, two, [2, 1, place, 0]);
            gathered(s, &planes, two, [1, 2, 0, place]);
            gathered(s, &planes, [0; 3], [2, 2, place, place]);
        }
        for lengths in [[511, 128, 128], [513, 128, 128], [512, 127, 128], [512, 129, 128], [512, 128, 127]] {
            gathered(s, &planes, lengths, [2, 1, 1, 0]);
        }
        for lengths in [[512, 128, 129], [0, 128, 128], [512, 0, 128], [512, 128, 0], [256, 64, 64], [1024, 256, 256]] {
            gathered(s, &planes, lengths, [1, 2, 0, 1]);
        }
        gathered(s, &planes, two, [1024, 1024, 1023, 1023]);
        right_given(s, &planes, 512, [1024, 1024, 1023]);
        for length in [0, 256, 511, 513, 1024] {
            right_given(s, &planes, length, [1, 2, 1]);
            right_given(s, &planes, length, [1, 2, 2]);
        }
    }
}

fn gathered(s: &mut Sample, planes: &[Vec<u8>; 3], lengths: [usize; 3], numbers: [usize; 4]) {
    let mut input = Vec::new();
    for length in lengths {
        input.extend((length as u16).to_le_bytes());
    }
    for number in numbers {
        input.extend((number as u64).to_le_bytes());
    }
    let mut right = [0; 4];
    s.random.bytes(&mut right);
    input.extend(right);
    let [y, u, v] = [0, 1, 2].map(|k| &planes[k][..lengths[k]]);
    let [cols, rows, col, row] = numbers;
    let mut record = [FILL; 81];
    let number = expected::gather(y, u, v, cols, rows, col, row, &right, &mut record);
    s.record(12, &input, &join(&[&reply(number), &record]));
}

fn right_given(s: &mut Sample, planes: &[Vec<u8>; 3], length: usize, numbers: [usize; 3]) {
    let mut input = (length as u16).to_le_bytes().to_vec();
    for number in numbers {
        input.extend((number as u64).to_le_bytes());
    }
    let [cols, rows, row] = numbers;
    let mut out = [FILL; 4];
    let number = expected::right_pixels(&planes[0][..length], cols, rows, row, &mut out);
    s.record(17, &input, &join(&[&reply(number), &out]));
}

// ---- lengths

/// Each slice of each function with lengths around the right one, the others right.
fn wrong_lengths(s: &mut Sample) {
    let right: [&[usize]; 13] = [
        &[2],
        &[16],
        &[16, 16],
        &[16],
        &[16, 16],
        &[16, 16],
        &[16, 16, 16],
        &[16, 16, 256],
        &[8, 8, 64],
        &[8, 4, 16],
        &[3, 16, 81, 400, 384],
        &[256, 64, 64, 4, 81],
        &[512, 4],
    ];
    for (k, right) in right.into_iter().enumerate() {
        let function = k as u8 + 1;
        for slice in 0..right.len() {
            for n in [0, 1, right[slice] - 1, right[slice] + 1, 2 * right[slice], 512] {
                let mut lengths = [0; 5];
                lengths[..right.len()].copy_from_slice(right);
                lengths[slice] = n.min(512);
                if refused_by_length(function, slice, lengths[slice]) {
                    let bytes: Vec<u8> = lengths.iter().flat_map(|&n| (n as u16).to_le_bytes()).collect();
                    s.record(16, &join(&[&[function], &bytes]), &reply(expected::WRONG_LENGTH));
                }
            }
        }
    }
}

/// Whether a slice of this length alone is refused by 1, nothing being written: not an absent edge or absent sub-block
/// modes, not a plane that blocks are added into, and not a plane that is read, where zeros are written then.
fn refused_by_length(function: u8, slice: usize, n: usize) -> bool {
    match (function, slice) {
        (8 | 9, 0 | 1) | (11, 1) => n != 0,
        (6, 1) | (12, 0..=2) | (13, 0) => false,
        _ => true,
    }
}

fn main() -> std::io::Result<()> {
    let mut s = Sample { bytes: Vec::new(), counts: [0; 18], random: Random::new(6386) };
    y1_factors(&mut s);
    dequant_block(&mut s);
    transform(&mut s, 3, expected::inverse_wht, 64);
    inverse_wht_dc_only(&mut s);
    transform(&mut s, 5, expected::inverse_dct, 128);
    add_into_64(&mut s);
    add_into_256(&mut s);
    add_residue(&mut s);
    predict(&mut s, 8, 16, expected::predict_y16x16, 8);
    predict(&mut s, 9, 8, expected::predict_uv8x8, 14);
    predict_b4x4(&mut s);
    dense(&mut s);
    sparse_cases(&mut s);
    gather(&mut s);
    wrong_lengths(&mut s);
    s.bytes.push(0);
    let check = checksum(&s.bytes);
    s.bytes.extend(check);
    for kind in &KINDS {
        eprintln!("{:3} {:4} records  {}", kind.number, s.counts[usize::from(kind.number)], kind.name);
    }
    eprintln!("    {:4} records, {} bytes", s.counts.iter().sum::<usize>(), s.bytes.len());
    std::io::stdout().write_all(&s.bytes)
}

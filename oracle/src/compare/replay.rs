//! The committed sample, replayed through the C interface: each record's input is handed to the library, whose answer
//! must be the record's expected bytes. A record has no count of clipped sums. Only the format is known here, and not
//! what is right.

use crate::library;
use crate::tally::{Run, Tally};
use judge::format::{checksum, Kind, FILL, KINDS, MOST, PLANES};

/// Input bytes, read from the front.
struct Input<'a>(&'a [u8]);

impl<'a> Input<'a> {
    fn bytes(&mut self, n: usize) -> &'a [u8] {
        let (first, rest) = self.0.split_at(n);
        self.0 = rest;
        first
    }

    fn array<const N: usize>(&mut self) -> [u8; N] {
        self.bytes(N).try_into().expect("N bytes")
    }

    fn byte(&mut self) -> u8 {
        self.bytes(1)[0]
    }

    fn length(&mut self) -> usize {
        usize::from(u16::from_le_bytes(self.array()))
    }

    fn short(&mut self) -> i16 {
        i16::from_le_bytes(self.array())
    }

    fn shorts(&mut self, n: usize) -> Vec<i16> {
        (0..n).map(|_| self.short()).collect()
    }

    fn long(&mut self) -> i32 {
        i32::from_le_bytes(self.array())
    }

    fn size(&mut self) -> usize {
        usize::try_from(u64::from_le_bytes(self.array())).expect("a size of 64 bits")
    }
}

/// An answer as a record has it: the reply, then what was written.
fn answer(reply: u32, written: &[u8]) -> Vec<u8> {
    let mut bytes = vec![u8::try_from(reply).unwrap_or(255)];
    bytes.extend(written);
    bytes
}

fn answer_in_shorts(reply: u32, written: &[i16]) -> Vec<u8> {
    answer(reply, &written.iter().flat_map(|x| x.to_le_bytes()).collect::<Vec<u8>>())
}

/// What every number of a slice holds that a function is to write.
const FILL_SHORT: i16 = i16::from_le_bytes([FILL; 2]);

/// The library's answer to a record's input. `planes` are those of the last kind 13 record.
fn replay(kind: u8, input: &[u8], planes: &mut [Vec<u8>; 3]) -> Vec<u8> {
    let mut i = Input(input);
    match kind {
        1 => {
            let mut out = [FILL_SHORT; 2];
            answer_in_shorts(library::y1_factors(i.long(), i.long(), &mut out), &out)
        }
        2 => {
            let mut coeffs = i.shorts(16);
            answer_in_shorts(library::dequant_block(&mut coeffs, i.short(), i.short()), &coeffs)
        }
        3 => {
            let mut out = [FILL_SHORT; 16];
            answer_in_shorts(library::inverse_wht(&i.shorts(16), &mut out), &out)
        }
        4 => {
            let mut out = [FILL_SHORT; 16];
            answer_in_shorts(library::inverse_wht_dc_only(i.short(), &mut out), &out)
        }
        5 => {
            let mut out = [FILL_SHORT; 16];
            answer_in_shorts(library::inverse_dct(&i.shorts(16), &mut out), &out)
        }
        6 | 15 => {
            let block = i.shorts(16);
            let (stride, sub_row, sub_col, length) = (i.size(), i.size(), i.size(), i.length());
            let mut plane = i.0.to_vec();
            let reply = library::inverse_dct_add_into(&block, &mut plane[..length], stride, sub_row, sub_col, &mut [0]);
            answer(reply, &plane)
        }
        7 => {
            let [p, r, o] = i.array().map(usize::from);
            let (prediction, residue) = (i.bytes(24), i.shorts(24));
            let mut out = [FILL; 24];
            answer(library::add_residue(&prediction[..p], &residue[..r], &mut out[..o]), &out)
        }
        8 => {
            let mut out = [FILL; 256];
            answer(predict(&mut i, 16, library::predict_y16x16, &mut out), &out)
        }
        9 => {
            let mut out = [FILL; 64];
            answer(predict(&mut i, 8, library::predict_uv8x8, &mut out), &out)
        }
        10 => {
            let mut out = [FILL; 16];
            answer(library::predict_b4x4(i.byte(), i.bytes(8), i.bytes(4), i.byte(), &mut out), &out)
        }
        11 | 14 => {
            let mut out = [FILL; 384];
            let (modes, given) = (i.bytes(3), usize::from(i.byte()));
            let (sub_modes, record) = (i.bytes(16), i.bytes(81));
            let coeffs = if kind == 11 { i.shorts(400) } else { sparse(&mut i) };
            answer(library::macroblock(modes, &sub_modes[..given], record, &coeffs, &mut out, &mut [0]), &out)
        }
        12 => {
            let mut record = [FILL; 81];
            let [y, u, v] = planes.each_ref().map(|plane| &plane[..i.length()]);
            let [cols, rows, col, row] = std::array::from_fn(|_| i.size());
            let reply = library::gather(y, u, v, cols, rows, col, row, i.bytes(4), &mut record);
            answer(reply, &record)
        }
        13 => {
            *planes = PLANES.map(|length| i.bytes(length).to_vec());
            Vec::new()
        }
        17 => {
            let mut out = [FILL; 4];
            let y = &planes[0][..i.length()];
            answer(library::right_pixels(y, i.size(), i.size(), i.size(), &mut out), &out)
        }
        _ => wrong_lengths(&mut i),
    }
}

/// A prediction with edges of `n` pixels that may be absent.
fn predict(i: &mut Input, n: usize, predict: crate::predictions::Predict, out: &mut [u8]) -> u32 {
    let mode = i.byte();
    let above_len = usize::from(i.byte());
    let above = &i.bytes(n)[..above_len];
    let left_len = usize::from(i.byte());
    let left = &i.bytes(n)[..left_len];
    predict(mode, above, left, i.byte(), out)
}

/// 400 times one number, then sixteen places set in turn.
fn sparse(i: &mut Input) -> Vec<i16> {
    let mut coeffs = vec![i.short(); 400];
    for _ in 0..16 {
        let place = i.length();
        coeffs[place] = i.short();
    }
    coeffs
}

/// A function with slices of the given lengths. Slices that are written hold 0xA5 in every byte, before and, since each
/// such call is refused, afterwards; all others hold zeros.
fn wrong_lengths(i: &mut Input) -> Vec<u8> {
    let function = i.byte();
    let [a, b, c, d, e] = std::array::from_fn(|_| i.length());
    let (zeros, zero_shorts) = ([0; MOST], [0; MOST]);
    let (mut out, mut out_shorts) = ([FILL; MOST], [FILL_SHORT; MOST]);
    let reply = match function {
        1 => library::y1_factors(0, 0, &mut out_shorts[..a]),
        2 => library::dequant_block(&mut out_shorts[..a], 1, 1),
        3 => library::inverse_wht(&zero_shorts[..a], &mut out_shorts[..b]),
        4 => library::inverse_wht_dc_only(0, &mut out_shorts[..a]),
        5 => library::inverse_dct(&zero_shorts[..a], &mut out_shorts[..b]),
        6 => library::inverse_dct_add_into(&zero_shorts[..a], &mut out[..b], 4, 0, 0, &mut [0]),
        7 => library::add_residue(&zeros[..a], &zero_shorts[..b], &mut out[..c]),
        8 => library::predict_y16x16(0, &zeros[..a], &zeros[..b], 0, &mut out[..c]),
        9 => library::predict_uv8x8(0, &zeros[..a], &zeros[..b], 0, &mut out[..c]),
        10 => library::predict_b4x4(0, &zeros[..a], &zeros[..b], 0, &mut out[..c]),
        11 => library::macroblock(&zeros[..a], &zeros[..b], &zeros[..c], &zero_shorts[..d], &mut out[..e], &mut [0]),
        12 => library::gather(&zeros[..a], &zeros[..b], &zeros[..c], 1, 1, 0, 0, &zeros[..d], &mut out[..e]),
        _ => library::right_pixels(&zeros[..a], 1, 2, 1, &mut out[..b]),
    };
    let kept = out == [FILL; MOST] && out_shorts == [FILL_SHORT; MOST];
    answer(if kept { reply } else { 255 }, &[])
}

/// Replays a sample. A file that is not of the format is a difference too.
pub fn sample(bytes: &[u8], run: &mut Run) {
    let mut tally = Tally::new("sample");
    let mut planes = PLANES.map(|length| vec![0; length]);
    let mut at = 0;
    loop {
        let number = bytes.get(at).copied().unwrap_or(0);
        let Some(&Kind { input, expected, .. }) = KINDS.iter().find(|kind| kind.number == number) else { break };
        let record = bytes.get(at + 1..at + 1 + input + expected);
        let Some((input, expected)) = record.map(|record| record.split_at(input)) else { break };
        let equal = replay(number, input, &mut planes) == expected;
        tally.count(equal, || format!("record at byte {at}, kind {number}"));
        at += 1 + input.len() + expected.len();
    }
    let end = bytes.get(at) == Some(&0) && bytes[at + 1..] == checksum(&bytes[..=at]);
    tally.count(end, || format!("no end and checksum at byte {at}"));
    tally.end(run);
}

//! Loose macroblocks: each is what its own call draws and what its room shows in its place, whatever becomes of the
//! others.

use std::fs;
use std::path::Path;
use zopredil::*;

/// What the lists that are written hold before a call.
const MARK: u8 = 0xA5;
const COUNT: u64 = 0xA5A5_A5A5_A5A5;

/// Numbers by chance, the same in every run.
struct Chance(u32);

impl Chance {
    fn below(&mut self, n: usize) -> usize {
        self.0 = self.0.wrapping_mul(1664525).wrapping_add(1013904223);
        (self.0 >> 16) as usize % n
    }

    fn byte(&mut self) -> u8 {
        self.below(256) as u8
    }
}

/// The lists of a shelf.
#[derive(Clone, Default)]
struct Lists {
    modes: Vec<u8>,
    records: Vec<u8>,
    sub_modes: Vec<u8>,
    coeffs: Vec<i16>,
}

/// What stands in the lists after a call: the bytes and the reply of each item, and the count.
#[derive(Debug, Clone, PartialEq, Eq)]
struct Drawn {
    out: Vec<u8>,
    replies: Vec<u8>,
    clipped: u64,
}

impl Drawn {
    fn item(&self, k: usize) -> &[u8] {
        &self.out[384 * k..384 * k + 384]
    }

    /// The same after a damage to item `k`, which alone has so many clipped sums.
    fn without(&self, k: usize, clipped: u64) -> Drawn {
        let mut drawn = self.clone();
        drawn.out[384 * k..384 * k + 384].fill(0);
        drawn.replies[k] = 8;
        drawn.clipped -= clipped;
        drawn
    }
}

impl Lists {
    /// Items of every kind: each luma mode in turn, each chroma mode, some skipped, each edge there in two of three.
    fn new(count: usize) -> Lists {
        let mut chance = Chance(2024);
        let mut lists = Lists::default();
        for k in 0..count {
            let modes = [(k % 5) as u8, chance.below(4) as u8, u8::from(k % 7 == 6)];
            let record: [u8; 81] =
                std::array::from_fn(|i| if i < 10 { u8::from(chance.below(3) > 0) } else { chance.byte() });
            let sub_modes: [u8; 16] = std::array::from_fn(|_| chance.below(10) as u8);
            let coeffs: [i16; 400] =
                std::array::from_fn(|i| if i % 16 < 3 { chance.below(1201) as i16 - 600 } else { 0 });
            lists.push(&modes, &record, &sub_modes, &coeffs);
        }
        lists
    }

    fn push(&mut self, modes: &[u8], record: &[u8], sub_modes: &[u8], coeffs: &[i16]) {
        self.modes.extend(modes);
        self.records.extend(record);
        self.sub_modes.extend(sub_modes);
        self.coeffs.extend(coeffs);
    }

    fn count(&self) -> usize {
        self.modes.len() / 3
    }

    fn jobs(&self) -> Vec<Job<'_>> {
        let job = |k: usize| Job {
            modes: self.modes[3 * k..3 * k + 3].try_into().unwrap(),
            record: self.records[81 * k..81 * k + 81].try_into().unwrap(),
            sub_modes: self.sub_modes[16 * k..16 * k + 16].try_into().unwrap(),
            coeffs: self.coeffs[400 * k..400 * k + 400].try_into().unwrap(),
        };
        (0..self.count()).map(job).collect()
    }

    /// All of them through the C interface, which must not refuse them, nor write past the lists.
    fn draw(&self) -> Drawn {
        let count = self.count();
        let (mut out, mut replies) = (vec![MARK; 384 * count + 384], vec![MARK; count + 1]);
        let mut clipped = [COUNT; 2];
        let reply = unsafe {
            raw::zopredil_shelf(
                self.modes.as_ptr(),
                self.modes.len(),
                self.records.as_ptr(),
                self.records.len(),
                self.sub_modes.as_ptr(),
                self.sub_modes.len(),
                self.coeffs.as_ptr(),
                self.coeffs.len(),
                out.as_mut_ptr(),
                384 * count,
                replies.as_mut_ptr(),
                count,
                clipped.as_mut_ptr(),
                1,
            )
        };
        assert_eq!(reply, 0);
        assert_eq!((out.split_off(384 * count), replies.split_off(count)), (vec![MARK; 384], vec![MARK]));
        assert_eq!(clipped[1], COUNT);
        Drawn { out, replies, clipped: clipped[0] }
    }

    /// Item `k` by a call of its own: its bytes, its reply and its count.
    fn alone(&self, k: usize) -> (Vec<u8>, u8, u64) {
        let (mut out, mut clipped) = (vec![MARK; 384], [COUNT]);
        let reply = unsafe {
            raw::zopredil_macroblock(
                self.modes[3 * k..].as_ptr(),
                3,
                self.sub_modes[16 * k..].as_ptr(),
                16,
                self.records[81 * k..].as_ptr(),
                81,
                self.coeffs[400 * k..].as_ptr(),
                400,
                out.as_mut_ptr(),
                out.len(),
                clipped.as_mut_ptr(),
                clipped.len(),
            )
        };
        (out, u8::try_from(reply).unwrap(), clipped[0])
    }

    /// Every item by a call of its own.
    fn one_by_one(&self) -> Drawn {
        let mut drawn = Drawn { out: Vec::new(), replies: Vec::new(), clipped: 0 };
        for k in 0..self.count() {
            let (out, reply, clipped) = self.alone(k);
            drawn.out.extend(out);
            drawn.replies.push(reply);
            drawn.clipped += clipped;
        }
        drawn
    }
}

/// An included room: the lists of its still, its finished planes, its clipped sums.
struct Room {
    cols: usize,
    rows: usize,
    modes: Vec<u8>,
    sub_modes: Vec<u8>,
    coeffs: Vec<i16>,
    planes: [Vec<u8>; 3],
    clipped: u64,
}

impl Room {
    /// Reads a still file, which `cli/src/still_file.rs` describes, and draws it.
    fn new(name: &str) -> Room {
        let file = Path::new(env!("CARGO_MANIFEST_DIR")).join("../../examples").join(name).with_extension("still");
        let bytes = fs::read(file).unwrap();
        let [cols, rows] = [16, 20].map(|at| u32::from_le_bytes(bytes[at..at + 4].try_into().unwrap()) as usize);
        let count = cols * rows;
        let (modes, rest) = bytes[24..].split_at(3 * count);
        let (sub_modes, coeffs) = rest.split_at(16 * count);
        assert_eq!(coeffs.len(), 800 * count);
        let coeffs: Vec<i16> = coeffs.chunks(2).map(|two| i16::from_le_bytes(two.try_into().unwrap())).collect();
        let mut planes = [256, 64, 64].map(|each| vec![MARK; each * count]);
        let [y, u, v] = &mut planes;
        let given = Still { cols, rows, modes, sub_modes, coeffs: &coeffs };
        let clipped = still_alone(&given, PlanesMut { y, u, v }).unwrap();
        Room { cols, rows, modes: modes.to_vec(), sub_modes: sub_modes.to_vec(), coeffs, planes, clipped }
    }

    fn all() -> [Room; 3] {
        ["hall", "chapel", "studio"].map(Room::new)
    }

    fn count(&self) -> usize {
        self.cols * self.rows
    }

    /// Whether a macroblock stands in the first or last row or column.
    fn rim(&self, k: usize) -> bool {
        let (row, col) = (k / self.cols, k % self.cols);
        row == 0 || row + 1 == self.rows || col == 0 || col + 1 == self.cols
    }

    /// Puts a macroblock on a shelf, with its neighbours from the finished planes.
    fn put(&self, k: usize, lists: &mut Lists) {
        let (cols, rows, row, col) = (self.cols, self.rows, k / self.cols, k % self.cols);
        let [y, u, v] = &self.planes;
        let right = if row == 0 { [0; 4] } else { right_pixels(y, cols, rows, row).unwrap() };
        let record = gather(y, u, v, cols, rows, col, row, right).unwrap().to_bytes();
        let (modes, sub_modes) = (&self.modes[3 * k..][..3], &self.sub_modes[16 * k..][..16]);
        lists.push(modes, &record, sub_modes, &self.coeffs[400 * k..][..400]);
    }

    /// The macroblock in the finished planes.
    fn shown(&self, k: usize) -> MbPlanes {
        let (row, col) = (k / self.cols, k % self.cols);
        let pixel = |plane: &[u8], n: usize, i: usize| plane[(n * row + i / n) * n * self.cols + n * col + i % n];
        let [y, u, v] = &self.planes;
        MbPlanes {
            y: std::array::from_fn(|i| pixel(y, 16, i)),
            u: std::array::from_fn(|i| pixel(u, 8, i)),
            v: std::array::from_fn(|i| pixel(v, 8, i)),
        }
    }
}

/// The lists of macroblocks, each by its room and its raster index, and their shelf: each is as its room shows it.
fn shown_on_a_shelf(rooms: &[Room], places: &[(usize, usize)]) -> (Lists, Shelf) {
    let mut lists = Lists::default();
    for &(room, k) in places {
        rooms[room].put(k, &mut lists);
    }
    let drawn = shelf(&lists.jobs());
    assert_eq!(drawn.items.len(), places.len());
    for (&(room, k), item) in places.iter().zip(&drawn.items) {
        assert_eq!(*item, Ok(rooms[room].shown(k)), "room {room}, macroblock {k}");
    }
    (lists, drawn)
}

#[test]
fn scattered_macroblocks_are_those_of_their_rooms() {
    let rooms = Room::all();
    let mut chance = Chance(7);
    let mut places = Vec::new();
    for (room, of) in rooms.iter().enumerate() {
        // the rim, and of what is inside one in three
        places.extend((0..of.count()).filter(|&k| of.rim(k) || chance.below(3) == 0).map(|k| (room, k)));
    }
    for last in (1..places.len()).rev() {
        places.swap(last, chance.below(last + 1));
    }
    let (lists, drawn) = shown_on_a_shelf(&rooms, &places);
    assert!(lists.modes.chunks(3).any(|modes| modes[2] == 1));
    for luma in 0..5 {
        assert!(lists.modes.chunks(3).any(|modes| modes[0] == luma));
    }
    let one_by_one: u64 = (0..places.len()).map(|k| lists.alone(k).2).sum();
    assert!(one_by_one > 0);
    assert_eq!(drawn.clipped, one_by_one);
    // and the crate's function is the C function
    let listed = lists.draw();
    assert_eq!(listed, lists.one_by_one());
    assert_eq!(listed.clipped, drawn.clipped);
}

#[test]
fn whole_rooms_on_a_shelf_have_their_clipped_sums() {
    let rooms = Room::all();
    let mut everything = Vec::new();
    for (room, of) in rooms.iter().enumerate() {
        let backwards: Vec<(usize, usize)> = (0..of.count()).rev().map(|k| (room, k)).collect();
        assert_eq!(shown_on_a_shelf(&rooms, &backwards).1.clipped, of.clipped);
        everything.extend(backwards);
    }
    let drawn = shown_on_a_shelf(&rooms, &everything).1;
    assert_eq!((drawn.items.len(), drawn.clipped), (350, rooms.iter().map(|room| room.clipped).sum()));
    assert!(rooms[2].clipped > 0); // the studio's onset is clipped to white
}

#[test]
fn a_shelf_is_its_macroblocks_one_by_one() {
    for count in [1, 2, 3, 70] {
        let lists = Lists::new(count);
        let drawn = lists.draw();
        assert_eq!(drawn, lists.one_by_one());
        assert_eq!(drawn.replies, vec![0; count]);
        let by_crate = shelf(&lists.jobs());
        assert_eq!(by_crate.clipped, drawn.clipped);
        for (k, item) in by_crate.items.into_iter().enumerate() {
            let MbPlanes { y, u, v } = item.unwrap();
            assert_eq!([&y[..], &u, &v].concat(), drawn.item(k));
        }
    }
    assert!(Lists::new(70).draw().clipped > 70);
}

/// Item `k` damaged: it is zeros and reply 8, and every other item as it was.
fn damaged(good: &Lists, k: usize, damage: impl FnOnce(&mut Lists)) {
    let whole = good.draw();
    let mut lists = good.clone();
    damage(&mut lists);
    assert_eq!(lists.alone(k), (vec![0; 384], 8, 0));
    assert_eq!(lists.draw(), whole.without(k, good.alone(k).2));
    let (items, before) = (shelf(&lists.jobs()).items, shelf(&good.jobs()).items);
    for (other, (item, before)) in items.into_iter().zip(before).enumerate() {
        assert_eq!(item, if other == k { Err(Reply::UnknownByte) } else { before });
    }
}

#[test]
fn a_damaged_item_between_good_ones() {
    let count = 11;
    let good = Lists::new(count);
    for k in 0..count {
        for (part, bytes) in [(0, [5, 255]), (1, [4, 255]), (2, [2, 255])] {
            for byte in bytes {
                damaged(&good, k, |lists| lists.modes[3 * k + part] = byte);
            }
        }
        for mark in 0..10 {
            for byte in [2, 255] {
                damaged(&good, k, |lists| lists.records[81 * k + mark] = byte);
            }
        }
    }
}

#[test]
fn a_damaged_sub_block_in_mode_b() {
    let count = 6;
    for k in 0..count {
        for skip in [0, 1] {
            let mut good = Lists::new(count);
            good.modes[3 * k] = 4;
            good.modes[3 * k + 2] = skip;
            for place in 0..16 {
                for byte in [10, 255] {
                    damaged(&good, k, |lists| lists.sub_modes[16 * k + place] = byte);
                }
            }
        }
    }
}

#[test]
fn sub_block_bytes_of_other_modes_are_not_looked_at() {
    let good = Lists::new(20);
    let mut lists = good.clone();
    for (modes, sub_modes) in lists.modes.chunks(3).zip(lists.sub_modes.chunks_mut(16)) {
        if modes[0] != 4 {
            sub_modes.fill(255);
        }
    }
    assert_ne!(lists.sub_modes, good.sub_modes);
    assert_eq!(lists.draw(), good.draw());
}

#[test]
fn several_damaged_items() {
    let good = Lists::new(9);
    let (mut lists, mut wanted) = (good.clone(), good.draw());
    for k in [0, 3, 4, 8] {
        lists.modes[3 * k + 1] = 9;
        wanted = wanted.without(k, good.alone(k).2);
        assert_eq!(lists.draw(), wanted);
    }
    assert!(wanted.clipped > 0);
    lists.modes.fill(9);
    assert_eq!(lists.draw(), Drawn { out: vec![0; 384 * 9], replies: vec![8; 9], clipped: 0 });
}

#[test]
fn an_empty_shelf() {
    assert_eq!(shelf(&[]), Shelf { items: Vec::new(), clipped: 0 });
    assert_eq!(Lists::default().draw(), Drawn { out: Vec::new(), replies: Vec::new(), clipped: 0 });
    let (none, numbers, mut clipped) = (std::ptr::null(), std::ptr::null(), [COUNT]);
    let (out, count) = (std::ptr::null_mut(), clipped.as_mut_ptr());
    let reply = unsafe { raw::zopredil_shelf(none, 0, none, 0, none, 0, numbers, 0, out, 0, out, 0, count, 1) };
    assert_eq!((reply, clipped), (0, [0]));
}

/// After a change of item `k`: its own bytes are others where it `moves`, those of every other item are as before, and
/// of the total only its own part is another.
fn moved(good: &Lists, k: usize, moves: bool, change: impl FnOnce(&mut Lists)) {
    let before = good.draw();
    let mut lists = good.clone();
    change(&mut lists);
    let after = lists.draw();
    for other in 0..good.count() {
        let same = after.item(other) == before.item(other);
        assert_eq!(same, other != k || !moves, "item {other} after a change of {k}");
    }
    assert_eq!(after.replies, before.replies);
    assert_eq!(after.clipped, before.clipped - good.alone(k).2 + lists.alone(k).2);
}

#[test]
fn coefficients_of_an_item_move_it_alone() {
    let count = 14;
    let good = Lists::new(count);
    for k in 0..count {
        let (in_b, skipped) = (good.modes[3 * k] == 4, good.modes[3 * k + 2] == 1);
        // the first of Y2, the last but one of Y, the first of U, the last of V
        for place in [0, 270, 272, 399] {
            let unused = skipped || in_b && place == 0;
            let coeff = 400 * k + place;
            moved(&good, k, !unused, |lists| lists.coeffs[coeff] = if lists.coeffs[coeff] > 0 { -1400 } else { 1400 });
        }
    }
    let kinds: Vec<&[u8]> = good.modes.chunks(3).collect();
    assert!(kinds.iter().any(|modes| modes[2] == 1));
    assert!(kinds.iter().any(|modes| modes[0] == 4 && modes[2] == 0));
}

#[test]
fn modes_and_neighbours_of_an_item_move_it_alone() {
    let count = 10;
    let mut good = Lists::new(count);
    good.modes.chunks_mut(3).for_each(|modes| modes[2] = 1); // the pixels are their prediction
    good.records.chunks_mut(81).for_each(|record| record[..10].fill(1));
    for k in 0..count {
        let in_b = good.modes[3 * k] == 4;
        moved(&good, k, true, |lists| lists.modes[3 * k] = (lists.modes[3 * k] + 1) % 5);
        moved(&good, k, true, |lists| lists.modes[3 * k + 1] = (lists.modes[3 * k + 1] + 1) % 4);
        moved(&good, k, true, |lists| lists.records[81 * k + 10..81 * k + 81].iter_mut().for_each(|p| *p ^= 85));
        moved(&good, k, in_b, |lists| lists.sub_modes[16 * k..16 * k + 16].iter_mut().for_each(|m| *m = 9 - *m));
    }
}

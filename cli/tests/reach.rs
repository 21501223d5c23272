//! What may move, as the program draws it; and that all of it does: each macroblock of a still is changed in turn, the still is
//! drawn again, and the macroblocks that differ are those of the drawing, no more and no fewer.

mod shared;

use shared::{drawn, folder, refused};
use zopredil::{still, still_alone, PlanesMut, Reply, Still, StillRefused};

const COLS: usize = 5;
const ROWS: usize = 4;
const COUNT: usize = COLS * ROWS;

/// The numbers of luma mode B, of two chroma modes and of three sub-block modes.
const B: u8 = 4;
const V: u8 = 1;
const H: u8 = 2;
const VE: u8 = 2;
const HE: u8 = 3;
const LD: u8 = 4;

/// The drawing under the line that begins with this word: which places may move.
fn drawing(said: &str, word: &str) -> Vec<bool> {
    let after = said.lines().skip_while(|line| !line.starts_with(word)).skip(1);
    let rows = after.take_while(|line| !line.is_empty());
    rows.flat_map(|row| row.split_whitespace().map(|mark| mark != ".")).collect()
}

/// A still in which a change of macroblock k goes as far as it can: to the right up to its row, and below it down to the
/// left, in the last column straight down.
struct Room {
    modes: Vec<u8>,
    sub_modes: Vec<u8>,
    coeffs: Vec<i16>,
}

impl Room {
    fn new(k: usize) -> Room {
        let below = |j: usize| j / COLS > k / COLS;
        let sub_mode = |j: usize| match below(j) {
            false => HE,
            true if j % COLS + 1 == COLS => VE,
            true => LD,
        };
        Room {
            modes: (0..COUNT).flat_map(|j| [B, if below(j) { V } else { H }, 0]).collect(),
            sub_modes: (0..COUNT).flat_map(|j| [sub_mode(j); 16]).collect(),
            coeffs: vec![0; 400 * COUNT],
        }
    }

    /// Macroblock k is made lighter, every block of it.
    fn changed(mut self, k: usize) -> Room {
        for block in 1..25 {
            self.coeffs[400 * k + 16 * block] = 800;
        }
        self
    }

    /// The planes, found full of `found`, by either call.
    fn drawn(&self, alone: bool, found: u8) -> ([Vec<u8>; 3], Result<u64, StillRefused>) {
        let (mut y, mut u, mut v) = (vec![found; 256 * COUNT], vec![found; 64 * COUNT], vec![found; 64 * COUNT]);
        let Room { modes, sub_modes, coeffs } = self;
        let given = Still { cols: COLS, rows: ROWS, modes, sub_modes, coeffs };
        let planes = PlanesMut { y: &mut y, u: &mut u, v: &mut v };
        let answer = if alone { still_alone(&given, planes) } else { still(&given, &[127; 4 * (ROWS - 1)], planes) };
        ([y, u, v], answer)
    }
}

/// Whether macroblock j differs in a plane that has `side` pixels a side of it.
fn differs(side: usize, one: &[u8], two: &[u8], j: usize) -> bool {
    let stride = side * COLS;
    let first = side * (j / COLS) * stride + side * (j % COLS);
    (0..side).any(|i| {
        let row = first + i * stride..first + i * stride + side;
        one[row.clone()] != two[row]
    })
}

#[test]
fn what_may_move_moves_and_nothing_else() {
    let folder = folder("reach");
    for k in 0..COUNT {
        let said = drawn(&folder, &["reach", &format!("{COLS}x{ROWS}"), &k.to_string()]);
        let (luma, chroma) = (drawing(&said, "luma"), drawing(&said, "chroma"));
        assert_eq!((luma.len(), chroma.len()), (COUNT, COUNT), "{said}");
        for alone in [false, true] {
            let (before, first) = Room::new(k).drawn(alone, 0);
            let (after, second) = Room::new(k).changed(k).drawn(alone, 255);
            assert!(first.is_ok() && second.is_ok());
            for (plane, side, moves) in [(0, 16, &luma), (1, 8, &chroma), (2, 8, &chroma)] {
                let moved: Vec<bool> = (0..COUNT).map(|j| differs(side, &before[plane], &after[plane], j)).collect();
                assert_eq!(&moved, moves, "macroblock {k}, plane {plane}, alone {alone}");
            }
        }
    }
}

#[test]
fn a_refused_still_agrees_before() {
    for k in 0..COUNT {
        for alone in [false, true] {
            let mut bad = Room::new(k);
            bad.modes[3 * k] = 9;
            let (before, first) = Room::new(k).changed(k).drawn(alone, 0);
            let (after, second) = bad.drawn(alone, 255);
            let refused = second.unwrap_err();
            assert_eq!((refused.reply, refused.macroblock), (Reply::UnknownByte, k));
            assert!(refused.clipped <= first.unwrap());
            for (plane, side) in [(0, 16), (1, 8), (2, 8)] {
                assert!((0..k).all(|j| !differs(side, &before[plane], &after[plane], j)));
                assert!(differs(side, &before[plane], &after[plane], k));
            }
        }
    }
}

#[test]
fn a_sub_block() {
    let folder = folder("reach-sub");
    let said = drawn(&folder, &["reach", "3x2", "1", "6"]);
    let expected = "\
macroblock 1, row 0, column 1 of 3x2

luma of its sub-blocks: 9 of 16 may move
    . . . .
    . . # x
    . x x x
    x x x x

luma: 5 of 6 may move
    . # x
    x x x

chroma: none may move
";
    assert_eq!(said, expected);
}

#[test]
fn wrong_places_are_one_line() {
    let folder = folder("reach-wrong");
    for words in [&["3x2", "6"][..], &["3x2", "0", "16"], &["1025x1", "0"], &["3x2"], &["3", "0"], &["3x2", "0", "-q"]]
    {
        refused(&folder, &[&["reach"], words].concat(), 2);
    }
}

//! What may move where a macroblock or a sub-block is changed. Prediction reads to the left, above left, above and, in luma,
//! above right: a change spreads to the right, down, and in luma down to the left. docs/WHAT-MAY-MOVE.md names the theorem
//! of each drawing.

use crate::command::{Command, Failure, Said};
use crate::words::{size, Word, Words};
use std::ffi::OsStr;

pub const COMMAND: Command = Command { name: "reach", help: include_str!("../help/reach.txt"), run };

/// The library's longest side, in macroblocks.
const LONGEST: usize = 1024;

/// A grid of macroblocks, or of a macroblock's sub-blocks, and the place in it that is changed.
#[derive(Debug, Clone, Copy, PartialEq, Eq)]
struct Grid {
    cols: usize,
    rows: usize,
    changed: usize,
}

/// What is drawn.
#[derive(Debug, PartialEq, Eq)]
struct Job {
    still: Grid,
    sub: Option<usize>,
}

/// May the place in row `r` and column `c` move where the one in row `kr` and column `kc` is changed?
type Moves = fn(r: usize, c: usize, kr: usize, kc: usize) -> bool;

fn luma(r: usize, c: usize, kr: usize, kc: usize) -> bool {
    r >= kr && c + (r - kr) >= kc
}

fn chroma(r: usize, c: usize, kr: usize, kc: usize) -> bool {
    r >= kr && c >= kc
}

impl Grid {
    fn at(self) -> (usize, usize) {
        (self.changed / self.cols, self.changed % self.cols)
    }

    /// How many places may move, and the drawing, a line for each row.
    fn drawn(self, moves: Moves) -> (usize, String) {
        let (kr, kc) = self.at();
        let mut count = 0;
        let mut lines = String::new();
        for r in 0..self.rows {
            lines.push_str("\n   ");
            for c in 0..self.cols {
                let may = moves(r, c, kr, kc);
                count += usize::from(may);
                lines.push_str(if (r, c) == (kr, kc) {
                    " #"
                } else if may {
                    " x"
                } else {
                    " ."
                });
            }
        }
        (count, lines)
    }
}

fn run(words: Words) -> Result<Said, Failure> {
    Ok(Said::Here(text(&job(words)?)))
}

fn text(job: &Job) -> String {
    let still = job.still;
    let (row, col) = still.at();
    let (moved, lines) = still.drawn(luma);
    let all = still.cols * still.rows;
    let mut text = format!("macroblock {}, row {row}, column {col} of {}x{}", still.changed, still.cols, still.rows);
    if let Some(sub) = job.sub {
        let grid = Grid { cols: 4, rows: 4, changed: sub };
        let (moved, lines) = grid.drawn(luma);
        text += &format!("\n\nluma of its sub-blocks: {moved} of 16 may move{lines}");
    }
    text += &format!("\n\nluma: {moved} of {all} may move{lines}");
    if job.sub.is_some() {
        return text + "\n\nchroma: none may move";
    }
    let (moved, lines) = still.drawn(chroma);
    text + &format!("\n\nchroma: {moved} of {all} may move{lines}")
}

fn job(words: Words) -> Result<Job, Failure> {
    let wrong = |why: String| Err(Failure::Words(why));
    let mut given = Vec::new();
    for word in words {
        match word {
            Word::Option(option) => return wrong(format!("unknown option {option}")),
            Word::File(word) => given.push(word),
        }
    }
    let (sides, changed, sub) = match given.as_slice() {
        [sides, changed] => (sides, changed, None),
        [sides, changed, sub] => (sides, changed, Some(sub)),
        _ => return wrong("reach wants COLSxROWS, a macroblock and perhaps a sub-block".to_string()),
    };
    let (cols, rows) = size("reach", sides)?;
    let (cols, rows) = (cols as usize, rows as usize);
    if cols > LONGEST || rows > LONGEST {
        return wrong(format!("{cols}x{rows} is too large: a side has 1 to {LONGEST} macroblocks"));
    }
    let changed = below(changed, cols * rows, "macroblock")?;
    let sub = sub.map(|sub| below(sub, 16, "sub-block")).transpose()?;
    Ok(Job { still: Grid { cols, rows, changed }, sub })
}

/// A number below `end`.
fn below(word: &OsStr, end: usize, what: &str) -> Result<usize, Failure> {
    let digits = word.to_str().filter(|text| !text.is_empty() && text.bytes().all(|digit| digit.is_ascii_digit()));
    let number = digits.and_then(|digits| digits.parse().ok()).filter(|&n: &usize| n < end);
    number.ok_or_else(|| Failure::Words(format!("{} is no {what} of 0 to {}", word.display(), end - 1)))
}

#[cfg(test)]
mod tests {
    use super::*;
    use std::ffi::OsString;

    fn asked(line: &str) -> Result<Job, Failure> {
        job(Words::new(line.split_whitespace().map(OsString::from)))
    }

    #[test]
    fn places() {
        let still = Grid { cols: 8, rows: 5, changed: 19 };
        assert_eq!(asked("8x5 19"), Ok(Job { still, sub: None }));
        assert_eq!(asked("8x5 19 15"), Ok(Job { still, sub: Some(15) }));
        assert!(asked("1024x1024 1048575").is_ok());
        let wrong = "8x5;8x5 40;8x5 -1;8x5 1 16;8x5 a;8x5 1 2 3;0x5 0;8 5 1;1025x1 0;1x1025 0;8x5 1 -s;8x5 ٣;8x5 +3";
        for line in ["", "19", "8x5 99999999999999999999999"].into_iter().chain(wrong.split(';')) {
            assert!(matches!(asked(line), Err(Failure::Words(why)) if !why.contains('\n')), "{line}");
        }
    }

    #[test]
    fn the_drawings_of_the_page() {
        let page = include_str!("../../docs/WHAT-MAY-MOVE.md");
        let rows = |text: &str| -> Vec<String> { text.lines().map(|line| line.trim().to_string()).collect() };
        let (_, sub) = Grid { cols: 4, rows: 4, changed: 6 }.drawn(luma);
        let still = Grid { cols: 8, rows: 5, changed: 19 };
        let (_, left) = still.drawn(luma);
        let (_, right) = still.drawn(chroma);
        let page = rows(page);
        let shows = |lines: &[String]| {
            page.windows(lines.len()).any(|some| some.iter().zip(lines).all(|(line, row)| line.starts_with(row)))
        };
        assert!(shows(&rows(sub.trim_start_matches('\n'))));
        let beside: Vec<String> = rows(left.trim_start_matches('\n'))
            .iter()
            .zip(rows(right.trim_start_matches('\n')))
            .map(|(luma, chroma)| format!("{luma}            {chroma}"))
            .collect();
        assert!(shows(&beside));
    }

    #[test]
    fn nothing_before_moves_and_each_reads_only_what_it_may() {
        for (cols, rows) in [(1, 1), (1, 4), (5, 1), (4, 4), (7, 6)] {
            for k in 0..cols * rows {
                let (kr, kc) = (k / cols, k % cols);
                for (moves, above_right) in [(luma as Moves, true), (chroma as Moves, false)] {
                    let may = |r: usize, c: usize| moves(r, c, kr, kc);
                    for j in 0..cols * rows {
                        let (r, c) = (j / cols, j % cols);
                        assert!(j >= k || !may(r, c));
                        let reads = [(0, 1), (1, 0), (1, 1)].into_iter();
                        let reads = reads.filter(|&(up, left)| r >= up && c >= left);
                        let mut reads: Vec<_> = reads.map(|(up, left)| (r - up, c - left)).collect();
                        if above_right && r > 0 && c + 1 < cols {
                            reads.push((r - 1, c + 1));
                        }
                        // exactly: the place itself, and what reads a place that may move
                        assert_eq!(may(r, c), j == k || reads.into_iter().any(|(r, c)| may(r, c)), "{k} {j}");
                    }
                }
            }
        }
    }
}

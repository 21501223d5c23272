//! How far stills are from their measured pictures: read both, let the library compare the planes, print a table, and
//! draw the difference where that is asked for.

use crate::command::{Command, Failure, Said};
use crate::draw;
use crate::input::Input;
use crate::output::Output;
use crate::pgm;
use crate::png::{self, Png};
use crate::png_read;
use crate::progress::Progress;
use crate::still_file;
use crate::words::{once, Word, Words};
use std::fmt;
use std::io::{self, Read, Write};
use std::path::PathBuf;
use zopredil::Distance;

pub const COMMAND: Command = Command { name: "distance", help: include_str!("../help/distance.txt"), run };

/// Stills that one call of the library takes.
const MOST: usize = 4096;

/// What is asked for.
#[derive(Debug, PartialEq, Eq)]
struct Job {
    /// A still and its measured picture.
    pairs: Vec<[PathBuf; 2]>,
    difference: Option<PathBuf>,
}

fn run(words: Words) -> Result<Said, Failure> {
    let job = job(words)?;
    let mut output = None;
    let mut rooms = Vec::new();
    for pair in &job.pairs {
        let mut still = Input::open(&pair[0]).map_err(Failure::File)?;
        let mut measured = Input::open(&pair[1]).map_err(Failure::File)?;
        if let Some(path) = &job.difference {
            output = Some(Output::plan(path, &[&still, &measured]).map_err(Failure::File)?);
        }
        rooms.push(Room::read(&mut still, &mut measured).map_err(Failure::File)?);
    }
    let table = Table::new(&rooms).map_err(Failure::File)?.to_string();
    let aside = output.as_ref().is_some_and(Output::takes_standard_output);
    if let (Some(output), [room]) = (output, &rooms[..]) {
        output.write(|to| room.draw_difference(to)).map_err(Failure::File)?;
    }
    Ok(if aside { Said::Aside(table) } else { Said::Here(table) })
}

// ---- the words

fn job(mut words: Words) -> Result<Job, Failure> {
    let wrong = |why: &str| Failure::Words(why.to_string());
    let (mut files, mut difference) = (Vec::new(), None);
    while let Some(word) = words.next() {
        match word {
            Word::File(file) => files.push(PathBuf::from(file)),
            Word::Option(option) => match option.as_str() {
                "--difference" => {
                    once(&mut difference, PathBuf::from(words.value(&option, "a file")?), "two differences")?;
                }
                _ => return Err(Failure::Words(format!("unknown option {option}"))),
            },
        }
    }
    let twos = files.chunks_exact(2);
    let odd = !twos.remainder().is_empty();
    let pairs: Vec<[PathBuf; 2]> = twos.map(|two| [two[0].clone(), two[1].clone()]).collect();
    if pairs.is_empty() || odd {
        return Err(wrong("distance wants stills and their measured pictures, by twos"));
    }
    if pairs.len() > MOST {
        return Err(wrong("more than 4096 stills are given"));
    }
    if let Some(path) = &difference {
        if pairs.len() > 1 {
            return Err(wrong("--difference draws that of one still"));
        }
        let png = path.extension().is_some_and(|end| end.eq_ignore_ascii_case("png"));
        if !png && path.as_os_str() != "-" {
            return Err(Failure::Words(format!("{} is no .png file", path.display())));
        }
    }
    Ok(Job { pairs, difference })
}

// ---- a room

/// A drawn still and its measured picture, each a plane of whole macroblocks. Both are 0 beyond the room's own pixels.
struct Room {
    name: String,
    width: u32,
    height: u32,
    cols: u32,
    rows: u32,
    drawn: Vec<u8>,
    measured: Vec<u8>,
}

impl Room {
    fn read(still: &mut Input, measured: &mut Input) -> Result<Room, String> {
        let name = still.name.clone();
        let of_still = |why: String| format!("{name}: {why}");
        let length = still.length;
        let mut progress = Progress::new();
        let file = still_file::read(still, length, &mut progress).map_err(|why| {
            progress.take_back();
            of_still(why.to_string())
        })?;
        progress.take_back();
        let (picture, _) = draw::planes(&file).map_err(of_still)?;
        let sizes = file.sizes;
        let grey = grey(measured, sizes.width, sizes.height).map_err(|why| format!("{}: {why}", measured.name))?;
        let plane = |row: &dyn Fn(usize) -> Vec<u8>| {
            let mut plane = vec![0; 256 * sizes.count()];
            for (r, line) in plane.chunks_mut(16 * sizes.cols as usize).take(sizes.height as usize).enumerate() {
                line[..sizes.width as usize].copy_from_slice(&row(r));
            }
            plane
        };
        let width = sizes.width as usize;
        Ok(Room {
            width: sizes.width,
            height: sizes.height,
            cols: sizes.cols,
            rows: sizes.rows,
            drawn: plane(&|r| picture.grey(r).to_vec()),
            measured: plane(&|r| grey[r * width..][..width].to_vec()),
            name,
        })
    }

    /// The room's own pixels.
    fn pixels(&self) -> u64 {
        u64::from(self.width) * u64::from(self.height)
    }

    /// Pixels of whole macroblocks beyond them.
    fn beyond(&self) -> u64 {
        self.drawn.len() as u64 - self.pixels()
    }

    fn draw_difference(&self, to: &mut dyn Write) -> io::Result<()> {
        let mut png = Png::new(to, self.width, self.height, true)?;
        let (line, width) = (16 * self.cols as usize, self.width as usize);
        for r in 0..self.height as usize {
            let own = r * line..r * line + width;
            let both = self.drawn[own.clone()].iter().zip(&self.measured[own]);
            let row: Vec<u8> = both.flat_map(|(&drawn, &measured)| shade(drawn, measured)).collect();
            png.row(&row)?;
        }
        png.end()
    }
}

/// Black for equal pixels, red for a drawn one that is brighter, blue for one that is darker.
fn shade(drawn: u8, measured: u8) -> [u8; 3] {
    let strength = drawn.abs_diff(measured).saturating_mul(8).max(64);
    match drawn.cmp(&measured) {
        std::cmp::Ordering::Equal => [0, 0, 0],
        std::cmp::Ordering::Greater => [strength, 0, 0],
        std::cmp::Ordering::Less => [0, 0, strength],
    }
}

/// A measured picture of so many pixels, as grey.
fn grey(file: &mut Input, width: u32, height: u32) -> Result<Vec<u8>, String> {
    // three bytes a pixel and a byte a row unpacked, room for a packing that gains nothing, and for chunks beside
    let most = 6 * u64::from(width) * u64::from(height) + (64 << 20);
    let mut bytes = Vec::new();
    file.take(most + 1).read_to_end(&mut bytes).map_err(|why| why.to_string())?;
    if bytes.len() as u64 > most {
        return Err(format!("it is too large for a picture of {width}x{height} pixels"));
    }
    let pixels = if bytes.starts_with(png::SIGNATURE) {
        png_read::read(&bytes, width, height)?
    } else if pgm::begins(&bytes) {
        pgm::read(&bytes, width, height)?
    } else {
        return Err("it is neither a PNG nor a PGM picture".to_string());
    };
    Ok(match pixels.each {
        1 => pixels.bytes,
        _ => pixels.bytes.chunks_exact(3).map(|rgb| luma([rgb[0], rgb[1], rgb[2]])).collect(),
    })
}

/// The grey of a pixel: BT.601's shares in 256ths, so that equal red, green and blue are that grey.
fn luma([red, green, blue]: [u8; 3]) -> u8 {
    ((77 * u32::from(red) + 150 * u32::from(green) + 29 * u32::from(blue) + 128) >> 8) as u8
}

// ---- the table

/// A line of the table: what the library found, and over how many pixels.
struct Line {
    name: String,
    found: Distance,
    pixels: u64,
}

struct Table(Vec<Line>);

impl Table {
    /// The rooms' distances, as the library finds them, and those of all together. The pixels beyond the rooms' own are
    /// equal, and are taken off.
    fn new(rooms: &[Room]) -> Result<Table, String> {
        let sizes: Vec<[u32; 2]> = rooms.iter().map(|room| [room.cols, room.rows]).collect();
        let drawn = rooms.iter().map(|room| &room.drawn[..]).collect::<Vec<_>>().concat();
        let measured = rooms.iter().map(|room| &room.measured[..]).collect::<Vec<_>>().concat();
        let told = zopredil::distance(&sizes, &drawn, &measured)
            .map_err(|reply| format!("reply {}, {reply}", reply.number()))?;
        let own = |found: Distance, beyond: u64| Distance { equal: found.equal - beyond, ..found };
        let mut lines: Vec<Line> = rooms
            .iter()
            .zip(told.stills)
            .map(|(room, found)| Line {
                name: room.name.clone(),
                found: own(found, room.beyond()),
                pixels: room.pixels(),
            })
            .collect();
        lines.push(Line {
            name: "all".to_string(),
            found: own(told.total, rooms.iter().map(Room::beyond).sum()),
            pixels: rooms.iter().map(Room::pixels).sum(),
        });
        Ok(Table(lines))
    }
}

impl Line {
    /// The cells after the name.
    fn cells(&self) -> [String; 6] {
        let Distance { squares, largest, equal } = self.found;
        let mean = squares as f64 / self.pixels as f64;
        let ratio = match squares {
            0 => "inf".to_string(),
            _ => format!("{:.2}", 10.0 * (65025.0 / mean).log10()),
        };
        // rounded down, so that 100.00 % are all pixels
        let share = u128::from(equal) * 10_000 / u128::from(self.pixels);
        [
            squares.to_string(),
            format!("{:.2}", mean.sqrt()),
            ratio,
            largest.to_string(),
            equal.to_string(),
            format!("{}.{:02} %", share / 100, share % 100),
        ]
    }
}

impl fmt::Display for Table {
    fn fmt(&self, f: &mut fmt::Formatter<'_>) -> fmt::Result {
        const HEADS: [&str; 6] = ["sum of squares", "root mean square", "PSNR", "largest", "equal pixels", "share"];
        let cells: Vec<[String; 6]> = self.0.iter().map(Line::cells).collect();
        let names = self.0.iter().map(|line| line.name.chars().count()).max().unwrap_or(0).max("still".len());
        let widths: [usize; 6] =
            std::array::from_fn(|c| cells.iter().map(|row| row[c].len()).max().unwrap_or(0).max(HEADS[c].len()));
        write!(f, "{:names$}", "still")?;
        for (head, width) in HEADS.iter().zip(widths) {
            write!(f, "  {head:>width$}")?;
        }
        for (line, row) in self.0.iter().zip(&cells) {
            write!(f, "\n{:names$}", line.name)?;
            for (cell, width) in row.iter().zip(widths) {
                write!(f, "  {cell:>width$}")?;
            }
        }
        Ok(())
    }
}

#[cfg(test)]
mod tests {
    use super::*;
    use std::ffi::OsString;

    fn said(line: &str) -> Result<Job, Failure> {
        job(Words::new(line.split_whitespace().map(OsString::from)))
    }

    #[test]
    fn pairs_in_order() {
        let pair = |still: &str, measured: &str| [PathBuf::from(still), PathBuf::from(measured)];
        let one = Job { pairs: vec![pair("a.still", "b.png")], difference: None };
        assert_eq!(said("a.still b.png"), Ok(one));
        let two = said("a.still b.png c.still d.pgm").unwrap();
        assert_eq!(two.pairs, [pair("a.still", "b.png"), pair("c.still", "d.pgm")]);
        let drawn = said("a.still --difference o.PNG b.png").unwrap();
        assert_eq!(drawn.difference, Some(PathBuf::from("o.PNG")));
    }

    #[test]
    fn wrong_words_are_one_line() {
        for line in [
            "",
            "a.still",
            "a.still b.png c.still",
            "a.still b.png --difference",
            "a.still b.png --difference o.pgm",
            "a.still b.png --difference o.png --difference p.png",
            "a.still b.png c.still d.png --difference o.png",
            "a.still b.png --color",
        ] {
            assert!(matches!(said(line), Err(Failure::Words(why)) if !why.contains('\n')), "{line}");
        }
        let many = "a ".repeat(2 * MOST + 2);
        assert!(matches!(said(&many), Err(Failure::Words(_))));
        assert_eq!(said(&"a ".repeat(2 * MOST)).unwrap().pairs.len(), MOST);
    }

    #[test]
    fn greys_stay_and_colours_weigh() {
        for level in 0..=255 {
            assert_eq!(luma([level; 3]), level);
        }
        assert_eq!([luma([255, 0, 0]), luma([0, 255, 0]), luma([0, 0, 255])], [77, 149, 29]);
    }

    #[test]
    fn shades() {
        assert_eq!(shade(7, 7), [0, 0, 0]);
        assert_eq!(shade(8, 7), [64, 0, 0]);
        assert_eq!(shade(7, 17), [0, 0, 80]);
        assert_eq!(shade(0, 255), [0, 0, 255]);
        assert_eq!(shade(255, 0), [255, 0, 0]);
    }

    #[test]
    fn the_difference_of_the_room_s_own_pixels() {
        // 17 by 2 pixels in two macroblocks: what stands beyond is not drawn
        let (mut drawn, mut measured) = (vec![9; 512], vec![9; 512]);
        (drawn[16], measured[32]) = (29, 10);
        let room = Room { name: String::new(), width: 17, height: 2, cols: 2, rows: 1, drawn, measured };
        let mut file = Vec::new();
        room.draw_difference(&mut file).unwrap();
        let picture = png_read::read(&file, 17, 2).unwrap();
        let mut expected = vec![0; 3 * 34];
        expected[3 * 16] = 160;
        expected[3 * 17 + 2] = 64;
        assert_eq!((picture.each, picture.bytes), (3, expected));
        assert_eq!((room.pixels(), room.beyond()), (34, 478));
    }

    #[test]
    fn rounding() {
        let line = |squares, equal, pixels| {
            Line { name: String::new(), found: Distance { squares, largest: 3, equal }, pixels }.cells()
        };
        assert_eq!(line(0, 9, 9), ["0", "0.00", "inf", "3", "9", "100.00 %"]);
        assert_eq!(line(9, 999_999, 1_000_000), ["9", "0.00", "98.59", "3", "999999", "99.99 %"]);
        // 255 * 255 a pixel: the farthest that two planes can be apart
        assert_eq!(line(65025 * 4, 0, 4), ["260100", "255.00", "0.00", "3", "0", "0.00 %"]);
    }
}

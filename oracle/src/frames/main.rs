//! frames FOLDER: reads every key frame of a folder, NAME.frame as it was stored or the first one of NAME.webp or
//! NAME.ivf, by the second reader and by the library, and compares what stands beside it:
//!
//! | File | | Compared with it |
//! |---|---|---|
//! | NAME.parsed | inner bytes, levels, probabilities, coefficients as read | the second reader's |
//! | NAME.still | modes and dequantised coefficients | the second reader's |
//! | NAME.planes, NAME.before | the picture before the loop filter, whole macroblocks or cropped | what the library draws |
//! | NAME.filtered, NAME.after | the same after it | what the library filters, and the second filter |
//!
//! The library reads the tokens of each macroblock from its partition; they must be the second reader's. Modes, factors
//! and levels are the second reader's throughout.

use reader::frame::Frame;
use reader::tokens::Rule;
use std::path::{Path, PathBuf};
use std::process::ExitCode;
use std::{fs, io};
use zopredil::{filter_levels, still_alone, Contexts, FilterKind, Partition, PlanesMut, Reply, Still};

/// A picture of whole macroblocks: Y, U, V.
#[derive(Clone)]
struct Picture {
    cols: usize,
    rows: usize,
    bytes: Vec<u8>,
}

impl Picture {
    fn planes(&mut self) -> [&mut [u8]; 3] {
        let count = self.cols * self.rows;
        let (y, uv) = self.bytes.split_at_mut(256 * count);
        let (u, v) = uv.split_at_mut(64 * count);
        [y, u, v]
    }

    /// Its part of `width` by `height` pixels; of U and V half of that, rounded up.
    fn cropped(&mut self, width: usize, height: usize) -> Vec<u8> {
        let (half, cols) = ((width.div_ceil(2), height.div_ceil(2)), self.cols);
        let sizes = [(16, width, height), (8, half.0, half.1), (8, half.0, half.1)];
        let mut out = Vec::new();
        for (plane, (side, width, height)) in self.planes().into_iter().zip(sizes) {
            plane.chunks(side * cols).take(height).for_each(|row| out.extend(&row[..width]));
        }
        out
    }
}

/// A frame, read by the second reader, and the folder's files beside it.
struct Case {
    file: PathBuf,
    bytes: Vec<u8>,
    frame: Frame,
    differing: Vec<String>,
}

impl Case {
    fn read(file: &Path) -> Result<Case, String> {
        let said = |why: &dyn std::fmt::Display| format!("{}: {why}", file.display());
        let stored = fs::read(file).map_err(|why| said(&why))?;
        let bytes = reader::files::frame(&stored).ok_or_else(|| said(&"it has no frame"))?.to_vec();
        let frame = Frame::read(&bytes, Rule::Tokens).map_err(|why| said(&why))?;
        Ok(Case { file: file.to_path_buf(), bytes, frame, differing: Vec::new() })
    }

    /// The file of another ending beside it, if there is one.
    fn beside(&self, ending: &str) -> Option<Vec<u8>> {
        fs::read(self.file.with_extension(ending)).ok()
    }

    fn differs(&mut self, what: &str, count: usize) {
        if count > 0 {
            self.differing.push(format!("{what}: {count} differ"));
        }
    }

    fn count(&self) -> usize {
        self.frame.macroblocks.len()
    }

    /// What was read, beside NAME.parsed and NAME.still.
    fn compare_read(&mut self) -> Result<(), String> {
        let (n, shorts) = (self.count(), |bytes: &[u8]| -> Vec<i16> {
            bytes.chunks_exact(2).map(|two| i16::from_le_bytes([two[0], two[1]])).collect()
        });
        let name = self.file.display().to_string();
        let unfit = |ending: &str| format!("{name}: NAME.{ending} is of another length");
        let differ = |right: &[i16], of: &dyn Fn(usize) -> [i16; 400]| {
            right.chunks(400).enumerate().filter(|&(k, right)| *right != of(k)).count()
        };
        if let Some(parsed) = self.beside("parsed") {
            if parsed.len() != n + n + 1056 + 800 * n {
                return Err(unfit("parsed"));
            }
            let all = &self.frame.macroblocks;
            let (inner, rest) = parsed.split_at(n);
            let (levels, rest) = rest.split_at(n);
            let (probs, tokens) = rest.split_at(1056);
            let counts = [
                ("inner bytes", (0..n).filter(|&k| (inner[k] != 0) != all[k].inner).count()),
                ("levels", (0..n).filter(|&k| levels[k] != all[k].level).count()),
                ("probabilities", (0..1056).filter(|&k| probs[k] != self.frame.header.probs[k]).count()),
                ("tokens of macroblocks", differ(&shorts(tokens), &|k| all[k].tokens)),
            ];
            counts.into_iter().for_each(|(what, count)| self.differs(&format!("parsed {what}"), count));
        }
        if let Some(still) = self.beside("still") {
            if still.len() != 24 + 819 * n {
                return Err(unfit("still"));
            }
            let all = &self.frame.macroblocks;
            let (modes, rest) = still[24..].split_at(3 * n);
            let (subs, coeffs) = rest.split_at(16 * n);
            let other = |k: &usize| {
                let mb = &all[*k];
                let same_subs = mb.luma != 4 || subs[16 * k..][..16] == mb.subs;
                modes[3 * k..][..2] != [mb.luma, mb.chroma] || !same_subs
            };
            let counts = [
                ("modes of macroblocks", (0..n).filter(other).count()),
                ("coefficients of macroblocks", differ(&shorts(coeffs), &|k| all[k].coeffs)),
            ];
            counts.into_iter().for_each(|(what, count)| self.differs(&format!("still's {what}"), count));
        }
        Ok(())
    }

    /// The tokens by the library. It refuses a table with a 0 in it; a probability of 1 splits every range as 0 does, so
    /// that is read in its place.
    fn compare_tokens(&mut self) {
        let Frame { cols, header, partitions, macroblocks, .. } = &self.frame;
        let probs = header.probs.map(|prob| prob.max(1));
        let refuses = header.probs.contains(&0);
        let mut streams: Vec<Partition<'_>> =
            partitions.iter().map(|part| Partition::new(&self.bytes[part.clone()])).collect();
        let (mut above, mut left) = (vec![Contexts::default(); *cols], Contexts::default());
        let (mut other, mut accepted) = (0, 0);
        for (k, mb) in macroblocks.iter().enumerate() {
            let (row, col) = (k / cols, k % cols);
            if col == 0 {
                left = Contexts::default();
            }
            if mb.skip {
                above[col].skip(mb.with_y2());
                left.skip(mb.with_y2());
                continue;
            }
            let stream = &mut streams[row % partitions.len()];
            if refuses {
                let refused = stream.macroblock(&header.probs, mb.with_y2(), &mut above[col], &mut left);
                accepted += usize::from(refused != Err(Reply::ZeroProbability));
            }
            let read = stream.macroblock(&probs, mb.with_y2(), &mut above[col], &mut left);
            other += usize::from(read != Ok(mb.tokens));
        }
        self.differs("tokens of macroblocks", other);
        self.differs("probabilities of 0 not refused", accepted);
    }

    /// The picture by the library, before its filter.
    fn drawn(&mut self) -> Option<Picture> {
        let Frame { cols, rows, macroblocks, .. } = &self.frame;
        let modes: Vec<u8> = macroblocks.iter().flat_map(|mb| [mb.luma, mb.chroma, mb.skip.into()]).collect();
        let subs: Vec<u8> = macroblocks.iter().flat_map(|mb| mb.subs).collect();
        let coeffs: Vec<i16> = macroblocks.iter().flat_map(|mb| mb.coeffs).collect();
        let still = Still { cols: *cols, rows: *rows, modes: &modes, sub_modes: &subs, coeffs: &coeffs };
        let mut picture = Picture { cols: *cols, rows: *rows, bytes: vec![!0; 384 * macroblocks.len()] };
        let [y, u, v] = picture.planes();
        match still_alone(&still, PlanesMut { y, u, v }) {
            Ok(_) => Some(picture),
            Err(refused) => {
                self.differing.push(format!("not drawn: {refused}"));
                None
            }
        }
    }

    /// A picture beside the files of two endings: whole macroblocks, and cropped.
    fn compare_picture(&mut self, what: &str, whole: &str, cropped: &str, picture: &mut Picture) -> usize {
        let (width, height) = (self.frame.width, self.frame.height);
        let mut compared = 0;
        for (right, ours) in
            [(self.beside(whole), picture.bytes.clone()), (self.beside(cropped), picture.cropped(width, height))]
        {
            let Some(right) = right else { continue };
            compared += 1;
            let length = usize::from(right.len() != ours.len());
            self.differs(&format!("lengths of {what}"), length);
            self.differs(&format!("pixels of {what}"), right.iter().zip(&ours).filter(|(a, b)| a != b).count());
        }
        compared
    }

    /// Draws and filters: how many pictures stood beside the frame.
    fn compare_pictures(&mut self) -> usize {
        let Some(mut picture) = self.drawn() else { return 0 };
        let mut compared = self.compare_picture("the drawn picture", "planes", "before", &mut picture);
        let Frame { cols, rows, header, macroblocks, .. } = &self.frame;
        let (cols, rows, simple, sharpness) = (*cols, *rows, header.filter.simple, header.filter.sharpness);
        let levels: Vec<u8> = macroblocks.iter().map(|mb| mb.level).collect();
        let inner: Vec<bool> = macroblocks.iter().map(|mb| mb.inner).collect();
        let mut second = picture.clone();
        let [y, u, v] = second.planes();
        reader::filter::filter(reader::filter::Planes { y, u, v }, cols, rows, simple, sharpness, &levels, &inner);
        let kind = if simple { FilterKind::Simple } else { FilterKind::Normal };
        let inner: Vec<u8> = inner.into_iter().map(u8::from).collect();
        let [y, u, v] = picture.planes();
        if let Err(reply) = filter_levels(cols, rows, kind, sharpness, &levels, &inner, PlanesMut { y, u, v }) {
            self.differing.push(format!("not filtered: {reply}"));
        }
        compared += self.compare_picture("the filtered picture", "filtered", "after", &mut picture);
        self.compare_picture("the second filter's picture", "filtered", "after", &mut second);
        self.differs(
            "pixels of the two filters",
            picture.bytes.iter().zip(&second.bytes).filter(|(a, b)| a != b).count(),
        );
        compared
    }

    /// Its size, its partitions and what its filter is.
    fn told(&self) -> String {
        let Frame { width, height, header, partitions, macroblocks, first_partition, .. } = &self.frame;
        let mut levels: Vec<u8> = macroblocks.iter().map(|mb| mb.level).collect();
        levels.sort_unstable();
        levels.dedup();
        let kind = if header.filter.simple { "simple" } else { "normal" };
        let zeros = if header.probs.contains(&0) { ", probabilities of 0" } else { "" };
        let (first, many) = (first_partition.len(), partitions.len());
        let (start, length) = (partitions[0].start, partitions[0].len());
        let sharpness = header.filter.sharpness;
        format!(
            "{width}x{height}, {kind}, sharpness {sharpness}, levels {levels:?}{zeros}, first partition {first}, \
             {many} of tokens, at {start}, {length}"
        )
    }
}

fn frames(folder: &str) -> Result<bool, String> {
    let said = |why: io::Error| format!("{folder}: {why}");
    let listed: Result<Vec<PathBuf>, _> = fs::read_dir(folder).map_err(said)?.map(|e| Ok(e?.path())).collect();
    let mut files = listed.map_err(said)?;
    files.retain(|file| file.extension().is_some_and(|end| end == "frame" || end == "webp" || end == "ivf"));
    files.sort();
    if files.is_empty() {
        return Err(format!("there is no .frame, .webp or .ivf file in {folder}"));
    }
    let (mut differing, mut macroblocks, mut tokens, mut pictures, mut zeros, mut rules) = (0, 0, 0, 0, 0, 0);
    for file in &files {
        let mut case = Case::read(file)?;
        let other_rule = Frame::read(&case.bytes, Rule::Values);
        let same = |other: &Frame| {
            let mut pairs = other.macroblocks.iter().zip(&case.frame.macroblocks);
            pairs.all(|(a, b)| a.tokens == b.tokens)
        };
        rules += usize::from(!other_rule.as_ref().is_ok_and(same));
        zeros += usize::from(case.frame.header.probs.contains(&0));
        macroblocks += case.count();
        tokens += case.frame.macroblocks.iter().filter(|mb| !mb.skip).count();
        case.compare_read()?;
        case.compare_tokens();
        pictures += case.compare_pictures();
        differing += usize::from(!case.differing.is_empty());
        let name = file.file_name().unwrap_or_default().display();
        let how = if case.differing.is_empty() { "equal".to_string() } else { case.differing.join(", ") };
        println!("{name} {}: {how}", case.told());
    }
    println!(
        "frames {} macroblocks {macroblocks}, with tokens {tokens}; pictures beside them {pictures}; frames with \
         probabilities of 0 {zeros}, that the two rules of contexts read otherwise {rules}; differing {differing}",
        files.len()
    );
    Ok(differing == 0)
}

fn main() -> ExitCode {
    let words: Vec<String> = std::env::args().skip(1).collect();
    let done = match &words[..] {
        [folder] => frames(folder),
        _ => Err("it is frames FOLDER".to_string()),
    };
    match done {
        Ok(true) => ExitCode::SUCCESS,
        Ok(false) => ExitCode::FAILURE,
        Err(why) => {
            eprintln!("frames: {why}");
            ExitCode::from(2)
        }
    }
}

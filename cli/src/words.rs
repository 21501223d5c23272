//! The words of a command, from left to right. A word that begins with `-` is an option, but `-` alone is a file, and so
//! is every word after `--`.

use crate::command::Failure;
use std::ffi::{OsStr, OsString};
use std::vec;

/// A word of a command.
#[derive(Debug, PartialEq, Eq)]
pub enum Word {
    Option(String),
    File(OsString),
}

/// The words that are left.
pub struct Words {
    left: vec::IntoIter<OsString>,
    only_files: bool,
}

impl Words {
    pub fn new(given: impl IntoIterator<Item = OsString>) -> Words {
        Words { left: given.into_iter().collect::<Vec<_>>().into_iter(), only_files: false }
    }

    /// Is `--help` or `-h` among them?
    pub fn ask_for_help(&self) -> bool {
        self.left.as_slice().iter().take_while(|word| *word != "--").any(|word| word == "--help" || word == "-h")
    }

    /// What belongs to the option that was read last: `what` says what it wants.
    pub fn value(&mut self, option: &str, what: &str) -> Result<OsString, Failure> {
        self.left.next().ok_or_else(|| Failure::Words(format!("{option} wants {what}")))
    }
}

impl Iterator for Words {
    type Item = Word;

    fn next(&mut self) -> Option<Word> {
        let word = self.left.next()?;
        if self.only_files || word == "-" {
            return Some(Word::File(word));
        }
        if word == "--" {
            self.only_files = true;
            return self.next();
        }
        let option = word.to_str().filter(|word| word.starts_with('-')).map(str::to_string);
        Some(option.map_or(Word::File(word), Word::Option))
    }
}

/// Fills a place that is still empty; `twice` says what two of it are.
pub fn once<T>(place: &mut Option<T>, value: T, twice: &str) -> Result<(), Failure> {
    match place.replace(value) {
        None => Ok(()),
        Some(_) => Err(Failure::Words(format!("{twice} are given"))),
    }
}

/// A size in pixels, as in 320x128.
pub fn size(option: &str, word: &OsStr) -> Result<(u32, u32), Failure> {
    let number = |digits: &str| {
        let all_digits = !digits.is_empty() && digits.bytes().all(|digit| digit.is_ascii_digit());
        digits.parse().ok().filter(|&n: &u32| all_digits && n > 0)
    };
    let sides = word.to_str().and_then(|text| text.split_once('x'));
    sides
        .and_then(|(width, height)| Some((number(width)?, number(height)?)))
        .ok_or_else(|| Failure::Words(format!("{option} {} is no size such as 320x128", word.display())))
}

#[cfg(test)]
mod tests {
    use super::*;

    fn words(line: &str) -> Words {
        Words::new(line.split_whitespace().map(OsString::from))
    }

    #[test]
    fn options_and_files() {
        let option = |text: &str| Word::Option(text.to_string());
        let file = |text: &str| Word::File(OsString::from(text));
        let read: Vec<Word> = words("a -o - --x -- -o -- b").collect();
        assert_eq!(read, [file("a"), option("-o"), file("-"), option("--x"), file("-o"), file("--"), file("b")]);
        let mut given = words("-o b");
        assert_eq!(given.next(), Some(option("-o")));
        assert_eq!(given.value("-o", "a file"), Ok(OsString::from("b")));
        assert_eq!(given.value("-o", "a file"), Err(Failure::Words("-o wants a file".to_string())));
    }

    #[test]
    fn help_before_the_files_alone() {
        for (line, asked) in [("--help", true), ("a -h", true), ("a -- -h", false), ("a help", false), ("", false)] {
            assert_eq!(words(line).ask_for_help(), asked, "{line}");
        }
    }

    #[test]
    fn sizes() {
        for wrong in
            ["5", "5x", "x5", "0x5", "5x0", "5x5x5", "-5x5", "+5x5", "5 x5", "5X5", "4294967296x1", "axb", "٣x٣"]
        {
            assert!(size("--crop", OsStr::new(wrong)).is_err(), "{wrong}");
        }
        assert_eq!(size("--crop", OsStr::new("4294967295x1")), Ok((u32::MAX, 1)));
    }
}

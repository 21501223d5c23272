//! The progress line of a large still. It stands on standard error where that is a terminal, grows from the left, and is
//! taken back when the command fails, so that a failure is one line there too:
//!
//!     zopredil: reading 25% 50% 75% 100%, drawing, marking, writing 25% 50% 75% 100%
//!
//! Its 78 columns fit into a terminal of 80, since only the last line of a terminal can be taken back.

use std::io::{self, IsTerminal, Write};

/// Macroblocks from which on a still is large.
const LARGE: usize = 4096;

/// The line, which is begun once the size is known.
pub struct Progress {
    to: Option<Box<dyn Write>>,
    begun: bool,
    quarter: usize,
}

impl Progress {
    /// A line on standard error where that is a terminal, and else none.
    pub fn new() -> Progress {
        let terminal = io::stderr().is_terminal();
        Progress::on(terminal.then(|| Box::new(io::stderr()) as Box<dyn Write>))
    }

    /// A line on `to`, or none.
    pub fn on(to: Option<Box<dyn Write>>) -> Progress {
        Progress { to, begun: false, quarter: 0 }
    }

    /// The terminal may be gone, which changes nothing.
    fn say(&mut self, text: &str) {
        if let Some(to) = self.to.as_mut().filter(|_| self.begun) {
            let _ = to.write_all(text.as_bytes()).and_then(|()| to.flush());
        }
    }

    /// Begins the line where the still is large, with its first step.
    pub fn begin(&mut self, macroblocks: usize, step: &str) {
        self.begun = macroblocks >= LARGE;
        self.say(&format!("zopredil: {step}"));
    }

    /// The next step.
    pub fn step(&mut self, step: &str) {
        self.quarter = 0;
        self.say(&format!(", {step}"));
    }

    /// How much of a step is done.
    pub fn at(&mut self, done: usize, all: usize) {
        while self.begun && self.quarter < 4 && 4 * done >= (self.quarter + 1) * all {
            self.quarter += 1;
            self.say(&format!(" {}%", 25 * self.quarter));
        }
    }

    /// Takes the line back: the terminal's line is empty again, and the next text stands in it.
    pub fn take_back(&mut self) {
        self.say("\r\x1b[2K");
        self.begun = false;
    }
}

impl Drop for Progress {
    fn drop(&mut self) {
        self.say("\n");
    }
}

#[cfg(test)]
mod tests {
    use super::*;
    use std::cell::RefCell;
    use std::rc::Rc;

    /// A terminal that keeps what it is told.
    #[derive(Clone, Default)]
    struct Kept(Rc<RefCell<Vec<u8>>>);

    impl Write for Kept {
        fn write(&mut self, bytes: &[u8]) -> io::Result<usize> {
            self.0.borrow_mut().extend(bytes);
            Ok(bytes.len())
        }

        fn flush(&mut self) -> io::Result<()> {
            Ok(())
        }
    }

    fn told(macroblocks: usize, refused: bool) -> String {
        let kept = Kept::default();
        let mut progress = Progress::on(Some(Box::new(kept.clone())));
        progress.begin(macroblocks, "reading");
        (1..=8).for_each(|done| progress.at(done, 8));
        progress.step("drawing");
        if refused {
            progress.take_back();
        } else {
            progress.step("marking");
            progress.step("writing");
            (1..=3).for_each(|done| progress.at(done, 3));
        }
        drop(progress);
        let bytes = kept.0.borrow().clone();
        String::from_utf8(bytes).unwrap()
    }

    #[test]
    fn a_line_of_a_large_still() {
        let line = "zopredil: reading 25% 50% 75% 100%, drawing, marking, writing 25% 50% 75% 100%\n";
        assert_eq!(told(LARGE, false), line);
        assert!(line.len() <= 80);
        assert_eq!(told(LARGE - 1, false), "");
    }

    #[test]
    fn a_line_that_is_taken_back() {
        assert_eq!(told(LARGE, true), "zopredil: reading 25% 50% 75% 100%, drawing\r\x1b[2K");
        assert_eq!(told(LARGE - 1, true), "");
    }
}

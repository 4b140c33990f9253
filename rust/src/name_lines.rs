//! Names of files from a text of any length, kept in bounded memory.

use crate::growth::{LONGEST_NAME, MOST_NAMES};
use std::io::{self, Write};

/// The names of a text that is written to it part by part: one a line, empty lines
/// skipped. The first 257 are kept, and of each the first 256 bytes, which is
/// enough to see that there are too many or that one is too long.
#[derive(Default)]
pub struct NameLines {
    /// The names kept, each with a line feed but for one that has not ended.
    kept: Vec<u8>,
    /// Names that have begun.
    names: usize,
    /// Bytes of the line so far.
    bytes: usize,
}

impl NameLines {
    /// The names as a text. It has as many as were written, or more than 256, and
    /// is refused exactly if what was written is.
    pub fn text(&self) -> &[u8] {
        &self.kept
    }

    fn add(&mut self, byte: u8) {
        if byte != b'\n' {
            self.names += usize::from(self.bytes == 0);
            self.bytes += 1;
        }
        let line_kept = self.names <= MOST_NAMES + 1;
        if byte == b'\n' {
            if line_kept && self.bytes > 0 {
                self.kept.push(byte);
            }
            self.bytes = 0;
        } else if line_kept && self.bytes <= LONGEST_NAME + 1 {
            self.kept.push(byte);
        }
    }
}

impl Write for NameLines {
    fn write(&mut self, part: &[u8]) -> io::Result<usize> {
        part.iter().for_each(|&byte| self.add(byte));
        Ok(part.len())
    }

    fn flush(&mut self) -> io::Result<()> {
        Ok(())
    }
}

#[cfg(test)]
mod tests {
    use super::*;
    use crate::generate::Rng;
    use crate::growth;

    fn kept(parts: &[&[u8]]) -> Vec<u8> {
        let mut lines = NameLines::default();
        for part in parts {
            lines.write_all(part).expect("kept");
        }
        lines.text().to_vec()
    }

    #[test]
    fn empty_lines_are_skipped() {
        assert_eq!(kept(&[]), b"");
        assert_eq!(kept(&[b"\n\n"]), b"");
        assert_eq!(kept(&[b"\na\n", b"\n\nb", b"c\r\n\n"]), b"a\nbc\r\n");
        assert_eq!(kept(&[b"a\nb"]), b"a\nb");
    }

    #[test]
    fn names_and_verdict_are_those_of_the_text() {
        let mut rng = Rng::new(13);
        for _ in 0..400 {
            let count = rng.pick(&[0, 1, 9, 255, 256, 257, 258, 600]);
            let longest = rng.pick(&[1, 3, 255, 256, 257, 2000]);
            let mut text = Vec::new();
            for _ in 0..count {
                text.resize(text.len() + rng.below(3), b'\n');
                text.resize(text.len() + rng.between(1, longest), b'x');
                text.push(b'\n');
            }
            let (one, other) = text.split_at(rng.below(text.len() + 1));
            let kept = kept(&[one, other]);
            assert!(kept.len() <= 257 * 257);
            let names = growth::accepted_names(&text);
            assert_eq!(growth::accepted_names(&kept), names);
        }
    }

    #[test]
    fn memory_is_bounded() {
        let mut lines = NameLines::default();
        for _ in 0..5_000 {
            lines.write_all(&[b'x'; 1000]).expect("kept");
        }
        assert_eq!(lines.text().len(), 256);
        lines.write_all(&b"\nx".repeat(100_000)).expect("kept");
        assert_eq!(lines.text().len(), 257 + 256 * 2);
    }
}

//! The end of a trail: of a file only as much is read as is asked for.

use bsm::{item_at, Item};
use std::ffi::OsStr;
use std::fs::File;
use std::io::{self, stdin, ErrorKind, Read, Seek};
use std::os::fd::AsFd;
use std::os::unix::fs::FileExt;

/// How many bytes are read at a time. No record is longer, so one read is
/// enough for any need.
const BLOCK: usize = 1 << 16;

/// Sizes of file tokens: a name has 1 to 1,024 bytes, with its zero byte.
const FILES: std::ops::RangeInclusive<usize> = 12..=1_035;

/// A part of a trail.
pub struct Tail {
    file: File,
    /// Where the trail starts in the file.
    start: u64,
    /// How long the trail was when it was opened.
    length: usize,
    /// Where the part starts in the trail.
    base: usize,
    /// Its bytes.
    bytes: Vec<u8>,
}

impl Tail {
    /// Opens a trail: a name, or `-` for standard input. Nothing is read of a
    /// file yet; anything else is read to its end.
    pub fn open(name: &OsStr) -> io::Result<Tail> {
        let mut file = if name == "-" {
            File::from(stdin().as_fd().try_clone_to_owned()?)
        } else {
            File::open(name)?
        };
        let found = file.metadata()?;
        let mut bytes = Vec::new();
        let (start, length, base) = if found.is_file() {
            let start = file.stream_position()?;
            let length = found.len().saturating_sub(start) as usize;
            (start, length, length)
        } else {
            file.read_to_end(&mut bytes)?;
            (0, bytes.len(), 0)
        };
        Ok(Tail {
            file,
            start,
            length,
            base,
            bytes,
        })
    }

    /// How long the trail is.
    pub fn length(&self) -> usize {
        self.length
    }

    /// Where the part starts in the trail.
    pub fn base(&self) -> usize {
        self.base
    }

    /// The bytes of the part.
    pub fn bytes(&self) -> &[u8] {
        &self.bytes
    }

    /// Makes the part end at a place of it, and start a block earlier, or at
    /// the trail's start. Answers where that place is now.
    pub fn step_back(&mut self, end: usize) -> io::Result<usize> {
        let count = self.base.min(BLOCK);
        let mut bytes = self.read(self.base - count, count)?;
        bytes.extend(&self.bytes[..end]);
        self.bytes = bytes;
        self.base -= count;
        Ok(count + end)
    }

    /// Makes the part the whole trail.
    pub fn take_whole(&mut self) -> io::Result<()> {
        if self.bytes.len() < self.length {
            self.bytes = self.read(0, self.length)?;
            self.base = 0;
        }
        Ok(())
    }

    /// Whether a file token ends at a place of the part.
    pub fn file_before(&mut self, mut end: usize) -> io::Result<bool> {
        if end < *FILES.end() && self.base > 0 {
            end = self.step_back(end)?;
        }
        let bytes = &self.bytes[..end];
        let ends_there = |size| {
            let found = end.checked_sub(size).map(|at| item_at(bytes, at));
            matches!(found, Some(Ok(Some(Item::File { size: all, .. }))) if all == size)
        };
        Ok(FILES.into_iter().any(ends_there))
    }

    fn read(&self, place: usize, count: usize) -> io::Result<Vec<u8>> {
        let mut bytes = vec![0; count];
        let read = self
            .file
            .read_exact_at(&mut bytes, self.start + place as u64);
        read.map_err(|error| match error.kind() {
            ErrorKind::UnexpectedEof => io::Error::other("it has become shorter"),
            _ => error,
        })?;
        Ok(bytes)
    }
}

#[cfg(test)]
mod tests {
    use super::*;
    use std::{env, fs, process};

    /// A file that becomes shorter while it is read is said to be.
    #[test]
    fn shrinking() {
        let name = format!("bsm-tail-{}", process::id());
        let path = env::temp_dir().join(name);
        fs::write(&path, [0; 200_000]).expect("a file can be written");
        let mut tail = Tail::open(path.as_os_str()).expect("it is there");
        assert_eq!((tail.base(), tail.length()), (200_000, 200_000));
        let at = tail.step_back(0).expect("a block");
        assert_eq!((at, tail.base()), (BLOCK, 200_000 - BLOCK));
        let file = File::options().write(true).open(&path);
        file.and_then(|file| file.set_len(100_000))
            .expect("it is cut");
        let error = tail.step_back(at).expect_err("it was cut");
        assert_eq!(error.to_string(), "it has become shorter");
        assert!(tail.take_whole().is_err());
        fs::remove_file(&path).expect("it is there");
    }
}

//! A trail that may grow while it is read.

use std::ffi::OsStr;
use std::fs::{self, File};
use std::io::{self, stdin, ErrorKind, Read, Seek, SeekFrom};
use std::os::fd::{AsFd, BorrowedFd};
use std::os::unix::fs::MetadataExt;
use std::path::{Path, PathBuf};
use std::time::SystemTime;

/// How many of the last bytes are read again whenever the file has changed,
/// to see that they still stand there.
const AGAIN: usize = 4_096;

/// What a look at the source found.
#[derive(Clone, Copy, Debug, PartialEq, Eq)]
pub enum News {
    /// Nothing new.
    Same,
    /// More bytes.
    More,
    /// The end of a pipe, a device or a socket.
    End,
    /// All of the file was read, but its name stands for it no longer.
    Elsewhere(&'static str),
    /// What was read no longer stands in the file.
    Lost(&'static str),
}

/// A trail as far as it was read, and where more of it comes from.
pub struct Followed {
    trail: Vec<u8>,
    source: Source,
}

enum Source {
    File(Watched),
    Stream(File),
}

impl Followed {
    /// Opens what is to be followed: a name, or `-` for standard input.
    pub fn open(name: &OsStr) -> io::Result<Followed> {
        let (mut file, path) = if name == "-" {
            (File::from(stdin().as_fd().try_clone_to_owned()?), None)
        } else {
            (File::open(name)?, Some(PathBuf::from(name)))
        };
        let source = if file.metadata()?.is_file() {
            Source::File(Watched {
                start: file.stream_position()?,
                path,
                file,
                seen: None,
            })
        } else {
            Source::Stream(file)
        };
        let trail = Vec::new();
        Ok(Followed { trail, source })
    }

    /// The bytes so far.
    pub fn trail(&self) -> &[u8] {
        &self.trail
    }

    /// What tells that more has come; a file does not.
    pub fn descriptor(&self) -> Option<BorrowedFd<'_>> {
        match &self.source {
            Source::File(_) => None,
            Source::Stream(stream) => Some(stream.as_fd()),
        }
    }

    /// Looks for more. `readable` says that a stream can be read without
    /// waiting.
    pub fn look(&mut self, readable: bool) -> io::Result<News> {
        match &mut self.source {
            Source::File(watched) => watched.look(&mut self.trail),
            Source::Stream(stream) if readable => read_some(stream, &mut self.trail),
            Source::Stream(_) => Ok(News::Same),
        }
    }
}

/// Reads what a stream has.
fn read_some(stream: &mut File, trail: &mut Vec<u8>) -> io::Result<News> {
    let mut bytes = [0; 1 << 16];
    match stream.read(&mut bytes) {
        Ok(0) => Ok(News::End),
        Ok(count) => {
            trail.extend(&bytes[..count]);
            Ok(News::More)
        }
        Err(error) if error.kind() == ErrorKind::Interrupted => Ok(News::Same),
        Err(error) => Err(error),
    }
}

/// A file that is looked at again and again.
struct Watched {
    /// Where the trail starts in the file.
    start: u64,
    /// Its name, unless it is standard input.
    path: Option<PathBuf>,
    file: File,
    /// Its length and when it was changed, as last seen.
    seen: Option<(u64, SystemTime)>,
}

impl Watched {
    fn look(&mut self, trail: &mut Vec<u8>) -> io::Result<News> {
        // First, so that what was written before the name went is read.
        let elsewhere = self.elsewhere()?;
        let found = self.file.metadata()?;
        let now = Some((found.len(), found.modified()?));
        if self.seen != now {
            self.seen = now;
            let news = self.read_on(trail)?;
            if news != News::Same {
                return Ok(news);
            }
        }
        Ok(elsewhere.map_or(News::Same, News::Elsewhere))
    }

    /// Reads the last bytes again, and what stands behind them.
    fn read_on(&mut self, trail: &mut Vec<u8>) -> io::Result<News> {
        let last = trail.len().saturating_sub(AGAIN);
        let known = &trail[last..];
        self.file.seek(SeekFrom::Start(self.start + last as u64))?;
        let mut again = Vec::new();
        let mut part = self.file.by_ref().take(known.len() as u64);
        part.read_to_end(&mut again)?;
        if again.len() < known.len() {
            return Ok(News::Lost("has become shorter"));
        }
        if again != known {
            return Ok(News::Lost("has been written over"));
        }
        Ok(match self.file.read_to_end(trail)? {
            0 => News::Same,
            _ => News::More,
        })
    }

    /// What has become of the file's name, if it stands for it no longer.
    fn elsewhere(&self) -> io::Result<Option<&'static str>> {
        let Some(path) = &self.path else {
            return Ok(None);
        };
        Ok(match identity(path) {
            Ok(there) if there == identity_of(&self.file.metadata()?) => None,
            Ok(_) => Some("has been replaced by another file"),
            Err(error) => match error.kind() {
                ErrorKind::NotFound | ErrorKind::NotADirectory => Some("has been removed"),
                _ => return Err(error),
            },
        })
    }
}

/// What tells one file from all others.
fn identity(path: &Path) -> io::Result<(u64, u64)> {
    Ok(identity_of(&fs::metadata(path)?))
}

fn identity_of(found: &fs::Metadata) -> (u64, u64) {
    (found.dev(), found.ino())
}

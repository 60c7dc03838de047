//! Where a log comes from.

use memory::zeros;
use std::borrow::Cow;
use std::fs::File;
use std::io::{self, ErrorKind, Read, Seek, SeekFrom};
use std::os::unix::fs::FileExt;
use std::path::PathBuf;
use std::sync::atomic::{AtomicUsize, Ordering};
use std::sync::Mutex;
use std::thread;

/// The longest log that can be accepted (01, refusal 1).
const LONGEST: u64 = 1 << 30;

/// How much of a file a thread reads at a time.
const PART: usize = 1 << 20;

/// More threads than this don't read any faster.
const MOST_THREADS: usize = 4;

pub enum Source {
    Standard,
    File(PathBuf),
}

impl Source {
    /// Its name for people.
    pub fn name(&self) -> Cow<'_, str> {
        match self {
            Source::Standard => "-".into(),
            Source::File(path) => path.to_string_lossy(),
        }
    }

    /// All its bytes; of a log too long, enough to be refused as that.
    pub fn read(&self) -> io::Result<Vec<u8>> {
        match self {
            Source::Standard => rest(io::stdin().lock(), Vec::new()),
            Source::File(path) => {
                let file = File::open(path)?;
                let about = file.metadata()?;
                // what is no file, such as a pipe, can only be read in order
                whole(file, if about.is_file() { about.len() } else { 0 })
            }
        }
    }
}

/// All bytes of a file. As many as it is said to have are read in parts, if
/// they are many; what is left in order, up to the end.
fn whole(mut file: File, size: u64) -> io::Result<Vec<u8>> {
    let size = usize::try_from(size.min(LONGEST)).unwrap_or(0);
    if size <= PART {
        return rest(file, room(size)?);
    }
    let mut bytes = zeros(size).ok_or(ErrorKind::OutOfMemory)?;
    let read = in_parts(&file, &mut bytes);
    bytes.truncate(read);
    file.seek(SeekFrom::Start(read as u64))?;
    rest(file, bytes)
}

/// Room for so many bytes, and one more, so that the end is seen with no growth.
fn room(size: usize) -> io::Result<Vec<u8>> {
    let mut bytes = Vec::new();
    bytes
        .try_reserve_exact(size + 1)
        .map_err(|_| ErrorKind::OutOfMemory)?;
    Ok(bytes)
}

/// Bytes, and all that follow them.
fn rest(from: impl Read, mut bytes: Vec<u8>) -> io::Result<Vec<u8>> {
    let left = LONGEST + 1 - bytes.len() as u64;
    from.take(left).read_to_end(&mut bytes)?;
    Ok(bytes)
}

/// Fills a buffer from a file's start, several threads a part each at a time.
/// How many bytes there are before the first that could not be read: a part
/// ends early where the file does, or by an error.
fn in_parts(file: &File, buffer: &mut [u8]) -> usize {
    let end = AtomicUsize::new(buffer.len());
    let places = (0..).step_by(PART);
    let parts = Mutex::new(places.zip(buffer.chunks_mut(PART)));
    let next = || parts.lock().ok()?.next();
    let work = || {
        while let Some((place, part)) = next() {
            let size = part.len();
            let read = fill(file, place, part);
            if read < size {
                end.fetch_min(place + read, Ordering::Relaxed);
            }
        }
    };
    let processors = thread::available_parallelism().map_or(1, |count| count.get());
    thread::scope(|scope| {
        for _ in 1..processors.min(MOST_THREADS) {
            // what one that can't be started would read is read by the others
            let _ = thread::Builder::new().spawn_scoped(scope, work);
        }
        work();
    });
    end.into_inner()
}

/// Fills a part from a place of a file on. How many bytes were read.
fn fill(file: &File, place: usize, part: &mut [u8]) -> usize {
    let mut read = 0;
    while let Some(room @ [_, ..]) = part.get_mut(read..) {
        match file.read_at(room, (place + read) as u64) {
            Ok(0) => break,
            Ok(count) => read += count,
            Err(e) if e.kind() == ErrorKind::Interrupted => {}
            Err(_) => break,
        }
    }
    read
}

#[cfg(test)]
mod tests {
    use super::*;

    /// A file of bytes that differ from part to part.
    fn file(size: usize) -> (File, Vec<u8>) {
        let name = format!("tegmeadow-input-{}-{size}", std::process::id());
        let path = std::env::temp_dir().join(name);
        let bytes: Vec<u8> = (0..size).map(|k| (k % 251) as u8).collect();
        std::fs::write(&path, &bytes).expect("a file");
        let file = File::open(&path).expect("the file");
        std::fs::remove_file(&path).expect("it is open all the same");
        (file, bytes)
    }

    /// Sizes at which something changes.
    const SIZES: [usize; 9] = [
        0,
        1,
        PART - 1,
        PART,
        PART + 1,
        2 * PART - 1,
        2 * PART,
        2 * PART + 1,
        5 * PART + 7,
    ];

    /// What is read is what is there, whatever size the file had before.
    #[test]
    fn a_file_is_read_whole() {
        for size in SIZES {
            let (file, bytes) = file(size);
            for told in SIZES {
                let same = file.try_clone().and_then(|mut same| {
                    same.rewind()?;
                    whole(same, told as u64)
                });
                assert!(same.is_ok_and(|same| same == bytes), "{told} for {size}");
            }
        }
    }

    #[test]
    fn what_can_not_be_read_is_an_error() {
        let folder = File::open(std::env::temp_dir()).expect("a folder");
        assert!(whole(folder, 3 * PART as u64).is_err());
    }
}

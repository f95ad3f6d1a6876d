// The least that opening a root has to do, in plain Rust: read each file of each folder and compare its SHA-256 with the one that was
// written. It stands for no table, keeps no part, and looks at no value. It prints the files, their bytes, and what the digests took of
// the time.
mod sha256;

use sha256::sha256;
use std::fs;
use std::io;
use std::path::{Path, PathBuf};
use std::time::{Duration, Instant};

/// The bytes of a manifest in front of its first mark: `MTP1`, the version, the rows and the number of files.
const HEADER: usize = 18;
/// A mark: a size of 8 bytes and a digest of 32.
const MARK: usize = 40;
const DIGEST: usize = 32;

#[derive(Default)]
struct Digests {
    files: usize,
    bytes: usize,
    time: Duration,
}

impl Digests {
    /// Fails where the digest of the bytes is another.
    fn compare(&mut self, bytes: &[u8], digest: &[u8]) -> io::Result<()> {
        let start = Instant::now();
        let same = sha256(bytes) == digest;
        self.time += start.elapsed();
        self.bytes += bytes.len();
        same.then_some(()).ok_or(io::ErrorKind::InvalidData.into())
    }

    /// Checks a file that ends with the digest of what is in front.
    fn check_sealed(&mut self, file: &Path) -> io::Result<Vec<u8>> {
        let bytes = fs::read(file)?;
        let split = bytes.len().checked_sub(DIGEST).ok_or(io::ErrorKind::InvalidData)?;
        let (front, digest) = bytes.split_at(split);
        self.compare(front, digest)?;
        self.files += 1;
        Ok(bytes)
    }

    /// Checks the manifest of a part, and its other files by the marks of the manifest.
    fn check_part(&mut self, folder: &Path) -> io::Result<()> {
        let manifest = self.check_sealed(&folder.join("manifest.bin"))?;
        let marks = &manifest[HEADER..manifest.len() - DIGEST];
        for (number, mark) in marks.chunks_exact(MARK).enumerate() {
            let bytes = fs::read(folder.join(file_name(number)))?;
            self.compare(&bytes, &mark[MARK - DIGEST..])?;
            self.files += 1;
        }
        Ok(())
    }
}

/// The name of the file whose mark stands at this place of a manifest.
fn file_name(place: usize) -> String {
    match place {
        0 => "marks.bin".to_string(),
        1 => "primary.bin".to_string(),
        _ => format!("c{}.bin", place - 2),
    }
}

fn main() -> io::Result<()> {
    let root = std::env::args().nth(1).ok_or(io::ErrorKind::InvalidInput)?;
    let start = Instant::now();
    let mut folders = fs::read_dir(root)?.map(|entry| Ok(entry?.path())).collect::<io::Result<Vec<PathBuf>>>()?;
    folders.retain(|folder| folder.is_dir()); // not the lock
    folders.sort();
    let mut digests = Digests::default();
    for folder in &folders {
        let entry = folder.join("entry.bin");
        if entry.exists() {
            digests.check_sealed(&entry)?;
        } else {
            digests.check_part(folder)?;
        }
    }
    let (all, time) = (start.elapsed().as_secs_f64(), digests.time.as_secs_f64());
    println!("{} files, {} bytes: {all:.3} s, of which digests {time:.3} s", digests.files, digests.bytes);
    Ok(())
}

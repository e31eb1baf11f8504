//! Model files: reading their start, what the replay program says of each, and their cuts.

use std::fs::{self, File};
use std::io::{self, Read};
use std::path::Path;

use crate::model::MOST_BYTES;
use crate::print::replayed;
use crate::read::read;

/// The bytes of an input up to one more than a model may have.
pub fn read_start(input: impl Read) -> io::Result<Vec<u8>> {
    let mut bytes = vec![];
    input.take(MOST_BYTES as u64 + 1).read_to_end(&mut bytes)?;
    Ok(bytes)
}

pub fn open(name: &str) -> io::Result<Vec<u8>> {
    File::open(name).and_then(read_start)
}

/// What the replay program prints for these files.
pub fn expect(names: &[&str]) -> String {
    let of_file = |name: &&str| match open(name) {
        Ok(bytes) => format!("file {name}\n{}", replayed(&bytes)),
        Err(_) => format!("file {name}\nunread\n"),
    };
    names.iter().map(of_file).collect()
}

/// Writes every cut of each readable model, alone and with the whole file behind it; gives the
/// number of files.
pub fn write_cuts(dir: &Path, models: &[&str]) -> io::Result<usize> {
    let mut written = 0;
    for (number, model) in models.iter().enumerate() {
        let whole = open(model)?;
        if read(&whole).is_ok() {
            let stem = Path::new(model).file_stem().unwrap_or_default().to_string_lossy();
            written += write_cuts_of(&whole, &dir.join(format!("{number:03}-{stem}")))?;
        }
    }
    Ok(written)
}

/// Writes every cut of one model into files whose names begin alike; gives the number of files.
fn write_cuts_of(whole: &[u8], start: &Path) -> io::Result<usize> {
    for length in 0..whole.len() {
        let cut = &whole[..length];
        let name = format!("{}-{length:04}", start.display());
        fs::write(format!("{name}-alone.bin"), cut)?;
        if length > 0 {
            fs::write(format!("{name}-whole-behind.bin"), [cut, whole].concat())?;
        }
    }
    Ok(2 * whole.len() - 1)
}

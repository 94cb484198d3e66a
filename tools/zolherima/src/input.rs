//! Reading files, never more than is asked for, and writing what was made.

use std::fs::File;
use std::io::{self, ErrorKind, Read, Write};
use std::path::Path;

use crate::args::Input;

impl Input {
    /// What messages call it.
    pub fn name(&self) -> String {
        match self {
            Input::Standard => "standard input".to_string(),
            Input::File(path) => path.display().to_string(),
        }
    }

    /// All bytes, or one more than the most that are of use: the reader sees that there are too many, however many there are.
    pub fn read(&self, most: usize) -> Result<Vec<u8>, String> {
        let read = match self {
            Input::Standard => bounded(io::stdin().lock(), most),
            Input::File(path) => File::open(path).and_then(|file| bounded(file, most)),
        };
        read.map_err(|error| format!("{}: {error}", self.name()))
    }
}

fn bounded(input: impl Read, most: usize) -> io::Result<Vec<u8>> {
    let mut bytes = Vec::new();
    input.take(most as u64 + 1).read_to_end(&mut bytes)?;
    Ok(bytes)
}

pub fn write_file(path: &Path, bytes: &[u8]) -> Result<(), String> {
    std::fs::write(path, bytes).map_err(|error| format!("{}: {error}", path.display()))
}

/// Whoever reads may have had enough: that is no failure of ours.
pub fn write(out: &mut impl Write, bytes: &[u8]) -> Result<(), String> {
    match out.write_all(bytes).and_then(|()| out.flush()) {
        Err(error) if error.kind() != ErrorKind::BrokenPipe => Err(format!("writing: {error}")),
        _ => Ok(()),
    }
}

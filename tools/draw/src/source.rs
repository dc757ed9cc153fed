//! The terrain that the command line names: a file or standard input, a text of ours or something that GDAL
//! reads.

use crate::gdal;
use crate::reader::Unread;
use crate::terrain::{self, Terrain};
use std::fs::File;
use std::io::{self, BufRead, BufReader, Read};
use std::path::Path;

/// So many bytes of a file tell whether it is a text.
const HEAD: u64 = 4096;

/// So many bytes are read at a time, where the file is read part by part.
const PART: usize = 1 << 16;

/// A file's name for messages.
pub fn name(file: &Path) -> String {
    match is_standard_input(file) {
        true => "standard input".to_owned(),
        false => file.display().to_string(),
    }
}

/// The terrain of a file; or a sentence on why there is none.
pub fn read(file: &Path) -> Result<Terrain, String> {
    let mut bytes = Vec::new();
    if is_standard_input(file) {
        let read = io::stdin().lock().read_to_end(&mut bytes);
        read.map_err(|error| error.to_string())?;
        return terrain::read(&bytes).map_err(|unread| match unread {
            Unread::Foreign(fault) => {
                format!("{fault}; what GDAL reads is given by its name, not on standard input")
            }
            unread => unread.to_string(),
        });
    }
    let mut opened = File::open(file).map_err(|error| error.to_string())?;
    let head = opened.by_ref().take(HEAD).read_to_end(&mut bytes);
    head.map_err(|error| error.to_string())?;
    // No text has a zero byte, and an image may be too large to read for nothing.
    if bytes.contains(&0) {
        return gdal::read(file);
    }
    opened
        .read_to_end(&mut bytes)
        .map_err(|error| error.to_string())?;
    match terrain::read(&bytes) {
        Err(Unread::Foreign(fault)) => gdal::read(file).map_err(|why| format!("{fault}; {why}")),
        read => read.map_err(|unread| unread.to_string()),
    }
}

/// A file to be read part by part; or a sentence.
pub fn open(file: &Path) -> Result<Box<dyn BufRead>, String> {
    if is_standard_input(file) {
        return Ok(Box::new(BufReader::new(io::stdin())));
    }
    let opened = File::open(file).map_err(|error| error.to_string())?;
    Ok(Box::new(BufReader::with_capacity(PART, opened)))
}

fn is_standard_input(file: &Path) -> bool {
    file == Path::new("-")
}

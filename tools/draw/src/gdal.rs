//! Files that are no text of ours, handed through GDAL's gdal_translate as an ASCII grid, where it is installed.

use crate::reader::Unread;
use crate::terrain::{self, Terrain};
use std::io::{ErrorKind, Read};
use std::path::Path;
use std::process::{Child, Command, Stdio};
use std::thread;

/// So much of a grid has its header whole.
const HEAD: u64 = 4096;

/// The first band of a file that GDAL reads; or a sentence.
pub fn read(file: &Path) -> Result<Terrain, String> {
    // A name that begins with '-' would be an option.
    let file = Path::new(".").join(file);
    let spawned = Command::new("gdal_translate")
        .args(["-q", "-of", "AAIGrid", "-b", "1"])
        .args(["--config", "GDAL_PAM_ENABLED", "NO"])
        .arg(file)
        .arg("/vsistdout/")
        .stdin(Stdio::null())
        .stdout(Stdio::piped())
        .stderr(Stdio::piped())
        .spawn();
    match spawned {
        Ok(child) => read_from(child),
        Err(error) if error.kind() == ErrorKind::NotFound => Err(
            "it is neither an ESRI ASCII grid nor rows of numbers, and gdal_translate, which reads GeoTIFF and \
             other kinds, is not installed"
                .to_owned(),
        ),
        Err(error) => Err(format!("gdal_translate: {error}")),
    }
}

/// The grid that the program writes. One with sides past the limit is refused by its header.
fn read_from(mut child: Child) -> Result<Terrain, String> {
    let mut out = child.stdout.take().expect("it is piped");
    let mut errors = child.stderr.take().expect("it is piped");
    let said = thread::spawn(move || {
        let mut text = Vec::new();
        let _ = errors.read_to_end(&mut text);
        String::from_utf8_lossy(&text).into_owned()
    });
    let failed = |error: std::io::Error| format!("gdal_translate: {error}");
    let mut bytes = Vec::new();
    out.by_ref()
        .take(HEAD)
        .read_to_end(&mut bytes)
        .map_err(failed)?;
    let by_header = terrain::read(&bytes);
    if let Err(unread @ Unread::Sides(..)) = by_header {
        let _ = child.kill();
        let _ = child.wait();
        return Err(unread.to_string());
    }
    out.read_to_end(&mut bytes).map_err(failed)?;
    let status = child.wait().map_err(failed)?;
    let said = said.join().unwrap_or_default();
    if !status.success() {
        let last = said.lines().last().unwrap_or("it failed");
        return Err(format!("gdal_translate: {last}"));
    }
    terrain::read(grid_alone(&bytes))
        .map_err(|unread| format!("as gdal_translate writes it: {unread}"))
}

/// The grid without the map projection, which the program writes behind it, on a line that begins with a letter
/// and does not end.
fn grid_alone(bytes: &[u8]) -> &[u8] {
    let last = bytes.rsplit(|byte| *byte == b'\n').next().unwrap_or(&[]);
    match last.first() {
        Some(byte) if byte.is_ascii_alphabetic() => &bytes[..bytes.len() - last.len()],
        _ => bytes,
    }
}

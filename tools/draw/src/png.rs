//! A picture as PNG, by whichever converter is installed.

use crate::failure::Failure;
use std::io::{self, BufWriter, ErrorKind, Write};
use std::process::{Child, ChildStdin, Command, Stdio};

/// Programs that read SVG from standard input and write PNG to standard output, with their arguments.
const CONVERTERS: [(&str, &[&str]); 3] = [
    ("rsvg-convert", &["--unlimited", "--format=png"]),
    (
        "inkscape",
        &["--pipe", "--export-type=png", "--export-filename=-"],
    ),
    ("magick", &["svg:-", "png:-"]),
];

/// Has a picture written, converted, and handed on to standard output.
pub fn write(picture: impl FnOnce(&mut dyn Write) -> Result<(), Failure>) -> Result<(), Failure> {
    let (name, mut child) = start()?;
    let mut into = BufWriter::new(child.stdin.take().expect("it is piped"));
    let written = picture(&mut into).and_then(|()| finish(into));
    let status = child.wait()?;
    match written {
        // A converter that stops reading has failed, and says so itself.
        Err(Failure::Output(error)) if error.kind() == ErrorKind::BrokenPipe => (),
        written => written?,
    }
    match status.success() {
        true => Ok(()),
        false => Err(format!("{name} makes no PNG of the picture").into()),
    }
}

/// The first converter that there is.
fn start() -> Result<(&'static str, Child), Failure> {
    for (name, arguments) in CONVERTERS {
        let started = Command::new(name)
            .args(arguments)
            .stdin(Stdio::piped())
            .spawn();
        match started {
            Err(error) if error.kind() == ErrorKind::NotFound => continue,
            started => return Ok((name, started?)),
        }
    }
    let names = CONVERTERS.map(|(name, _)| name).join(", ");
    Err(format!("--png wants one of these programs, and none is installed: {names}").into())
}

fn finish(into: BufWriter<ChildStdin>) -> Result<(), Failure> {
    into.into_inner().map(drop).map_err(io::Error::from)?;
    Ok(())
}

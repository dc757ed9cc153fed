//! What the command line asks for: its words are sorted by `words`, and here they are given a meaning, or
//! refused with a sentence.

use crate::levels::{Heights, Wanted};
use crate::words::Words;
use nigrulent::{Placement, Rule};
use std::ffi::OsString;
use std::path::PathBuf;

/// What is to be done.
#[derive(Debug, PartialEq)]
pub enum Command {
    Help,
    Version,
    Draw(Options),
}

/// What is drawn of which file, and how.
#[derive(Debug, PartialEq)]
pub struct Options {
    pub file: PathBuf,
    pub wanted: Wanted,
    pub figure: Figure,
    pub form: Form,
    pub place: Place,
    pub page: Page,
}

/// What is drawn of a slice of the heights.
#[derive(Clone, Copy, Debug, PartialEq)]
pub enum Figure {
    /// Its samples, as polygons with holes.
    Polygons,
    /// The library's band.
    Isobands,
    /// The lines at its heights.
    Lines { smooth: bool },
}

/// What is written.
#[derive(Clone, Copy, Debug, PartialEq)]
pub enum Form {
    GeoJson,
    Svg,
    Png,
    Counts,
    /// Each ring as it closes, while the file is read.
    Stream,
    /// What became of the ring of this number, or of each.
    Why(Option<u64>),
}

/// Where figures stand, if not where the file says.
#[derive(Clone, Copy, Debug, Default, PartialEq)]
pub struct Place {
    pub grid: bool,
    pub origin: Option<(f64, f64)>,
    pub step: Option<(f64, f64)>,
}

/// How a picture looks, where that is not left to the program.
#[derive(Clone, Debug, Default, PartialEq)]
pub struct Page {
    pub width: Option<f64>,
    pub height: Option<f64>,
    pub title: Option<String>,
}

impl Place {
    /// What the command line says, and for the rest what the file says; none are grid units.
    pub fn placement(&self, of_file: Option<Placement>) -> Option<Placement> {
        if self.grid || (self.origin, self.step, of_file) == (None, None, None) {
            return None;
        }
        let mut placement = of_file.unwrap_or_default();
        if let Some((x, y)) = self.origin {
            (placement.x_origin, placement.y_origin) = (x, y);
        }
        if let Some((x, y)) = self.step {
            (placement.x_step, placement.y_step) = (x, y);
        }
        Some(placement)
    }
}

/// Reads the command line without the program's name. A fault is described in a sentence.
pub fn parse(words: impl IntoIterator<Item = OsString>) -> Result<Command, String> {
    let words = Words::sort(words)?;
    if words.has("--help") {
        return Ok(Command::Help);
    }
    if words.has("--version") {
        return Ok(Command::Version);
    }
    let (file, numbers) = match words.plain.split_first() {
        Some((file, numbers)) => (PathBuf::from(file), numbers),
        None => return Err("FILE and THRESHOLD are missing".to_owned()),
    };
    let wanted = wanted(&words, numbers)?;
    Ok(Command::Draw(Options {
        file,
        figure: figure(&words, wanted.bands)?,
        form: form(&words)?,
        place: place(&words)?,
        page: page(&words)?,
        wanted,
    }))
}

/// The heights, one alone or two as a band, or all of them one by one.
fn wanted(words: &Words, numbers: &[OsString]) -> Result<Wanted, String> {
    words.exclude("--levels", "--bands")?;
    // Its multiples go by the lowest and the highest sample.
    words.exclude("--stream", "--interval")?;
    check_why(words, numbers.len())?;
    let (levels, bands) = (words.has("--levels"), words.has("--bands"));
    let rule = match words.has("--above") {
        true => Rule::MoreThan,
        false => Rule::AtLeast,
    };
    if let Some(step) = words.number("--interval")? {
        return match (numbers, step > 0.0) {
            ([], true) => Ok(Wanted {
                heights: Heights::Every(step),
                rule,
                bands,
                collected: true,
            }),
            ([], false) => Err(format!("--interval wants a number above 0, not '{step}'")),
            _ => Err("--interval takes the place of thresholds".to_owned()),
        };
    }
    let is_band = numbers.len() == 2 && !levels;
    let names = match is_band && !bands {
        true => ["LOW", "HIGH"],
        false => ["THRESHOLD"; 2],
    };
    let heights = heights(numbers, names)?;
    match heights.len() {
        0 => return Err(no_threshold(words)),
        1 if bands => return Err("--bands wants two thresholds or more".to_owned()),
        count @ 3.. if !levels && !bands => {
            return Err(format!(
                "there are {count} thresholds: --levels draws each of them, --bands what lies between them"
            ))
        }
        _ => (),
    }
    Ok(Wanted {
        heights: Heights::Listed(heights),
        rule,
        bands: bands || is_band,
        collected: levels || bands,
    })
}

/// Whether there is one threshold at which rings are to be explained.
fn check_why(words: &Words, thresholds: usize) -> Result<(), String> {
    for name in ["--levels", "--bands", "--interval"] {
        words.exclude("--why", name)?;
    }
    match words.has("--why") && thresholds > 1 {
        true => Err(format!(
            "--why goes with one THRESHOLD, and there are {thresholds}; its N is a whole number"
        )),
        false => Ok(()),
    }
}

/// What is said where there is no threshold: the word behind --why may have been meant for it.
fn no_threshold(words: &Words) -> String {
    match words.value("--why") {
        Some(number) => format!("THRESHOLD is missing: {number} is the N of --why"),
        None => "THRESHOLD is missing".to_owned(),
    }
}

/// Numbers that ascend.
fn heights(numbers: &[OsString], names: [&str; 2]) -> Result<Vec<f64>, String> {
    let mut heights: Vec<f64> = Vec::new();
    for (k, word) in numbers.iter().enumerate() {
        let (text, name) = (word.to_string_lossy(), names[k.min(1)]);
        let height = match text.trim().parse::<f64>() {
            Ok(height) if !height.is_nan() => height,
            _ => return Err(format!("{name} is not a number: '{text}'")),
        };
        match heights.last() {
            Some(before) if names[0] == "LOW" && *before >= height => {
                return Err(format!("LOW is not below HIGH: {before} and {height}"));
            }
            Some(before) if *before >= height => {
                return Err(format!("thresholds ascend, and {height} follows {before}"));
            }
            _ => heights.push(height),
        }
    }
    Ok(heights)
}

/// Contours and bands of the library are not smoothed.
fn figure(words: &Words, bands: bool) -> Result<Figure, String> {
    words.exclude("--isobands", "--lines")?;
    for name in ["--isobands", "--lines", "--smooth"] {
        words.exclude("--stream", name)?;
        words.exclude("--why", name)?;
    }
    let (lines, smooth) = (words.has("--lines"), words.has("--smooth"));
    match (lines, smooth, words.has("--isobands")) {
        (true, smooth, _) => Ok(Figure::Lines { smooth }),
        (false, true, _) => Err("--smooth goes with --lines: polygons are not smoothed".to_owned()),
        (_, _, true) if !bands => Err("--isobands goes with LOW and HIGH, or --bands".to_owned()),
        (_, _, true) => Ok(Figure::Isobands),
        (_, _, false) => Ok(Figure::Polygons),
    }
}

fn form(words: &Words) -> Result<Form, String> {
    let forms = [
        ("--svg", Form::Svg),
        ("--png", Form::Png),
        ("--counts", Form::Counts),
        ("--stream", Form::Stream),
        ("--why", Form::Why(words.whole("--why")?)),
    ];
    for (k, (name, _)) in forms.iter().enumerate() {
        for (other, _) in &forms[k + 1..] {
            words.exclude(name, other)?;
        }
    }
    let asked = forms.iter().find(|(name, _)| words.has(name));
    Ok(asked.map_or(Form::GeoJson, |(_, form)| *form))
}

fn place(words: &Words) -> Result<Place, String> {
    // What is said of rings is in grid units.
    let in_grid_units = ["--grid", "--why"];
    for name in in_grid_units {
        words.exclude(name, "--origin")?;
        words.exclude(name, "--step")?;
    }
    let place = Place {
        grid: in_grid_units.into_iter().any(|name| words.has(name)),
        origin: words.pair("--origin")?,
        step: words.pair("--step")?,
    };
    match place.step {
        Some((x, y)) if x == 0.0 || y == 0.0 => {
            Err("a step of 0 leaves nothing to draw".to_owned())
        }
        _ => Ok(place),
    }
}

/// The size in pixels and the title of a picture.
fn page(words: &Words) -> Result<Page, String> {
    let picture = words.has("--svg") || words.has("--png");
    let named = ["--width", "--height", "--title"]
        .into_iter()
        .find(|name| words.has(name));
    match named {
        Some(name) if !picture => return Err(format!("{name} goes with --svg or --png")),
        _ => (),
    }
    let side = |name: &str| match words.number(name)? {
        Some(side) if !(100.0..=20_000.0).contains(&side) => {
            Err(format!("{name} wants 100 to 20,000 pixels, not {side}"))
        }
        side => Ok(side),
    };
    Ok(Page {
        width: side("--width")?,
        height: side("--height")?,
        title: words.value("--title").map(str::to_owned),
    })
}

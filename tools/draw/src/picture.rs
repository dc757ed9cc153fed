//! Pictures in SVG: a map with title, axes, legend and scale. The first row of samples is on top.

use crate::colours::{self, GROUND, INK, PAPER};
use crate::failure::Failure;
use crate::frame;
use crate::layout::Layout;
use crate::legend::{self, Legend};
use crate::levels::Slice;
use crate::options::{Figure, Options};
use crate::paths::{self, UNIT};
use crate::shapes::{self, Line};
use crate::terrain::Terrain;
use nigrulent::Placement;
use std::io::{self, Write};

/// How wide strokes are at most, in pixels, and as shares of a cell: of a line, and of a region's outline.
const LINE: (f64, f64) = (1.5, 1.0);
const OUTLINE: (f64, f64) = (0.8, 0.2);

/// Writes the picture of all slices.
pub fn write(
    out: &mut dyn Write,
    terrain: &Terrain,
    slices: &[Slice],
    options: &Options,
) -> Result<(), Failure> {
    let no_data = terrain.values.iter().any(|value| value.is_nan());
    let legend = Legend::new(slices, options.figure, no_data);
    let title = title(slices, options);
    let layout = Layout::new(terrain, &options.page, legend.width(), &title)?;
    frame::begin(out, &layout, &title)?;
    begin_map(out, &layout, options.figure)?;
    if no_data {
        let holes = shapes::no_data(terrain)?;
        let fill = "fill=\"url(#no-data-drawn)\"";
        write_path(out, &layout, fill, paths::rings(&holes))?;
    }
    let drawn = match options.figure {
        Figure::Lines { smooth } => write_lines(out, terrain, &layout, slices, smooth)?,
        figure => write_regions(out, terrain, &layout, slices, figure)?,
    };
    out.write_all(b"</g>\n</g>\n")?;
    if !drawn {
        write_amid(out, &layout, "no such sample")?;
    }
    frame::write_axes(out, &layout)?;
    legend.write(out, &layout)?;
    frame::write_scale(out, &layout)?;
    Ok(out.write_all(b"</svg>\n")?)
}

/// A text in the middle of the map.
fn write_amid(out: &mut dyn Write, layout: &Layout, text: &str) -> io::Result<()> {
    let x = layout.left + layout.map_width / 2.0;
    let y = layout.top + layout.map_height / 2.0;
    writeln!(
        out,
        "<text x=\"{x:.1}\" y=\"{y:.1}\" text-anchor=\"middle\">{text}</text>"
    )
}

/// The title that is asked for, or the file and its heights.
fn title(slices: &[Slice], options: &Options) -> String {
    if let Some(title) = &options.page.title {
        return title.clone();
    }
    let file = options.file.file_name().map(|name| name.to_string_lossy());
    let file = file
        .filter(|name| name != "-")
        .unwrap_or_else(|| "terrain".into());
    format!("{file}, {}", heights_in_words(slices, options))
}

fn heights_in_words(slices: &[Slice], options: &Options) -> String {
    let of_lines = matches!(options.figure, Figure::Lines { .. });
    let heights: Vec<_> = legend::levels(slices)
        .iter()
        .map(|level| level.threshold)
        .collect();
    match (slices, heights.as_slice()) {
        (_, [level]) if of_lines => format!("lines at {level}"),
        (_, [low, high]) if of_lines => format!("lines at {low} and {high}"),
        ([slice], _) => slice.to_string(),
        (_, [first, .., last]) => {
            let kind = match (of_lines, options.wanted.bands) {
                (true, _) => "lines at levels".to_owned(),
                (false, true) => format!("{} bands", slices.len()),
                (false, false) => format!("{} levels", slices.len()),
            };
            format!("{kind} from {first} to {last}")
        }
        _ => "no level parts its heights".to_owned(),
    }
}

/// The ground, and the groups in which paths are drawn.
fn begin_map(out: &mut dyn Write, layout: &Layout, figure: Figure) -> io::Result<()> {
    let Layout {
        left,
        top,
        map_width,
        map_height,
        ..
    } = layout;
    let ground = match figure {
        Figure::Lines { .. } => PAPER,
        _ => GROUND,
    };
    writeln!(
        out,
        "<rect x=\"{left:.2}\" y=\"{top:.2}\" width=\"{map_width:.2}\" height=\"{map_height:.2}\" fill=\"{ground}\"/>\n\
         <g clip-path=\"url(#map)\">\n<g transform=\"scale({UNIT})\" fill-rule=\"evenodd\" stroke-linejoin=\"round\">"
    )
}

/// Each slice in its colour, higher ones over lower ones. Returns whether there is any. The rings of the library's
/// band share edges where no region ends, so they have no outline.
fn write_regions(
    out: &mut dyn Write,
    terrain: &Terrain,
    layout: &Layout,
    slices: &[Slice],
    figure: Figure,
) -> Result<bool, Failure> {
    let mut any = false;
    for (k, slice) in slices.iter().enumerate() {
        let regions = shapes::polygons(terrain, *slice, figure)?;
        let fill = colours::of_region(k, slices.len());
        let outline = match figure {
            Figure::Isobands => String::new(),
            _ => format!(
                " stroke=\"{INK}\" stroke-width=\"{}\"",
                stroke(layout, OUTLINE)
            ),
        };
        any |= !regions.polygons.is_empty();
        write_path(
            out,
            layout,
            &format!("fill=\"{fill}\"{outline}"),
            paths::rings(&regions),
        )?;
    }
    Ok(any)
}

/// The lines at each height in its colour. Returns whether there is any.
fn write_lines(
    out: &mut dyn Write,
    terrain: &Terrain,
    layout: &Layout,
    slices: &[Slice],
    smooth: bool,
) -> Result<bool, Failure> {
    let mut any = false;
    let levels = legend::levels(slices);
    for (k, level) in levels.iter().enumerate() {
        let lines = shapes::lines(terrain, Slice::Above(*level), smooth, Placement::default())?;
        let (colour, width) = (colours::of_line(k, levels.len()), stroke(layout, LINE));
        any |= !lines.is_empty();
        let drawn = format!("fill=\"none\" stroke=\"{colour}\" stroke-width=\"{width}\"");
        write_path(out, layout, &drawn, lines.into_iter())?;
    }
    Ok(any)
}

/// A stroke's width, where paths are drawn: no more than a share of a cell.
fn stroke(layout: &Layout, (pixels, share): (f64, f64)) -> f64 {
    (pixels.min(share * layout.cell()) / UNIT * 100.0).round() / 100.0
}

/// One path of all rings, if there are any.
fn write_path(
    out: &mut dyn Write,
    layout: &Layout,
    drawn: &str,
    rings: impl Iterator<Item = Line>,
) -> io::Result<()> {
    let mut rings = rings.peekable();
    if rings.peek().is_none() {
        return Ok(());
    }
    write!(out, "<path {drawn} d=\"")?;
    paths::write(out, layout, rings)?;
    out.write_all(b"\"/>\n")
}

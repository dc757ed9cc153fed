//! What stands about the map of a picture: the page with its title, the axes with their numbers, and the scale.

use crate::axis;
use crate::colours::{INK, PAPER};
use crate::layout::{Layout, GAP, LETTER};
use crate::paths::UNIT;
use std::io::{self, Write};

/// What the axes' marks and the ends of the scale stand out, and how far below the map the scale stands.
const MARK: f64 = 5.0;
const SCALE: f64 = 44.0;

/// Everything up to the map: the page, the title, and the pattern of what has no data, for the legend and for
/// paths, which are drawn in smaller units.
pub fn begin(out: &mut dyn Write, layout: &Layout, title: &str) -> io::Result<()> {
    let Layout {
        width,
        height,
        left,
        top,
        map_width,
        map_height,
        ..
    } = layout;
    writeln!(
        out,
        "<?xml version=\"1.0\" encoding=\"UTF-8\"?>\n\
         <svg xmlns=\"http://www.w3.org/2000/svg\" width=\"{width}\" height=\"{height}\" \
         viewBox=\"0 0 {width} {height}\" font-family=\"sans-serif\" font-size=\"{LETTER}\" fill=\"{INK}\">\n\
         <title>{}</title>\n<defs>\n\
         <clipPath id=\"map\"><rect x=\"{left:.2}\" y=\"{top:.2}\" width=\"{map_width:.2}\" \
         height=\"{map_height:.2}\"/></clipPath>",
        escaped(title)
    )?;
    for (id, unit) in [("no-data", 1.0), ("no-data-drawn", 1.0 / UNIT)] {
        let side = 6.0 * unit;
        writeln!(
            out,
            "<pattern id=\"{id}\" width=\"{side}\" height=\"{side}\" patternUnits=\"userSpaceOnUse\">\
             <rect width=\"{side}\" height=\"{side}\" fill=\"{PAPER}\" stroke=\"none\"/>\
             <path d=\"M0 {side}L{side} 0\" stroke=\"#999\" stroke-width=\"{unit}\"/></pattern>"
        )?;
    }
    writeln!(
        out,
        "</defs>\n<rect width=\"{width}\" height=\"{height}\" fill=\"{PAPER}\"/>\n\
         <text x=\"{left:.1}\" y=\"28\" font-size=\"{}\">{}</text>",
        Layout::TITLE,
        escaped(&layout.shortened(title))
    )
}

/// A text as XML has it.
fn escaped(text: &str) -> String {
    let visible = text.replace(char::is_control, " ");
    let ampersands = visible.replace('&', "&amp;");
    ampersands.replace('<', "&lt;").replace('>', "&gt;")
}

/// The frame of the map, and the numbers along its left and lower side.
pub fn write_axes(out: &mut dyn Write, layout: &Layout) -> io::Result<()> {
    let Layout {
        left,
        top,
        map_width,
        map_height,
        ..
    } = layout;
    let (bottom, [across, down]) = (layout.bottom(), layout.ticks());
    let xs: Vec<f64> = across
        .iter()
        .map(|tick| left + tick.share * map_width)
        .collect();
    let ys: Vec<f64> = down
        .iter()
        .map(|tick| top + tick.share * map_height)
        .collect();
    write!(
        out,
        "<path fill=\"none\" stroke=\"{INK}\" d=\"M{left:.2},{top:.2}"
    )?;
    write!(out, "h{map_width:.2}v{map_height:.2}h-{map_width:.2}z")?;
    xs.iter()
        .try_for_each(|x| write!(out, "M{x:.2},{bottom:.2}v{MARK}"))?;
    ys.iter()
        .try_for_each(|y| write!(out, "M{left:.2},{y:.2}h-{MARK}"))?;
    writeln!(out, "\"/>\n<g text-anchor=\"middle\">")?;
    for (x, tick) in xs.iter().zip(&across) {
        let y = bottom + MARK + LETTER + 2.0;
        writeln!(out, "<text x=\"{x:.1}\" y=\"{y:.1}\">{}</text>", tick.text)?;
    }
    writeln!(out, "</g>\n<g text-anchor=\"end\">")?;
    for (y, tick) in ys.iter().zip(&down) {
        let (x, y) = (left - MARK - 3.0, y + LETTER * 0.35);
        writeln!(out, "<text x=\"{x:.1}\" y=\"{y:.1}\">{}</text>", tick.text)?;
    }
    out.write_all(b"</g>\n")
}

/// A round length below the map; where a length down is drawn otherwise, one beside the map too.
pub fn write_scale(out: &mut dyn Write, layout: &Layout) -> io::Result<()> {
    match layout.is_even() {
        true => write_scale_across(out, layout, ""),
        false => {
            write_scale_across(out, layout, " across")?;
            write_scale_down(out, layout)
        }
    }
}

fn write_scale_across(out: &mut dyn Write, layout: &Layout, direction: &str) -> io::Result<()> {
    let Length { pixels, text } = Length::of(layout.x.extent(), layout.map_width, layout.on_map);
    let (left, y, half) = (layout.left, layout.bottom() + SCALE, MARK / 2.0);
    let top = y - half;
    write!(
        out,
        "<path fill=\"none\" stroke=\"{INK}\" d=\"M{left:.2},{top:.2}"
    )?;
    writeln!(out, "v{MARK}m0,-{half}h{pixels:.2}m0,-{half}v{MARK}\"/>")?;
    let (x, y) = (left + pixels + 8.0, y + LETTER * 0.35);
    writeln!(
        out,
        "<text x=\"{x:.1}\" y=\"{y:.1}\">{text}{direction}</text>"
    )
}

fn write_scale_down(out: &mut dyn Write, layout: &Layout) -> io::Result<()> {
    let Length { pixels, text } = Length::of(layout.y.extent(), layout.map_height, layout.on_map);
    let (x, y, half) = (layout.right() + GAP, layout.bottom(), MARK / 2.0);
    write!(
        out,
        "<path fill=\"none\" stroke=\"{INK}\" d=\"M{x:.2},{y:.2}"
    )?;
    writeln!(out, "h{MARK}m-{half},0v-{pixels:.2}m-{half},0h{MARK}\"/>")?;
    let (x, y) = (x + MARK + 5.0, y - 2.0);
    writeln!(out, "<text x=\"{x:.1}\" y=\"{y:.1}\">{text} down</text>")
}

/// A round length of about a third of a side: how many pixels it takes, and its text.
struct Length {
    pixels: f64,
    text: String,
}

impl Length {
    fn of(extent: f64, pixels: f64, on_map: bool) -> Self {
        let third = axis::round_down(extent / 3.0);
        let (length, name) = match on_map {
            true => (third, "map units"),
            false if third <= 1.0 => (1.0, "cell"),
            false => (third, "cells"),
        };
        Length {
            // A terrain so far from its origin that its sides are lost in it has no length to show.
            pixels: if extent > 0.0 {
                length / extent * pixels
            } else {
                0.0
            },
            text: format!("{} {name}", axis::text(length, length)),
        }
    }
}

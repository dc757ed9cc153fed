//! GeoJSON text in plain Rust, written down from document 01 and RFC 7946 and nothing else. The comparison expects
//! it, and bench times it beside our library's.

use std::io::Write;

/// One MultiPolygon: the polygons in their order, each its rings, the exterior first, each ring its points as they are
/// to be written.
pub fn text<P, R>(polygons: impl IntoIterator<Item = P>) -> Vec<u8>
where
    P: IntoIterator<Item = R>,
    R: IntoIterator<Item = [f64; 2]>,
{
    let mut text = br#"{"type":"MultiPolygon","coordinates":"#.to_vec();
    array(&mut text, polygons, |text, polygon| {
        array(text, polygon, |text, ring| array(text, ring, point))
    });
    text.push(b'}');
    text
}

/// The items between brackets, a comma between two.
fn array<T>(
    text: &mut Vec<u8>,
    items: impl IntoIterator<Item = T>,
    mut write: impl FnMut(&mut Vec<u8>, T),
) {
    text.push(b'[');
    for (number, item) in items.into_iter().enumerate() {
        if number > 0 {
            text.push(b',');
        }
        write(text, item);
    }
    text.push(b']');
}

/// A half is written as Rust writes a float: 3 or 2.5.
fn point(text: &mut Vec<u8>, [x, y]: [f64; 2]) {
    write!(text, "[{x},{y}]").expect("a vector takes every byte");
}

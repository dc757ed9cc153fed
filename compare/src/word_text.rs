//! GeoJSON text from table words, which are doubled whole coordinates: no float is made of them, and each point is
//! written behind what its place asks for. `geojson` writes the same text list by list from floats. Both are written
//! down from document 01 and RFC 7946 and share nothing, so that a slip of form in one of them stops the run.

/// One MultiPolygon: the polygons in their order, each its rings, the exterior first, each ring the words of its
/// points, of which it has some, as they are to be written.
pub fn text(polygons: &[Vec<Vec<u16>>]) -> Vec<u8> {
    let mut text = String::from("{\"type\":\"MultiPolygon\",\"coordinates\":[");
    for (place, point) in points(polygons) {
        text += before(place);
        text += &half(point[0]);
        text += ",";
        text += &half(point[1]);
    }
    text += if polygons.is_empty() { "]}" } else { "]]]]}" };
    text.into_bytes()
}

/// The number of a polygon, of a ring in it, and of a point in that.
type Place = [usize; 3];

/// All points with their places.
fn points(polygons: &[Vec<Vec<u16>>]) -> impl Iterator<Item = (Place, &[u16])> {
    let numbered = polygons.iter().enumerate();
    let rings = numbered.flat_map(|(p, rings)| {
        let numbered = rings.iter().enumerate();
        numbered.map(move |(r, ring)| (p, r, ring))
    });
    rings.flat_map(|(p, r, ring)| {
        let numbered = ring.chunks_exact(2).enumerate();
        numbered.map(move |(k, point)| ([p, r, k], point))
    })
}

/// What ends the point before this one and begins this one: with a polygon, with a ring, or within one.
fn before(place: Place) -> &'static str {
    match place {
        [0, 0, 0] => "[[[",
        [_, 0, 0] => "]]],[[[",
        [_, _, 0] => "]],[[",
        _ => "],[",
    }
}

/// Half of a word in decimal: 3 or 2.5.
fn half(word: u16) -> String {
    let whole = (word / 2).to_string();
    match word % 2 {
        0 => whole,
        _ => whole + ".5",
    }
}

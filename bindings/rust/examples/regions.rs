//! Prints the contour and the bands of a 7 by 3 terrain as polygons and holes. One set of tables serves all
//! three.

use nigrulent::{Point, Refusal, Regions, Rule, Tables, Terrain};

/// A plate with a hole and a peak, and a small hill beside it.
#[rustfmt::skip]
const VALUES: [f64; 21] = [
    1.0, 1.0, 1.0, 1.0, 1.0, 0.0, 2.0,
    1.0, 0.0, 1.0, 2.0, 1.0, 0.0, 1.0,
    1.0, 1.0, 1.0, 1.0, 1.0, 0.0, 0.0,
];
const LEVELS: [f64; 3] = [1.0, 2.0, 2.0];

fn main() -> Result<(), Refusal> {
    let terrain = Terrain::new(&VALUES, 7, 3)?;
    let mut tables = Tables::new();
    print(
        "contour at 1",
        &tables.contours(&terrain, 1.0)?.to_regions(),
    );
    for (k, title) in ["band from 1 to 2", "band from 2 to 2"].iter().enumerate() {
        let band = tables.isobands(&terrain, &LEVELS, Rule::AtLeast, k)?;
        print(title, &band.to_regions());
    }
    if let Err(refusal) = tables.isobands(&terrain, &LEVELS, Rule::AtLeast, 2) {
        println!("band from the last threshold: refusal {}", refusal.number());
    }
    Ok(())
}

fn print(title: &str, regions: &Regions) {
    println!("{title}");
    for polygon in &regions.polygons {
        println!("polygon {}", shown(&polygon.exterior.points));
        for interior in &polygon.interiors {
            println!("  hole {}", shown(&interior.points));
        }
    }
    for ring in &regions.dropped {
        println!("dropped {}", shown(&ring.points));
    }
}

fn shown(ring: &[Point]) -> String {
    ring.iter().map(|[x, y]| format!("({x},{y})")).collect()
}

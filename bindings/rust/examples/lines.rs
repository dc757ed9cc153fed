//! Prints the lines of a 4 by 3 terrain: as drawn, smoothed, and smoothed and placed.

use nigrulent::{Placement, Refusal, Terrain, Vertex};

/// Two samples whose values the threshold 1 divides as 1 to 3.
const TWO: [f64; 2] = [0.0, 4.0];
/// A hill with a pit.
#[rustfmt::skip]
const HILL: [f64; 12] = [
    4.0, 4.0, 2.0, 0.0,
    4.0, 0.0, 4.0, 2.0,
    2.0, 4.0, 2.0, 0.0,
];

fn main() -> Result<(), Refusal> {
    let unplaced = Placement::default();
    let placed = Placement {
        x_origin: 10.0,
        y_origin: 20.0,
        x_step: 0.5,
        y_step: 0.25,
    };
    let two = Terrain::new(&TWO, 2, 1)?.lines(1.0, true, unplaced)?;
    print("two samples, smoothed", &two);
    let hill = Terrain::new(&HILL, 4, 3)?;
    print("as drawn", &hill.lines(1.0, false, unplaced)?);
    print("smoothed", &hill.lines(1.0, true, unplaced)?);
    print("smoothed and placed", &hill.lines(1.0, true, placed)?);
    if let Err(refusal) = Terrain::new(&HILL[1..], 4, 3) {
        println!("one value fewer: refusal {}", refusal.number());
    }
    Ok(())
}

fn print(title: &str, lines: &[Vec<Vertex>]) {
    println!("{title}");
    for line in lines {
        let points: String = line.iter().map(|[x, y]| format!("({x},{y})")).collect();
        println!("line {points}");
    }
}

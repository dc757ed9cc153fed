//! Prints the rings of a 3 by 3 terrain that is above everywhere but in the centre.

use nigrulent::{contains, Place, Refusal, Tables, Terrain};

fn main() -> Result<(), Refusal> {
    let values = [1.0, 1.0, 1.0, 1.0, 0.0, 1.0, 1.0, 1.0, 1.0];
    let terrain = Terrain::new(&values, 3, 3)?;
    let drawn = Tables::new().rings(&terrain, 1.0)?.to_rings();
    for ring in &drawn {
        let points = ring.points.iter().map(|[x, y]| format!("({x},{y})"));
        let points: String = points.collect();
        println!("ring {}: {points} area {}", ring.number, ring.area);
    }
    let answer = match contains(&drawn[1].points, &drawn[0].points)? {
        Place::Inside => 1,
        Place::Boundary => 0,
        Place::Outside => -1,
    };
    println!("ring 1 against ring 0: {answer}");
    if let Err(refusal) = Terrain::new(&values[1..], 3, 3) {
        println!("one value fewer: refusal {}", refusal.number());
    }
    Ok(())
}

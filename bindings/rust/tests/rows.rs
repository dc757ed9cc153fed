//! A terrain row by row against the same terrain as a whole, and what is refused on the way.

mod terrains;

use nigrulent::{Fate, Level, Point, Refusal, Ring, Rows, Terrain, SIDE_LIMIT};
use terrains::{for_terrains, row_by_row, summed_area, Random};

/// The rings of the terrain as a whole, by number, each with the area of its points.
fn whole(terrain: &Terrain, level: Level) -> Result<Vec<Ring>, Refusal> {
    let numbered = (0..).zip(terrain.rings(level)?);
    Ok(numbered
        .map(|(number, points)| Ring {
            number,
            area: summed_area(&points),
            points,
        })
        .collect())
}

/// The lowest row of cells that a ring has points in.
fn last_row(ring: &[Point]) -> usize {
    ring.iter()
        .map(|[_, y]| usize::from(y / 2))
        .max()
        .unwrap_or(0)
}

#[test]
fn all_rows_together_give_the_rings_of_the_whole() {
    for_terrains(|terrain, level| {
        let rings = row_by_row(terrain, level)?;
        assert_eq!(rings, whole(terrain, level)?, "{terrain:?}, {level:?}");
        Ok(())
    });
}

#[test]
fn a_ring_is_handed_out_as_soon_as_its_last_row_is_there() {
    for_terrains(|terrain, level| {
        let mut rows = Rows::begin(level, terrain.dx(), terrain.dy())?;
        let mut count = 0;
        for (y, row) in terrain.values().chunks(terrain.dx()).enumerate() {
            let closed = rows.push(row)?;
            for record in closed.records() {
                assert_eq!((last_row(record.points), record.number), (y, count));
                assert_eq!(record.fate, Fate::Line);
                assert_eq!(closed.record(count), Some(record));
                count += 1;
            }
            assert_eq!(closed.record(count), None);
        }
        for record in rows.finish()?.records() {
            assert_eq!(
                (last_row(record.points), record.number),
                (terrain.dy(), count)
            );
            count += 1;
        }
        Ok(())
    });
}

#[test]
fn a_row_of_no_numbers_takes_the_place_of_the_end() {
    for_terrains(|terrain, level| {
        let mut rows = Rows::begin(level, terrain.dx(), SIDE_LIMIT)?;
        let mut rings = Vec::new();
        let below = vec![f64::NAN; terrain.dx()];
        for row in terrain.values().chunks(terrain.dx()).chain([&below[..]]) {
            rings.extend(rows.push(row)?.to_rings());
        }
        assert_eq!(rings, whole(terrain, level)?);
        Ok(())
    });
}

/// Terrains as long or as wide as they may be, and a large one: noise, and a comb, whose one ring is unfinished from
/// the first row to the end.
#[test]
fn long_wide_and_large_terrains() {
    let mut random = Random(2);
    for (dx, dy) in [
        (2, SIDE_LIMIT),
        (3, SIDE_LIMIT),
        (SIDE_LIMIT, 3),
        (300, 200),
    ] {
        let noise: Vec<_> = (0..dx * dy).map(|_| random.below(2) as f64).collect();
        let in_comb = |k: usize| k < dx || k % dx % 2 == 0;
        let comb: Vec<_> = (0..dx * dy)
            .map(|k| f64::from(u8::from(in_comb(k))))
            .collect();
        for values in [noise, comb] {
            let terrain = Terrain::new(&values, dx, dy).expect("sides and count are right");
            let [whole, rows] = [whole, row_by_row].map(|draw| draw(&terrain, 1.0.into()));
            assert!(rows.is_ok() && rows == whole, "{dx} by {dy}");
        }
    }
}

#[test]
fn sides_are_refused() {
    for side in [0, SIDE_LIMIT + 1, 1 << 32, usize::MAX] {
        for (dx, dy) in [(side, 1), (1, side), (side, side)] {
            assert_eq!(Rows::begin(1.0, dx, dy).err(), Some(Refusal::Side));
        }
    }
}

#[test]
fn what_is_refused_changes_nothing() {
    for_terrains(|terrain, level| {
        let dx = terrain.dx();
        let mut rows = Rows::begin(level, dx, terrain.dy())?;
        let mut rings = Vec::new();
        let long = vec![level.threshold; dx + 1];
        for row in terrain.values().chunks(dx) {
            assert_eq!(rows.push(&long).err(), Some(Refusal::Row));
            assert_eq!(rows.push(&long[2..]).err(), Some(Refusal::Row));
            assert_eq!(rows.finish().err(), Some(Refusal::Turn));
            rings.extend(rows.push(row)?.to_rings());
        }
        // After the last row too, a row of the wrong length is refused by its length.
        assert_eq!(rows.push(&long[1..]).err(), Some(Refusal::Turn));
        assert_eq!(rows.push(&long).err(), Some(Refusal::Row));
        let mut copy = rows.clone();
        let last = rows.finish()?.to_rings();
        assert_eq!(copy.finish()?.to_rings(), last);
        rings.extend(last);
        assert_eq!(rows.finish().err(), Some(Refusal::Turn));
        assert_eq!(rows.push(&long[1..]).err(), Some(Refusal::Turn));
        assert_eq!(rings, whole(terrain, level)?);
        Ok(())
    });
}

#[test]
fn refusals_have_numbers_and_words() {
    for (refusal, number) in [(Refusal::Row, 13), (Refusal::Turn, 14)] {
        let text = format!("refusal {number}: {}", refusal.words());
        assert_eq!((refusal.number(), refusal.to_string()), (number, text));
        assert_ne!(refusal.words(), Refusal::Other(99).words());
    }
}

//! Why a ring is what it is, by area and containment of the plain rings, a vertex at a time; what smoothing does to
//! each vertex, by the smoothed lines; and what is refused.

mod terrains;

use nigrulent::{
    area, contains, Coordinate, Decision, Fate, Level, Place, Placement, Point, Refusal, RingFate,
    Rings, Rows, Tables, Terrain,
};
use terrains::{for_terrains, for_terrains_of, HEIGHTS, THRESHOLDS};

/// 3 by 3 above but the centre.
const FRAME: [f64; 9] = [1.0, 1.0, 1.0, 1.0, 0.0, 1.0, 1.0, 1.0, 1.0];

/// The first vertex that is not on the boundary of the outer ring decides.
fn decision(outer: &[Point], tested: &[Point]) -> Result<Decision, Refusal> {
    for (vertex, point) in (0..).zip(tested) {
        match contains(outer, &[*point])? {
            Place::Inside => return Ok(Decision::Inside(vertex)),
            Place::Outside => return Ok(Decision::Outside(vertex)),
            Place::Boundary => (),
        }
    }
    Ok(Decision::Undecided)
}

/// A ring of area above 0 is a polygon; any other belongs to the first polygon that it does not lie outside of.
fn fate(rings: &Rings, ring: &[Point]) -> Result<RingFate, Refusal> {
    if area(ring)? > 0 {
        return Ok(RingFate::Polygon);
    }
    for (owner, other) in (0..).zip(rings.iter()) {
        match decision(other, ring)? {
            Decision::Outside(_) => (),
            by if area(other)? > 0 => return Ok(RingFate::Hole { owner, by }),
            _ => (),
        }
    }
    Ok(RingFate::Dropped)
}

/// The same without the reason, as a record has it.
fn recorded(fate: RingFate) -> Fate {
    match fate {
        RingFate::Polygon => Fate::Polygon,
        RingFate::Hole { owner, .. } => Fate::Hole(owner),
        RingFate::Dropped => Fate::Dropped,
    }
}

#[test]
fn fates_of_a_contour_are_those_of_its_records() {
    let mut tables = Tables::new();
    for_terrains(|terrain, level| {
        let rings = tables.contours(terrain, level)?;
        for record in rings.records() {
            let found = rings.fate(record.number)?;
            assert_eq!(found, fate(&rings, record.points)?, "{terrain:?}");
            assert_eq!(recorded(found), record.fate, "{terrain:?}");
        }
        Ok(())
    });
}

/// A hole may lie on the boundary of a band's polygon with every vertex.
#[test]
fn fates_of_a_band_are_what_a_contour_makes_of_its_rings() {
    let (mut tables, mut undecided) = (Tables::new(), 0);
    for_terrains(|terrain, level| {
        let Level { threshold, rule } = level;
        let rings = tables.isobands(terrain, &[threshold, threshold + 1.0], rule, 0)?;
        for record in rings.records() {
            let found = rings.fate(record.number)?;
            assert_eq!(found, fate(&rings, record.points)?, "{terrain:?}");
            let by_none = matches!(
                found,
                RingFate::Hole {
                    by: Decision::Undecided,
                    ..
                }
            );
            undecided += u32::from(by_none);
        }
        Ok(())
    });
    assert!(undecided > 0);
}

#[test]
fn each_ring_answers_for_each_by_its_first_vertex_off_the_boundary() {
    let mut tables = Tables::new();
    for_terrains(|terrain, level| {
        let rings = tables.contours(terrain, level)?;
        for (polygon, outer) in (0..).zip(rings.iter()) {
            for (ring, tested) in (0..).zip(rings.iter()) {
                let answer = rings.answer(polygon, ring)?;
                assert_eq!(answer, decision(outer, tested)?, "{terrain:?}");
            }
        }
        Ok(())
    });
}

/// What the explained coordinate becomes, from the doubled one.
fn smoothed(doubled: u16, coordinate: Coordinate) -> f64 {
    let at = f64::from(doubled) / 2.0;
    match coordinate {
        Coordinate::Stayed => at,
        Coordinate::Moved(fraction) => at + fraction - 0.5,
        Coordinate::NotANumber => f64::NAN,
    }
}

#[test]
fn smoothed_vertices_are_those_of_the_lines() {
    let (mut tables, mut moved, mut not_numbers) = (Tables::new(), 0, 0);
    for_terrains_of(&HEIGHTS, &THRESHOLDS, |terrain, level| {
        let lines = terrain.lines(level, true, Placement::default())?;
        let rings = tables.contours(terrain, level)?;
        assert_eq!(rings.len(), lines.len());
        for (record, line) in rings.records().zip(&lines) {
            assert_eq!(record.points.len(), line.len());
            for ((vertex, point), at) in (0..).zip(record.points).zip(line) {
                let found = rings.smoothed_vertex(terrain, level, record.number, vertex)?;
                for axis in [0, 1] {
                    let became = smoothed(point[axis], found[axis]);
                    let both_nan = became.is_nan() && at[axis].is_nan();
                    assert!(both_nan || became.to_bits() == at[axis].to_bits());
                    // A fraction that is not a number is never given as one.
                    match found[axis] {
                        Coordinate::Stayed => (),
                        Coordinate::Moved(fraction) => {
                            assert!(!fraction.is_nan());
                            moved += 1;
                        }
                        Coordinate::NotANumber => not_numbers += 1,
                    }
                }
            }
        }
        Ok(())
    });
    assert!(moved > 0 && not_numbers > 0);
}

/// Rows 6 to 8 and 12 of document 01's dozen, and what follows from rows 4 and 9: a vertex in the row of a ring's
/// first point decides nothing.
#[test]
fn the_worked_examples() -> Result<(), Refusal> {
    let mut tables = Tables::new();
    let frame = Terrain::new(&FRAME, 3, 3)?;
    let rings = tables.contours(&frame, 1.0)?;
    let hole = RingFate::Hole {
        owner: 1,
        by: Decision::Inside(0),
    };
    assert_eq!([rings.fate(0)?, rings.fate(1)?], [hole, RingFate::Polygon]);
    assert_eq!(rings.answer(0, 1)?, Decision::Outside(0));

    let corners = Terrain::new(&[0.0, 1.0, 1.0, 0.0], 2, 2)?;
    let rings = tables.contours(&corners, 1.0)?;
    assert_eq!(rings.answer(0, 1)?, Decision::Outside(0));
    let row = Terrain::new(&[1.0, 0.0, 0.0, 0.0, 1.0], 5, 1)?;
    let rings = tables.contours(&row, 1.0)?;
    assert_eq!(rings.answer(0, 1)?, Decision::Outside(1));

    let two = Terrain::new(&[0.0, 4.0], 2, 1)?;
    let rings = tables.contours(&two, 1.0)?;
    let moves = [Coordinate::Moved(0.25), Coordinate::Stayed];
    let stays = [Coordinate::Stayed; 2];
    for (vertex, became) in (0..).zip([stays, stays, moves, stays, stays]) {
        assert_eq!(rings.smoothed_vertex(&two, 1.0, 0, vertex)?, became);
    }
    Ok(())
}

/// What every call answers for ring 0, and vertex 0 of it.
fn refused(rings: &Rings, terrain: &Terrain) -> [Option<Refusal>; 3] {
    [
        rings.fate(0).err(),
        rings.answer(0, 0).err(),
        rings.smoothed_vertex(terrain, 1.0, 0, 0).err(),
    ]
}

#[test]
fn bare_rings_are_refused_whatever_the_number() -> Result<(), Refusal> {
    let terrain = Terrain::new(&FRAME, 3, 3)?;
    let bare = [Some(Refusal::RingSet); 3];
    assert_eq!(
        refused(&Tables::new().rings(&terrain, 1.0)?, &terrain),
        bare
    );
    let mut rows = Rows::begin(1.0, 3, 3)?;
    let none = [Some(Refusal::NotThere); 3];
    for (row, expected) in FRAME.chunks(3).zip([none, none, bare]) {
        assert_eq!(refused(&rows.push(row)?, &terrain), expected);
    }
    let last = rows.finish()?;
    assert_eq!(refused(&last, &terrain), bare);
    for number in [1, 2, u32::MAX] {
        assert_eq!(last.fate(number), Err(Refusal::RingSet));
    }
    Ok(())
}

#[test]
fn numbers_that_are_not_there_are_refused() -> Result<(), Refusal> {
    let terrain = Terrain::new(&FRAME, 3, 3)?;
    let (mut tables, not_there) = (Tables::new(), Some(Refusal::NotThere));
    let rings = tables.contours(&terrain, 1.0)?;
    for number in [2, 3, 1 << 31, u32::MAX] {
        assert_eq!(rings.fate(number).err(), not_there);
        assert_eq!(rings.answer(number, 0).err(), not_there);
        assert_eq!(rings.answer(0, number).err(), not_there);
        let vertex = rings.smoothed_vertex(&terrain, 1.0, number, 0);
        assert_eq!(vertex.err(), not_there);
    }
    // The hole has five points, the polygon thirteen.
    for (ring, count) in [(0, 5), (1, 13)] {
        let vertex = |number| rings.smoothed_vertex(&terrain, 1.0, ring, number);
        assert!((0..count).all(|number| vertex(number).is_ok()));
        assert!([count, count + 1, u32::MAX].map(|number| vertex(number).err()) == [not_there; 3]);
    }
    // Of another terrain, whose one sample is at (1, 1): vertex 0 of the hole, at (3, 4), is not beside it.
    let smaller = Terrain::new(&FRAME[..1], 1, 1)?;
    assert_eq!(rings.smoothed_vertex(&smaller, 1.0, 0, 0).err(), not_there);
    let says = "there is no ring or vertex of this number, or the vertex stands between no samples";
    assert_eq!(Refusal::NotThere.to_string(), format!("refusal 15: {says}"));
    assert_eq!(Refusal::NotThere.number(), 15);
    Ok(())
}

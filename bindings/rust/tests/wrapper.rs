//! Numbers, classes and owners by the rules, from areas and containment of the plain rings; areas by document 01's sum;
//! and tables that are reused against tables of one call.

mod terrains;

use nigrulent::{
    area, check, contains, geojson, Fate, Level, Place, Placement, Point, Polygon, Record, Refusal,
    Regions, Ring, Tables, Terrain,
};
use terrains::{for_terrains, summed_area};

fn takes(outer: &[Point], tested: &[Point]) -> Result<bool, Refusal> {
    Ok(contains(outer, tested)? != Place::Outside)
}

/// The number of the first of these rings that is a polygon and takes the tested one.
fn owner(rings: &[&[Point]], polygons: &[bool], tested: &[Point]) -> Result<Fate, Refusal> {
    for (number, ring) in rings.iter().enumerate() {
        if polygons[number] && takes(ring, tested)? {
            return Ok(Fate::Hole(number as u32));
        }
    }
    Ok(Fate::Dropped)
}

/// The fates of all rings, where it is known which are polygons.
fn fates(rings: &[&[Point]], polygons: &[bool]) -> Result<Vec<Fate>, Refusal> {
    let fate = |(ring, &polygon): (&&[Point], &bool)| match polygon {
        true => Ok(Fate::Polygon),
        false => owner(rings, polygons, ring),
    };
    rings.iter().zip(polygons).map(fate).collect()
}

/// Every ring of these regions, by number, with its fate.
fn listed(regions: &Regions) -> Vec<(u32, Fate, &[Point])> {
    let mut all = Vec::new();
    for polygon in &regions.polygons {
        all.push((
            polygon.number(),
            Fate::Polygon,
            &polygon.exterior.points[..],
        ));
        for hole in &polygon.interiors {
            all.push((hole.number, Fate::Hole(polygon.number()), &hole.points[..]));
        }
    }
    let dropped = regions.dropped.iter();
    all.extend(dropped.map(|ring| (ring.number, Fate::Dropped, &ring.points[..])));
    all.sort_by_key(|&(number, _, _)| number);
    all
}

#[test]
fn contours_are_numbered_as_rings_and_owned_by_the_rule() {
    for_terrains(|terrain, level| {
        let rings = terrain.rings(level)?;
        let rings: Vec<_> = rings.iter().map(Vec::as_slice).collect();
        let areas: Result<Vec<_>, _> = rings.iter().map(|ring| area(ring)).collect();
        let polygons: Vec<_> = areas?.iter().map(|&area| area > 0).collect();
        let expected: Vec<_> = (0..)
            .zip(fates(&rings, &polygons)?)
            .zip(&rings)
            .map(|((number, fate), &ring)| (number, fate, ring))
            .collect();
        assert_eq!(listed(&terrain.contours(level)?), expected);
        Ok(())
    });
}

#[test]
fn bands_are_numbered_by_size_and_owned_by_the_rule() {
    for_terrains(|terrain, level| {
        let Level { threshold, rule } = level;
        let pair = [threshold, threshold + 1.0];
        let [lower, upper] = pair.map(|threshold| terrain.rings(Level { threshold, rule }));
        let sets = [lower?, upper?];
        let mut rings: Vec<_> = sets.iter().flatten().map(Vec::as_slice).collect();
        rings.sort_by_key(|ring| area(ring).map_or(0, |area| area.unsigned_abs() / 4));
        let mut polygons = Vec::new();
        for (number, ring) in rings.iter().enumerate() {
            let mut takers = 0;
            for (_, other) in rings.iter().enumerate().filter(|(k, _)| *k != number) {
                takers += u32::from(takes(other, ring)?);
            }
            polygons.push(takers % 2 == 0);
        }
        let expected: Vec<_> = (0..)
            .zip(fates(&rings, &polygons)?)
            .zip(&rings)
            .map(|((number, fate), &ring)| (number, fate, ring))
            .collect();
        let band = terrain.isobands(&pair, rule, 0)?;
        assert_eq!(listed(&band), expected);
        Ok(())
    });
}

/// Whether a record has the area of its points.
fn has_its_area(record: Record) -> bool {
    record.area == summed_area(record.points)
}

#[test]
fn rings_have_the_areas_of_their_points() {
    let mut tables = Tables::new();
    for_terrains(|terrain, level| {
        let Level { threshold, rule } = level;
        let pair = [threshold, threshold + 1.0];
        assert!(tables.rings(terrain, level)?.records().all(has_its_area));
        for drawn in [
            tables.contours(terrain, level)?.to_regions(),
            tables.isobands(terrain, &pair, rule, 0)?.to_regions(),
        ] {
            let rings = drawn.polygons.iter().flat_map(Polygon::rings);
            for ring in rings.chain(&drawn.dropped) {
                assert_eq!(ring.area, summed_area(&ring.points));
                assert_eq!(area(&ring.points), Ok(ring.area));
            }
        }
        Ok(())
    });
}

#[test]
fn lines_have_the_areas_of_their_rings() {
    let mut tables = Tables::new();
    let placements = [
        Placement::default(),
        Placement {
            x_origin: -7.0,
            y_step: -0.5,
            ..Placement::default()
        },
    ];
    for_terrains(|terrain, level| {
        let rings = terrain.rings(level)?;
        let areas: Vec<_> = rings.iter().map(|ring| summed_area(ring)).collect();
        for (smooth, placement) in [false, true].into_iter().zip(placements) {
            let lines = tables.lines(terrain, level, smooth, placement)?;
            assert!(lines.records().map(|line| line.area).eq(areas.clone()));
        }
        Ok(())
    });
}

/// The area in a ring of the caller's own is not looked at: the points alone are.
#[test]
fn polygons_made_by_hand_need_no_area() {
    for_terrains(|terrain, level| {
        let mut contour = terrain.contours(level)?;
        let text = terrain.contours_geojson(level)?;
        let unmeasured = |ring: &mut Ring| ring.area = 0;
        for polygon in &mut contour.polygons {
            unmeasured(&mut polygon.exterior);
            polygon.interiors.iter_mut().for_each(unmeasured);
        }
        assert_eq!((check(&contour), geojson(&contour)), (Ok(()), Ok(text)));
        Ok(())
    });
    let with = |points: Vec<Point>| Regions {
        dropped: vec![Ring {
            points,
            ..Ring::default()
        }],
        ..Regions::default()
    };
    let above = vec![[8193, 0], [0, 0], [0, 4], [8193, 0]];
    for points in [vec![], vec![[2, 2]], above] {
        assert_eq!(check(&with(points)), Err(Refusal::RingSet));
    }
}

/// Document 01's sixth example: the hole is (3,4)(2,3)(3,2)(4,3)(3,4), of area -4, so that document 02 has it backwards.
#[test]
fn a_hole_is_written_clockwise() -> Result<(), Refusal> {
    let values = [1.0, 1.0, 1.0, 1.0, 0.0, 1.0, 1.0, 1.0, 1.0];
    let text = Terrain::new(&values, 3, 3)?.contours_geojson(1.0)?;
    let hole = ",[[1.5,2],[2,1.5],[1.5,1],[1,1.5],[1.5,2]]]]}";
    assert!(text.ends_with(hole), "{text}");
    Ok(())
}

/// Whichever way a ring runs in the vectors, the text has it as RFC 7946 asks.
#[test]
fn reversed_rings_have_the_same_text() {
    for_terrains(|terrain, level| {
        let pair = [level.threshold, level.threshold + 1.0];
        let band = terrain.isobands(&pair, level.rule, 0)?;
        for mut regions in [terrain.contours(level)?, band] {
            let text = geojson(&regions)?;
            for polygon in &mut regions.polygons {
                polygon.exterior.points.reverse();
            }
            assert_eq!(geojson(&regions)?, text);
            for hole in regions.polygons.iter_mut().flat_map(|p| &mut p.interiors) {
                hole.points.reverse();
            }
            assert_eq!(geojson(&regions)?, text);
        }
        Ok(())
    });
}

#[test]
fn reused_tables_hold_what_tables_of_one_call_hold() {
    let (mut tables, mut text) = (Tables::new(), Vec::new());
    let placement = Placement {
        x_origin: 3.0,
        y_step: -2.0,
        ..Placement::default()
    };
    for_terrains(|terrain, level| {
        let (pair, rule) = ([level.threshold, level.threshold + 1.0], level.rule);
        let rings = tables.rings(terrain, level)?;
        assert!(rings.iter().eq(terrain.rings(level)?.iter()));
        assert!(rings
            .records()
            .all(|ring| ring.fate == Fate::Line && ring.owner().is_none()));

        let contour = tables.contours(terrain, level)?;
        assert_eq!(contour.to_regions(), terrain.contours(level)?);
        contour.write_geojson(&mut text)?;
        assert_eq!(text, terrain.contours_geojson(level)?.as_bytes());
        for (number, record) in (0..).zip(contour.records()) {
            assert_eq!(
                (record.number, contour.record(number)),
                (number, Some(record))
            );
        }
        assert_eq!(contour.record(contour.len() as u32), None);

        let band = tables.isobands(terrain, &pair, rule, 0)?;
        assert_eq!(band.to_regions(), terrain.isobands(&pair, rule, 0)?);
        assert_eq!(band.geojson()?, terrain.isobands_geojson(&pair, rule, 0)?);

        let lines = tables.lines(terrain, level, true, placement)?;
        assert!(lines
            .iter()
            .eq(terrain.lines(level, true, placement)?.iter()));
        assert_eq!(lines.is_empty(), terrain.rings(level)?.is_empty());
        Ok(())
    });
}

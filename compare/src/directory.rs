//! The directory of a call. Areas are the crate's. Classes and owners are read off the polygons that the crate
//! hands out, with rings matched by their vertices, and are worked out by document 01's words from the crate's
//! `area` and `contains`, unless that takes too long. The two have to agree.

use crate::asked::Asked;
use crate::ffi::Answer;
use crate::kinds::Kind;
use crate::oracle::{self, signed_area};
use crate::records::{set_area, Fate, Record};
use crate::rings::Ring;
use crate::Pt;
use contour::ContourBuilder;
use geo_types::{LineString, MultiPolygon, Polygon};
use std::collections::{HashMap, VecDeque};

pub const POLYGON: u32 = 0;
pub const HOLE: u32 = 1;
pub const NOBODY: u32 = 4_294_967_295;
/// The class and owner of a bare ring or a line.
pub const BARE: Fate = [2, NOBODY];
/// Where rings times points are more, the words of document 01 are not worked out a second time.
const DEAREST: usize = 4_000_000;

/// The record of a ring whose points stand behind so many others, with the crate's area.
pub fn record(first: usize, ring: &[Pt], [class, owner]: Fate) -> Record {
    let mut record = [first as u32, ring.len() as u32, class, owner, 0, 0];
    set_area(&mut record, signed_area(ring));
    record
}

/// All records of the rings, which stand here as their points do, by the crate's polygons.
pub fn directory(asked: &Asked, rings: &[Ring], polygons: &[Polygon]) -> Vec<u32> {
    let firsts = rings.iter().scan(0, |end, ring| {
        let first = *end;
        *end += ring.points.len();
        Some(first)
    });
    let mut records: Vec<_> = firsts.zip(rings).collect();
    if asked.kind == Kind::Bands {
        records.sort_by_key(|(_, ring)| signed_area(&ring.points).abs() / 4);
    }
    let rings: Vec<&Ring> = records.iter().map(|&(_, ring)| ring).collect();
    let with_fates = records.iter().zip(fates(asked, &rings, polygons));
    with_fates
        .flat_map(|(&(first, ring), fate)| record(first, &ring.points, fate))
        .collect()
}

/// The fates of rings in record order.
fn fates(asked: &Asked, rings: &[&Ring], polygons: &[Polygon]) -> Vec<Fate> {
    if let Kind::Rings | Kind::Lines = asked.kind {
        return vec![BARE; rings.len()];
    }
    let fates = read_off(rings, polygons);
    let points: usize = rings.iter().map(|ring| ring.points.len()).sum();
    if rings.len() * points <= DEAREST {
        let stated = by_document(asked.kind, rings);
        assert!(
            fates == stated,
            "the crate's polygons are not document 01's"
        );
    }
    fates
}

/// The crate's polygons by record number. Bare rings and lines make none.
pub fn crate_polygons(asked: &Asked) -> Vec<Polygon> {
    let grid = asked.grid;
    let builder = ContourBuilder::new(grid.dx, grid.dy, false);
    match (asked.kind, asked.pair) {
        (Kind::Contours, _) => grid.by_crate(&[grid.threshold], |values, thresholds| {
            let contours = builder.contours(values, thresholds);
            let mut contours = contours.expect("the crate draws every contour");
            let (MultiPolygon(polygons), _) = contours.remove(0).into_inner();
            polygons
        }),
        (Kind::Bands, Some(pair)) => grid.by_crate(&pair.list, |values, thresholds| {
            let bands = builder.isobands(values, thresholds);
            let mut bands = bands.expect("the crate draws every band");
            let MultiPolygon(mut polygons) = bands.remove(pair.k).into_inner().0;
            polygons.reverse();
            polygons
        }),
        _ => Vec::new(),
    }
}

/// A ring that is no polygon's exterior and no interior is a dropped hole. Two sets may have a ring in
/// common, vertex by vertex. Its two records then have the same class and the same owner, and stand in
/// the crate's list in their order.
fn read_off(rings: &[&Ring], polygons: &[Polygon]) -> Vec<Fate> {
    let mut numbers = HashMap::<&[u16], VecDeque<usize>>::new();
    for (number, ring) in rings.iter().enumerate() {
        numbers.entry(&ring.words).or_default().push_back(number);
    }
    let mut number_of = |line: &LineString| {
        let words = oracle::doubled(&line.0);
        let same = numbers.get_mut(&words[..]).and_then(VecDeque::pop_front);
        same.expect("the crate's polygons are made of the crate's rings")
    };
    let mut fates = vec![[HOLE, NOBODY]; rings.len()];
    let mut free = 0;
    for polygon in polygons {
        let owner = number_of(polygon.exterior());
        assert!(owner >= free, "the crate's polygons in another order");
        free = owner + 1;
        fates[owner] = [POLYGON, owner as u32];
        for interior in polygon.interiors() {
            fates[number_of(interior)][1] = owner as u32;
        }
    }
    fates
}

/// Document 01's words. A ring takes another when its answer for it is not -1.
fn by_document(kind: Kind, rings: &[&Ring]) -> Vec<Fate> {
    let takes = |outer: usize, tested: usize| {
        oracle::contains(&rings[outer].points, &rings[tested].points) != Answer::Value(-1)
    };
    let all = 0..rings.len();
    let is_polygon: Vec<bool> = match kind {
        Kind::Bands => all
            .clone()
            .map(|k| all.clone().filter(|&o| o != k && takes(o, k)).count() % 2 == 0)
            .collect(),
        _ => {
            let areas = rings.iter().map(|ring| signed_area(&ring.points));
            areas.map(|area| area > 0).collect()
        }
    };
    all.clone()
        .map(|k| match is_polygon[k] {
            true => [POLYGON, k as u32],
            false => {
                let owner = all.clone().find(|&o| is_polygon[o] && takes(o, k));
                [HOLE, owner.map_or(NOBODY, |owner| owner as u32)]
            }
        })
        .collect()
}

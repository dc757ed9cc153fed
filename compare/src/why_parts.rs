//! The parts of the calls that explain, in their order: fates and answers on terrains and on ring sets, refusals, and
//! smoothed vertices.

use crate::random::Random;
use crate::tally::Tally;
use crate::{
    damaged_sets, line_checks, region_checks, ring_checks, set_faults, why_checks, why_refusals,
    why_sets, why_vertices,
};

/// All parts, the random ones in so many rounds.
pub fn compare(tally: &mut Tally, random: &mut Random, rounds: u64) {
    let mut grids = listed_fates(tally, random);
    listed_refusals(tally, random);
    let mut smoothed = listed_vertices(tally, random);
    for _ in 0..rounds {
        grids += random_fates(tally, random);
        random_sets(tally, random);
        smoothed += random_vertices(tally, random);
    }
    tally.note(&format!(
        "the fates of the rings of {grids} grids, and the smoothed vertices of {smoothed}"
    ));
}

/// The terrains whose fates come once. Like the next two it returns how many there were.
fn listed_fates(tally: &mut Tally, random: &mut Random) -> u64 {
    let mut grids = 0;
    tally.part("why, all two-valued grids of up to 12 samples", |t| {
        grids += why_checks::all_small_grids(t, random)
    });
    tally.part("why, rings in rings and in rows", |t| {
        grids += region_checks::nested(t, random, why_checks::compare_asked)
    });
    tally.part("why, about groups of 64 and 4,096", |t| {
        grids += region_checks::groups(t, random, why_checks::compare_asked)
    });
    tally.part("why, the longest side", |t| {
        grids += why_checks::many_rings(t, random)
    });
    grids
}

/// Those of a round.
fn random_fates(tally: &mut Tally, random: &mut Random) -> u64 {
    let mut grids = 0;
    tally.part("why, small grids", |t| {
        grids += why_checks::random_small_grids(t, random)
    });
    tally.part("why, every shape up to 64 by 64", |t| {
        grids += ring_checks::every_shape(t, random, why_checks::compare_grid)
    });
    tally.part("why, thin grids", |t| {
        grids += ring_checks::thin_grids(t, random, why_checks::compare_grid)
    });
    grids
}

fn listed_refusals(tally: &mut Tally, random: &mut Random) {
    tally.part("why, refusals 1, 2, 9 and 15", |t| {
        why_refusals::listed(t, random)
    });
    tally.part("why, refusal 9", |t| {
        set_faults::listed(t, random, why_sets::compare_any)
    });
}

/// The ring sets of a round that no terrain need have.
fn random_sets(tally: &mut Tally, random: &mut Random) {
    tally.part("why, other classes and owners", |t| {
        why_checks::other_records(t, random)
    });
    tally.part("why, rings run the other way", |t| {
        why_checks::turned_rings(t, random)
    });
    tally.part("why, ring sets of drawn slopes", |t| {
        why_sets::drawn_slopes(t, random)
    });
    tally.part("why, ring sets of any slope", |t| {
        why_sets::any_slopes(t, random)
    });
    tally.part("why, damaged ring sets", |t| {
        damaged_sets::damaged(t, random, why_sets::compare_any)
    });
}

/// The terrains whose vertices come once.
fn listed_vertices(tally: &mut Tally, random: &mut Random) -> u64 {
    let mut grids = 0;
    tally.part(
        "why, vertices, all two-valued grids of up to 12 samples",
        |t| grids += line_checks::all_small_grids(t, random, why_vertices::compare_grid),
    );
    tally.part("why, vertices, every point", |t| {
        why_vertices::every_point(t, random)
    });
    tally.part("why, vertices, 4,096 by 4,096", |t| {
        why_vertices::largest_grid(t, random)
    });
    grids
}

/// Those of a round.
fn random_vertices(tally: &mut Tally, random: &mut Random) -> u64 {
    let compare = why_vertices::compare_grid;
    let grids = line_checks::random_parts(tally, random, "why, vertices", compare);
    tally.part("why, vertices, other terrains", |t| {
        why_vertices::other_terrains(t, random)
    });
    grids
}

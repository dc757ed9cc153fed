//! Which samples are above, by the words of the two rules, in every call that takes a threshold.

mod terrains;

use nigrulent::{Coordinate, Level, Placement, Refusal, Rule, Tables, Terrain};
use terrains::{for_terrains, for_terrains_of, row_by_row, HEIGHTS, THRESHOLDS};

const INFINITY: f64 = f64::INFINITY;
const NAN: f64 = f64::NAN;
/// The smallest number above 0.
const LEAST: f64 = 5e-324;

/// A sample, a threshold, and whether the sample is above it: when at least is asked for, and when more.
const SAMPLES: [(f64, f64, [bool; 2]); 18] = [
    (5.0, 5.0, [true, false]),
    (5.0, 4.0, [true, true]),
    (5.0, 6.0, [false, false]),
    (0.0, -0.0, [true, false]),
    (-0.0, 0.0, [true, false]),
    (LEAST, 0.0, [true, true]),
    (0.0, LEAST, [false, false]),
    (0.0, -LEAST, [true, true]),
    (INFINITY, INFINITY, [true, false]),
    (-INFINITY, -INFINITY, [true, false]),
    (INFINITY, f64::MAX, [true, true]),
    (f64::MAX, INFINITY, [false, false]),
    (f64::MIN, -INFINITY, [true, true]),
    (NAN, 0.0, [false, false]),
    (NAN, -INFINITY, [false, false]),
    (0.0, NAN, [false, false]),
    (INFINITY, NAN, [false, false]),
    (NAN, NAN, [false, false]),
];

/// How many rings each call draws of one sample. Nothing is above NaN, so a band with it has the rings of the other
/// threshold alone.
fn counts(value: f64, level: Level) -> Result<[usize; 7], Refusal> {
    let values = [value];
    let terrain = Terrain::new(&values, 1, 1)?;
    let band = |pair| {
        Tables::new()
            .isobands(&terrain, pair, level.rule, 0)
            .map(|rings| rings.len())
    };
    Ok([
        terrain.rings(level)?.len(),
        terrain.contours(level)?.polygons.len(),
        terrain.lines(level, false, Placement::default())?.len(),
        terrain.lines(level, true, Placement::default())?.len(),
        row_by_row(&terrain, level)?.len(),
        band(&[level.threshold, NAN])?,
        band(&[NAN, level.threshold])?,
    ])
}

#[test]
fn one_sample() -> Result<(), Refusal> {
    for (value, threshold, [at_least, more_than]) in SAMPLES {
        for (level, above) in [
            (Level::at_least(threshold), at_least),
            (threshold.into(), at_least),
            (Level::more_than(threshold), more_than),
        ] {
            let expected = [usize::from(above); 7];
            assert_eq!(counts(value, level)?, expected, "{value} at {level:?}");
        }
    }
    assert_eq!(Rule::default(), Rule::AtLeast);
    Ok(())
}

/// The words of the rules.
fn is_above(value: f64, Level { threshold, rule }: Level) -> bool {
    match rule {
        Rule::AtLeast => value >= threshold,
        Rule::MoreThan => value > threshold,
    }
}

/// A terrain is drawn as one that counts at how many levels each of its samples is above.
#[test]
fn terrains_are_drawn_by_which_samples_are_above() {
    let unplaced = Placement::default();
    for_terrains_of(&HEIGHTS, &THRESHOLDS, |terrain, level| {
        let (values, rule) = (terrain.values(), level.rule);
        let counted = |levels: &[Level]| -> Vec<f64> {
            let count = |value| {
                levels
                    .iter()
                    .filter(|level| is_above(value, **level))
                    .count()
            };
            values.iter().map(|value| count(*value) as f64).collect()
        };
        let ones = counted(&[level]);
        let ones = Terrain::new(&ones, terrain.dx(), terrain.dy())?;
        assert_eq!(terrain.rings(level)?, ones.rings(1.0)?);
        assert_eq!(terrain.contours(level)?, ones.contours(1.0)?);
        assert_eq!(
            terrain.lines(level, false, unplaced)?,
            ones.lines(1.0, false, unplaced)?
        );
        assert_eq!(
            row_by_row(terrain, level)?,
            row_by_row(&ones, Level::at_least(1.0))?
        );
        for high in THRESHOLDS
            .into_iter()
            .filter(|high| level.threshold <= *high)
        {
            let pair = [level.threshold, high];
            let both = counted(&pair.map(|threshold| Level { threshold, rule }));
            let both = Terrain::new(&both, terrain.dx(), terrain.dy())?;
            assert_eq!(
                terrain.isobands(&pair, rule, 0)?,
                both.isobands(&[1.0, 2.0], Rule::AtLeast, 0)?
            );
        }
        Ok(())
    });
}

/// The next larger float of a finite one.
fn next(number: f64) -> f64 {
    let bits = number.to_bits();
    f64::from_bits(match number {
        _ if number == 0.0 => 1,
        _ if number > 0.0 => bits + 1,
        _ => bits - 1,
    })
}

#[test]
fn more_than_a_finite_threshold_is_at_least_the_next() {
    let thresholds = [-1.0, -LEAST, -0.0, 0.0, LEAST, 1.0, 1.5, f64::MIN, f64::MAX];
    let mut heights = vec![INFINITY, -INFINITY, NAN];
    heights.extend(thresholds);
    heights.extend(thresholds.map(next));
    for_terrains_of(&heights, &thresholds, |terrain, Level { threshold, .. }| {
        let more_than = Level::more_than(threshold);
        let at_least = Level::at_least(next(threshold));
        assert_eq!(terrain.rings(more_than)?, terrain.rings(at_least)?);
        assert_eq!(terrain.contours(more_than)?, terrain.contours(at_least)?);
        assert_eq!(
            row_by_row(terrain, more_than)?,
            row_by_row(terrain, at_least)?
        );
        for high in thresholds {
            assert_eq!(
                terrain.isobands(&[threshold, high], Rule::MoreThan, 0)?,
                terrain.isobands(&[threshold, high].map(next), Rule::AtLeast, 0)?
            );
        }
        Ok(())
    });
}

/// Of a row of 1 and 4 both are at least 1. Only the 4 is more: its vertex 2 stands between the two, and by document
/// 01's formula the fraction is (1 - 1) / (4 - 1).
#[test]
fn smoothing_takes_the_threshold_as_a_number() -> Result<(), Refusal> {
    let (terrain, unplaced) = (Terrain::new(&[1.0, 4.0], 2, 1)?, Placement::default());
    let both = [
        [2.0, 0.5],
        [1.5, 0.0],
        [0.5, 0.0],
        [0.0, 0.5],
        [0.5, 1.0],
        [1.5, 1.0],
        [2.0, 0.5],
    ];
    assert_eq!(terrain.lines(1.0, true, unplaced)?, [both]);
    let more = Level::more_than(1.0);
    let second = [[2.0, 0.5], [1.5, 0.0], [0.5, 0.5], [1.5, 1.0], [2.0, 0.5]];
    assert_eq!(terrain.lines(more, true, unplaced)?, [second]);
    let mut tables = Tables::new();
    let rings = tables.contours(&terrain, more)?;
    for level in [more, Level::at_least(1.0)] {
        let vertex = rings.smoothed_vertex(&terrain, level, 0, 2)?;
        assert_eq!(vertex, [Coordinate::Moved(0.0), Coordinate::Stayed]);
    }
    Ok(())
}

#[test]
fn the_rules_agree_where_no_sample_equals_the_threshold() {
    for_terrains(|terrain, Level { threshold, .. }| {
        let [lines, others] = [Level::at_least, Level::more_than]
            .map(|level| terrain.lines(level(threshold - 0.5), true, Placement::default()));
        assert_eq!(lines?, others?);
        Ok(())
    });
}

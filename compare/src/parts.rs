//! The parts of the comparison, in their order. What the library or the repository lacks is not compared, and the
//! tally is told.

use crate::calls::compare_asked;
use crate::kinds::Kind;
use crate::program::Program;
use crate::random::Random;
use crate::rules::AT_LEAST;
use crate::tally::Tally;
use crate::text_checks::{compare_drawn, compare_turned};
#[cfg(feature = "why")]
use crate::why_parts;
use crate::{
    area_checks, bounds, damaged_sets, grid_refusals, line_checks, lists, printed, refusals,
    region_checks, ring_checks, rule_parts, set_faults, text_checks,
};
#[cfg(feature = "rows")]
use crate::{row_checks, row_faults};

/// What there is to compare beside the library, and how much.
pub struct Plan {
    /// How often the random parts come.
    pub rounds: u64,
    /// Where the random numbers begin.
    pub seed: u64,
    /// What the examples printed.
    pub printed: Vec<Printed>,
    /// The words to call the program with.
    pub program: Vec<String>,
}

/// What an example printed: the example, whose program it is, and the file.
pub type Printed = [String; 3];

impl Plan {
    /// The random numbers of a group of parts.
    fn random(&self, group: u64) -> Random {
        Random::new(self.seed.wrapping_add(group))
    }

    pub fn compare(&self, tally: &mut Tally) {
        self.compare_area_and_contains(tally);
        self.compare_rings(tally);
        #[cfg(feature = "rows")]
        self.compare_rows(tally);
        #[cfg(not(feature = "rows"))]
        tally.lacks("the row form is not in the library: not compared");
        if cfg!(feature = "regions") {
            self.compare_regions(tally);
        } else {
            tally.lacks("contours and bands are not in the library: not compared");
        }
        if cfg!(feature = "lines") {
            self.compare_lines(tally);
        } else {
            tally.lacks("lines are not in the library: not compared");
        }
        if cfg!(feature = "geojson") {
            self.compare_texts(tally);
        } else {
            tally.lacks("the GeoJSON writer is not in the library: not compared");
        }
        #[cfg(feature = "why")]
        why_parts::compare(tally, &mut self.random(7), self.rounds);
        #[cfg(not(feature = "why"))]
        tally.lacks("the calls that explain are not in the library: not compared");
        rule_parts::compare(tally, &mut self.random(8), self.rounds);
        if self.program.is_empty() {
            tally.lacks("there is no program contour_geojson: not compared");
        } else {
            self.compare_program(tally);
        }
        if self.printed.is_empty() {
            tally.lacks("the examples were not run: what they print is not compared");
        } else {
            self.compare_printed(tally);
        }
    }

    fn compare_area_and_contains(&self, tally: &mut Tally) {
        let random = &mut self.random(0);
        tally.part("refusals", refusals::listed);
        tally.part("all two-valued grids of up to 12 samples", |t| {
            area_checks::all_small_grids(t, random)
        });
        for _ in 0..self.rounds {
            tally.part("every shape up to 64 by 64", |t| {
                area_checks::every_shape(t, random)
            });
            tally.part("thin grids", |t| area_checks::thin_grids(t, random));
            tally.part("lists of any slope", |t| lists::any_slopes(t, random));
            tally.part("lists of drawn slopes", |t| lists::drawn_slopes(t, random));
            tally.part("damaged lists", |t| refusals::damaged(t, random));
        }
        tally.part("the bound of points", |t| {
            bounds::many_points(t);
            bounds::many_tested_points(t);
        });
    }

    fn compare_rings(&self, tally: &mut Tally) {
        let random = &mut self.random(1);
        let mut grids = 0;
        tally.part("rings, all two-valued grids of up to 12 samples", |t| {
            grids += ring_checks::all_small_grids(t, random)
        });
        tally.part("rings, refusals 1 and 2", |t| {
            grid_refusals::listed(t, random, Kind::Rings)
        });
        for _ in 0..self.rounds {
            tally.part("rings, small grids", |t| {
                grids += ring_checks::random_small_grids(t, random, ring_checks::compare_grid)
            });
            tally.part("rings, every shape up to 64 by 64", |t| {
                grids += ring_checks::every_shape(t, random, ring_checks::compare_grid)
            });
            tally.part("rings, thin grids", |t| {
                grids += ring_checks::thin_grids(t, random, ring_checks::compare_grid)
            });
            tally.part("rings, several refusals at once", |t| {
                grid_refusals::mixed(t, random, Kind::Rings, AT_LEAST)
            });
            tally.part("rings, about words and tiles", |t| {
                grids += ring_checks::words_and_tiles(t, random, ring_checks::compare_grid)
            });
        }
        tally.part("rings, 4,096 by 4,096", |t| {
            ring_checks::largest_grid(t, random, AT_LEAST)
        });
        tally.note(&format!("the rings of {grids} grids in every kind of room"));
    }

    #[cfg(feature = "rows")]
    fn compare_rows(&self, tally: &mut Tally) {
        let random = &mut self.random(6);
        let mut grids = 0;
        tally.part("rows, all two-valued grids of up to 12 samples", |t| {
            grids += row_checks::all_small_grids(t, random)
        });
        tally.part("rows, refusal 1", |t| row_checks::sides(t, random));
        tally.part("rows, the longest sides and strange thresholds", |t| {
            grids += row_checks::limits(t, random)
        });
        for _ in 0..self.rounds {
            grids += random_rows(tally, random);
            tally.part("rows, states and tables that no call left", |t| {
                row_faults::any(t, random)
            });
        }
        tally.note(&format!("the rings of {grids} grids row by row"));
    }

    fn compare_regions(&self, tally: &mut Tally) {
        let random = &mut self.random(2);
        let mut grids = listed_regions(tally, random);
        for _ in 0..self.rounds {
            grids += random_regions(tally, random);
        }
        tally.part("regions, 4,096 by 4,096", |t| {
            region_checks::largest_grid(t, random)
        });
        tally.note(&format!(
            "the contours and bands of {grids} grids in every kind of room"
        ));
    }

    fn compare_lines(&self, tally: &mut Tally) {
        let random = &mut self.random(3);
        let mut grids = 0;
        tally.part("lines, all two-valued grids of up to 12 samples", |t| {
            grids += line_checks::all_small_grids(t, random, line_checks::compare_grid)
        });
        tally.part("lines, every smoothing and placement", |t| {
            grids += line_checks::every_pen(t, random)
        });
        tally.part("lines, refusals 1 and 2", |t| {
            grid_refusals::listed(t, random, Kind::Lines)
        });
        for _ in 0..self.rounds {
            grids += line_checks::random_parts(tally, random, "lines", line_checks::compare_grid);
            tally.part("lines, several refusals at once", |t| {
                grid_refusals::mixed(t, random, Kind::Lines, AT_LEAST)
            });
        }
        tally.part("lines, 4,096 by 4,096", |t| {
            line_checks::largest_grid(t, random)
        });
        tally.note(&format!("the lines of {grids} grids in every kind of room"));
    }

    fn compare_texts(&self, tally: &mut Tally) {
        let random = &mut self.random(4);
        let mut grids = listed_texts(tally, random);
        for _ in 0..self.rounds {
            grids += random_texts(tally, random);
        }
        tally.part("GeoJSON, the bound of points", |t| {
            text_checks::most_points(t, random)
        });
        tally.note(&format!(
            "the text of the contours and bands of {grids} grids in every kind of room"
        ));
        tally.note_texts();
    }

    fn compare_program(&self, tally: &mut Tally) {
        let command = &self.program;
        let (program, random) = (Program { command }, &mut self.random(5));
        tally.part("the program, faulty inputs", |t| {
            program.faulty_inputs(t, random)
        });
        tally.part("the program, inputs changed in one place", |t| {
            program.changed_inputs(t)
        });
        tally.part("the program, endless inputs", |t| program.endless_inputs(t));
        for _ in 0..self.rounds {
            tally.part("the program, good inputs", |t| {
                program.good_inputs(t, random)
            });
            tally.part("the program, damaged inputs", |t| {
                program.damaged_inputs(t, random)
            });
        }
    }

    fn compare_printed(&self, tally: &mut Tally) {
        for [example, name, file] in &self.printed {
            let text = std::fs::read(file).expect("the file that compare/run wrote");
            tally.part(&format!("what {name} prints of {example}"), |t| {
                printed::compare(t, example, name, &String::from_utf8_lossy(&text))
            });
        }
    }
}

/// The terrains of a round, row by row. Like the next four it returns how many grids there were.
#[cfg(feature = "rows")]
fn random_rows(tally: &mut Tally, random: &mut Random) -> u64 {
    let mut grids = 0;
    tally.part("rows, small grids", |t| {
        grids += ring_checks::random_small_grids(t, random, row_checks::compare_grid)
    });
    tally.part("rows, every shape up to 64 by 64", |t| {
        grids += ring_checks::every_shape(t, random, row_checks::compare_grid)
    });
    tally.part("rows, thin grids", |t| {
        grids += ring_checks::thin_grids(t, random, row_checks::compare_grid)
    });
    tally.part("rows, about words and tiles", |t| {
        grids += ring_checks::words_and_tiles(t, random, row_checks::compare_grid)
    });
    grids
}

/// The contours and bands that come once.
fn listed_regions(tally: &mut Tally, random: &mut Random) -> u64 {
    let mut grids = 0;
    tally.part("regions, all two-valued grids of up to 9 samples", |t| {
        grids += region_checks::two_valued_grids(t, random, compare_asked)
    });
    tally.part("regions, all three-valued grids of up to 8 samples", |t| {
        grids += region_checks::three_valued_grids(t, random, compare_asked)
    });
    tally.part("contours, refusals 1 and 2", |t| {
        grid_refusals::listed(t, random, Kind::Contours)
    });
    tally.part("bands, refusals 1 to 4", |t| {
        grid_refusals::listed(t, random, Kind::Bands);
        grid_refusals::listed_pairs(t, random)
    });
    tally.part("regions, rings in rings and in rows", |t| {
        grids += region_checks::nested(t, random, compare_asked)
    });
    tally.part("regions, about groups of 64 and 4,096", |t| {
        grids += region_checks::groups(t, random, compare_asked)
    });
    grids
}

/// Those of a round.
fn random_regions(tally: &mut Tally, random: &mut Random) -> u64 {
    let mut grids = 0;
    tally.part("regions, small grids", |t| {
        grids += region_checks::random_small_grids(t, random, compare_asked)
    });
    tally.part("regions, every shape up to 32 by 32", |t| {
        grids += region_checks::every_shape(t, random, compare_asked)
    });
    tally.part("regions, thin grids", |t| {
        grids += region_checks::thin_grids(t, random, compare_asked)
    });
    tally.part("regions, several refusals at once", |t| {
        grid_refusals::mixed(t, random, Kind::Contours, AT_LEAST);
        grid_refusals::mixed(t, random, Kind::Bands, AT_LEAST)
    });
    tally.part("regions, noise", |t| {
        grids += region_checks::noise(t, random, compare_asked)
    });
    grids
}

/// The texts that come once.
fn listed_texts(tally: &mut Tally, random: &mut Random) -> u64 {
    let mut grids = 0;
    tally.part("GeoJSON, all two-valued grids of up to 9 samples", |t| {
        grids += region_checks::two_valued_grids(t, random, compare_drawn)
    });
    tally.part("GeoJSON, rings in rings and in rows", |t| {
        grids += region_checks::nested(t, random, compare_drawn)
    });
    tally.part("GeoJSON, every coordinate", |t| {
        text_checks::every_coordinate(t, random)
    });
    tally.part("GeoJSON, either way round", |t| {
        text_checks::either_way(t, random)
    });
    tally.part("GeoJSON, refusal 9", |t| {
        set_faults::listed(t, random, text_checks::compare_any)
    });
    grids
}

/// Those of a round.
fn random_texts(tally: &mut Tally, random: &mut Random) -> u64 {
    let mut grids = 0;
    tally.part("GeoJSON, every shape up to 32 by 32", |t| {
        grids += region_checks::every_shape(t, random, compare_drawn)
    });
    tally.part("GeoJSON, thin grids", |t| {
        grids += region_checks::thin_grids(t, random, compare_drawn)
    });
    tally.part("GeoJSON, noise", |t| {
        grids += region_checks::noise(t, random, compare_drawn)
    });
    tally.part("GeoJSON, any ring sets", |t| {
        text_checks::any_sets(t, random)
    });
    tally.part("GeoJSON, damaged ring sets", |t| {
        damaged_sets::damaged(t, random, text_checks::compare_any)
    });
    tally.part("GeoJSON, ring sets of drawn slopes", |t| {
        text_checks::made_sets(t, random)
    });
    tally.part("GeoJSON, rings run the other way", |t| {
        grids += region_checks::every_shape(t, random, compare_turned)
    });
    grids
}

//! What becomes of the rings of a set, from their points and by document 01's words: each ring's fate, and what one
//! ring answers for another, with the vertex that decides. The crate's own `area` and `contains` are asked, vertex by
//! vertex, so that the first one whose answer is not 0 is found by the crate. On slopes that no cell draws the exact
//! test decides.

use crate::directory::{HOLE, NOBODY, POLYGON};
use crate::ffi::Answer;
use crate::ring_sets::RingSet;
use crate::rings::Ring;
use crate::tally::Tally;
use crate::{exact, oracle};

/// The number of a vertex where none decides.
pub const NO_VERTEX: u32 = 4_294_967_295;

/// What one ring answers for another, and the number of the vertex that decides.
#[derive(Clone, Copy, PartialEq)]
pub struct Verdict {
    pub answer: i64,
    pub vertex: u32,
}

/// Class and owner of a ring, and the number of the vertex that decides for the owner.
#[derive(Clone, Copy, PartialEq)]
pub struct Fate {
    pub class: u32,
    pub owner: u32,
    pub vertex: u32,
}

/// The stated rings of a set without fault.
pub struct Rings {
    rings: Vec<Ring>,
    areas: Vec<i64>,
    judge: Judge,
    by_hand: bool,
}

/// Who holds a point against a ring.
#[derive(Clone, Copy, PartialEq)]
enum Judge {
    Crate,
    Exact,
}

impl Rings {
    /// Rings that cells draw.
    pub fn drawn(set: &RingSet) -> Self {
        let stated = set.stated().into_iter();
        let rings = stated.map(|words| Ring {
            points: oracle::halved(words),
            words: words.to_vec(),
        });
        let rings: Vec<Ring> = rings.collect();
        let areas = rings.iter().map(|ring| oracle::signed_area(&ring.points));
        Rings {
            areas: areas.collect(),
            rings,
            judge: Judge::Crate,
            by_hand: false,
        }
    }

    /// Rings made by hand. Their areas have to be the exact ones.
    pub fn made(set: &RingSet) -> Self {
        let mut rings = Rings::drawn(set);
        let exact = rings.rings.iter().map(|r| value(exact::area(&r.words)));
        assert!(exact.eq(rings.areas.iter().copied()), "two areas of a ring");
        rings.by_hand = true;
        if !rings.rings.iter().all(|ring| is_drawn(&ring.words)) {
            rings.judge = Judge::Exact;
        }
        rings
    }

    pub fn count(&self) -> usize {
        self.rings.len()
    }

    /// How many points a ring has.
    pub fn points(&self, ring: usize) -> usize {
        self.rings[ring].points.len()
    }

    /// The first vertex of the tested ring whose answer is not 0 decides; if there is none, 0.
    pub fn verdict(&self, outer: usize, tested: usize) -> Verdict {
        self.judged(self.judge, outer, tested)
    }

    /// A polygon when its area is above 0; else a hole of the polygon of lowest number whose answer is not -1, or
    /// dropped.
    pub fn fate(&self, ring: usize) -> Fate {
        if self.areas[ring] > 0 {
            return Fate {
                class: POLYGON,
                owner: ring as u32,
                vertex: NO_VERTEX,
            };
        }
        let mut polygons = (0..self.count()).filter(|&k| self.areas[k] > 0);
        let owner = polygons.find(|&k| self.contains(self.judge, k, ring) != -1);
        Fate {
            class: HOLE,
            owner: owner.map_or(NOBODY, |owner| owner as u32),
            vertex: owner.map_or(NO_VERTEX, |owner| self.verdict(owner, ring).vertex),
        }
    }

    /// Both judges of two rings that are made by hand. On drawn slopes they have to agree, on others the tally is told.
    pub fn hold(&self, tally: &mut Tally, outer: usize, tested: usize) {
        let judges = [Judge::Exact, Judge::Crate];
        match self.judge {
            _ if !self.by_hand => {}
            Judge::Crate => {
                let [exact, floats] = judges.map(|judge| self.judged(judge, outer, tested));
                assert!(exact == floats, "two answers on drawn slopes");
            }
            Judge::Exact => {
                let answers = judges.map(|judge| self.contains(judge, outer, tested));
                let [exact, floats] = answers.map(Answer::Value);
                tally.float_test(exact, floats);
            }
        }
    }

    fn judged(&self, judge: Judge, outer: usize, tested: usize) -> Verdict {
        let count = self.points(tested);
        let mut answers = (0..count).map(|k| (k, self.answer(judge, outer, tested, k..k + 1)));
        let decided = answers.find(|&(_, answer)| answer != 0);
        let verdict = Verdict {
            answer: decided.map_or(0, |(_, answer)| answer),
            vertex: decided.map_or(NO_VERTEX, |(vertex, _)| vertex as u32),
        };
        assert!(
            verdict.answer == self.contains(judge, outer, tested),
            "vertices that do not answer as their ring does"
        );
        verdict
    }

    fn contains(&self, judge: Judge, outer: usize, tested: usize) -> i64 {
        self.answer(judge, outer, tested, 0..self.points(tested))
    }

    /// The answer for some vertices of the tested ring.
    fn answer(
        &self,
        judge: Judge,
        outer: usize,
        tested: usize,
        vertices: std::ops::Range<usize>,
    ) -> i64 {
        let (outer, tested) = (&self.rings[outer], &self.rings[tested]);
        value(match judge {
            Judge::Crate => oracle::contains(&outer.points, &tested.points[vertices]),
            Judge::Exact => {
                let words = 2 * vertices.start..2 * vertices.end;
                exact::contains(&outer.words, &tested.words[words])
            }
        })
    }
}

/// Whether all pairs of a closed ring have slopes that cells draw, or no length.
fn is_drawn(ring: &[u16]) -> bool {
    let pairs = ring.chunks_exact(2).zip(ring[2..].chunks_exact(2));
    pairs.into_iter().all(|(from, to)| {
        let (across, down) = (from[0].abs_diff(to[0]), from[1].abs_diff(to[1]));
        across == 0 || down == 0 || across == down
    })
}

fn value(answer: Answer) -> i64 {
    match answer {
        Answer::Value(value) => value,
        _ => unreachable!("nobody refuses a ring without fault"),
    }
}

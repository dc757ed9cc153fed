//! The four tables, which stand ready for many calls, and the rings of a whole terrain drawn into them.

use crate::declared::RECORD_WORDS;
use crate::ours;
use crate::rules::AT_LEAST;
use crate::terrains::{Figure, Terrain};

/// The four tables, lent to every call.
pub struct Tables {
    pub lines: Vec<u32>,
    pub links: Vec<u32>,
    pub points: Vec<u16>,
    pub directory: Vec<u32>,
}

/// The words that each table needs, in the order above.
pub type Need = [usize; 4];

/// `contour_rings`, of our library or of another.
#[rustfmt::skip]
pub type DrawRings = unsafe extern "C" fn(
    *const f64, usize, f64, u32, usize, usize, *mut u32, usize, *mut u32, usize, *mut u16, usize, *mut u32, usize,
    *mut u32,
) -> u32;

/// What `contour_rings` needs, with points and directory for a ring of every four segments.
pub fn whole_need(terrain: &Terrain, threshold: f64) -> Need {
    let [segments, peak] = ours::report(terrain, Figure::Rings(threshold), AT_LEAST);
    let most_rings = segments / 4;
    [
        terrain.dx + 2 + 4 * peak,
        2 * segments,
        2 * (segments + most_rings),
        RECORD_WORDS * most_rings,
    ]
}

impl Tables {
    pub fn new([lines, links, points, directory]: Need) -> Self {
        Tables {
            lines: vec![0; lines],
            links: vec![0; links],
            points: vec![0; points],
            directory: vec![0; directory],
        }
    }

    /// The whole terrain at once; returns how many rings there are.
    pub fn draw(&mut self, draw_rings: DrawRings, terrain: &Terrain, threshold: f64) -> u32 {
        let Terrain { dx, dy, ref values } = *terrain;
        let mut rings = 0;
        let number = unsafe {
            draw_rings(
                values.as_ptr(),
                values.len(),
                threshold,
                AT_LEAST.0,
                dx,
                dy,
                self.lines.as_mut_ptr(),
                self.lines.len(),
                self.links.as_mut_ptr(),
                self.links.len(),
                self.points.as_mut_ptr(),
                self.points.len(),
                self.directory.as_mut_ptr(),
                self.directory.len(),
                &mut rings,
            )
        };
        assert!(number == 0, "refusal {number}");
        rings
    }
}

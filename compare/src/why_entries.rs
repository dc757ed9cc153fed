//! The entries that explain, and their calls with a ring set, what is asked of it, and the places for their outputs.
//! What a call has to answer is not known here.

use crate::asked::Asked;
use crate::calls;
use crate::declared::{contour_polygon_answer, contour_ring_fate, contour_smoothed_vertex};
use crate::lent_sets::LentSet;

/// What is asked of a ring set.
#[derive(Clone, Copy)]
pub enum Question<'a> {
    Fate {
        ring: u32,
    },
    Answer {
        polygon: u32,
        ring: u32,
    },
    Vertex {
        terrain: &'a Asked<'a>,
        ring: u32,
        vertex: u32,
    },
}

/// The names of the words and of the floats that a call sets.
type Names = ([&'static str; 3], [&'static str; 2]);

impl Question<'_> {
    fn names(self) -> Names {
        match self {
            Question::Fate { .. } => (["*ring_class", "*owner", "*vertex"], [""; 2]),
            Question::Answer { .. } => (["*answer", "*vertex", ""], [""; 2]),
            Question::Vertex { .. } => (["*x_kind", "*y_kind", ""], ["*x_fraction", "*y_fraction"]),
        }
    }

    /// The call in words, but for the ring set.
    pub fn shown(self) -> String {
        match self {
            Question::Fate { ring } => format!("contour_ring_fate of ring {ring}"),
            Question::Answer { polygon, ring } => {
                format!("contour_polygon_answer of {polygon} for ring {ring}")
            }
            Question::Vertex {
                terrain,
                ring,
                vertex,
            } => {
                let terrain = calls::described(terrain);
                format!("contour_smoothed_vertex {vertex} of ring {ring}, {terrain}")
            }
        }
    }
}

/// Stand in the outputs and beside them before a call: no answer has these. The pattern is a NaN, whose bits no call
/// may change either.
const UNSET: u32 = 0x5A5A_5A5A;
const UNSET_PATTERN: u64 = 0x7FF4_C0DE_CA5E_C0DE;

/// The places for outputs, three words and two floats, each between two others.
pub struct Outputs {
    words: [u32; 7],
    patterns: [u64; 5],
}

impl Outputs {
    pub fn unset() -> Self {
        Outputs {
            words: [UNSET; 7],
            patterns: [UNSET_PATTERN; 5],
        }
    }

    pub fn set_word(&mut self, output: usize, word: u32) {
        self.words[2 * output + 1] = word;
    }

    pub fn set_float(&mut self, output: usize, float: f64) {
        self.patterns[2 * output + 1] = float.to_bits();
    }

    fn word_at(&mut self, output: usize) -> *mut u32 {
        self.words[2 * output + 1..].as_mut_ptr()
    }

    fn float_at(&mut self, output: usize) -> *mut f64 {
        self.patterns[2 * output + 1..].as_mut_ptr().cast()
    }

    /// The first output, or place beside one, that is not as expected, in words.
    pub fn difference(&self, question: Question, expected: &Outputs) -> Option<String> {
        let (words, floats) = question.names();
        let word = (0..7).find(|&k| self.words[k] != expected.words[k]);
        let float = (0..5).find(|&k| self.patterns[k] != expected.patterns[k]);
        let (name, [wanted, got]) = match (word, float) {
            (Some(k), _) => {
                let name = named(&words, k);
                let shown = |outputs: &Outputs| shown_word(name, outputs.words[k]);
                (name, [expected, self].map(shown))
            }
            (None, Some(k)) => {
                let shown = |outputs: &Outputs| shown_float(outputs.patterns[k]);
                (named(&floats, k), [expected, self].map(shown))
            }
            (None, None) => return None,
        };
        Some(format!("{name}: expected {wanted}, got {got}"))
    }
}

/// The name of place k, of which every other one is an output.
fn named<'a>(names: &[&'a str], k: usize) -> &'a str {
    match k % 2 {
        1 => names[k / 2],
        _ => "a place beside the outputs",
    }
}

/// Only an answer has a sign.
fn shown_word(name: &str, word: u32) -> String {
    match name {
        "*answer" => (word as i32).to_string(),
        _ => word.to_string(),
    }
}

fn shown_float(pattern: u64) -> String {
    format!("{:?} ({pattern:#018x})", f64::from_bits(pattern))
}

/// Calls the entry that is asked and returns its number.
pub fn call(question: Question, lent: &LentSet, outputs: &mut Outputs) -> u32 {
    let (points, directory) = (lent.points(), lent.directory());
    let [first, second, third] = [0, 1, 2].map(|output| outputs.word_at(output));
    macro_rules! call {
        ($function:ident, [$($before:expr),*], $($rest:expr),*) => {
            unsafe {
                $function($($before,)* points.0, points.1, directory.0, directory.1, lent.set.rings, $($rest),*)
            }
        };
    }
    match question {
        Question::Fate { ring } => call!(contour_ring_fate, [], ring, first, second, third),
        Question::Answer { polygon, ring } => {
            call!(
                contour_polygon_answer,
                [],
                polygon,
                ring,
                first.cast(),
                second
            )
        }
        Question::Vertex {
            terrain,
            ring,
            vertex,
        } => {
            let (values, grid) = (&terrain.values, terrain.grid);
            call!(
                contour_smoothed_vertex,
                [
                    values.place().cast(),
                    values.count(),
                    grid.threshold,
                    grid.rule.0,
                    grid.dx,
                    grid.dy
                ],
                ring,
                vertex,
                first,
                outputs.float_at(0),
                second,
                outputs.float_at(1)
            )
        }
    }
}

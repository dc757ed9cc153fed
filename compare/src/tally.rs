//! Counting and reporting. Each comparison with our library goes through `Tally::same`.

use crate::area_faults::Tried;
use crate::ffi::Answer;

/// How many differences are described; the rest are only counted.
const DESCRIBED: u64 = 10;
/// How many points of a list a description shows.
const POINTS_SHOWN: usize = 40;

#[derive(Default)]
pub struct Tally {
    compared: u64,
    differ: u64,
    float_asked: u64,
    float_differs: u64,
    area_faults: Tried,
    /// How many exteriors and holes stood in texts, of an area below 0, of 0 and above 0.
    in_texts: [[u64; 3]; 2],
    notes: Vec<String>,
    lacks: bool,
}

impl Tally {
    /// One comparison: what a call had to answer, what it did, and the call in words.
    pub fn same(&mut self, expected: Answer, got: Answer, call: impl FnOnce() -> String) {
        let difference = (got != expected).then(|| format!("expected {expected}, got {got}"));
        self.holds(difference, call);
    }

    /// One comparison whose outcome is known: what differs, if anything, and the call in words.
    pub fn holds(&mut self, difference: Option<String>, call: impl FnOnce() -> String) {
        self.compared += 1;
        if let Some(difference) = difference {
            self.differ += 1;
            if self.differ <= DESCRIBED {
                println!("differs: {}: {difference}", call());
            }
        }
    }

    /// A line to print before the last one.
    pub fn note(&mut self, line: &str) {
        self.notes.push(line.to_string());
    }

    /// A part that is lacking and was not compared, and the line that says so.
    pub fn lacks(&mut self, line: &str) {
        self.note(line);
        self.lacks = true;
    }

    /// How the crate's float test fares against the exact one on slopes that no cell draws. Document 01
    /// allows a difference there, so it is told and not counted.
    pub fn float_test(&mut self, exact: Answer, floats: Answer) {
        self.float_asked += 1;
        self.float_differs += u64::from(exact != floats);
    }

    /// The areas, each not its ring's, that a part has tried. The run stops if it left out one of the ways.
    pub fn area_faults(&mut self, tried: Tried) {
        tried.hold();
        self.area_faults.add(tried);
    }

    /// Class and area of the rings of a text.
    pub fn in_text(&mut self, rings: Vec<(u32, i64)>) {
        for (class, area) in rings {
            self.in_texts[class as usize][(area.signum() + 1) as usize] += 1;
        }
    }

    /// Says which rings the texts had. The run stops if there were none of some class and sign.
    pub fn note_texts(&mut self) {
        let counts = self.in_texts;
        assert!(
            !counts.concat().contains(&0),
            "rings that no text had: {counts:?}"
        );
        let [exteriors, holes] = counts.map(|[below, none, above]| {
            format!("{above} of an area above 0, {none} of 0, {below} below 0")
        });
        self.note(&format!("in texts: exteriors, {exteriors}; holes, {holes}"));
    }

    /// Runs one part of the comparison and says how much it compared.
    pub fn part(&mut self, name: &str, compare: impl FnOnce(&mut Tally)) {
        let (compared, differ) = (self.compared, self.differ);
        compare(self);
        let (compared, differ) = (self.compared - compared, self.differ - differ);
        println!("{name}: {compared} compared, {differ} differ");
    }

    /// Prints the closing lines; true when something was compared and nothing differs, and no part is lacking
    /// unless parts may lack.
    pub fn close(&self, parts_may_lack: bool) -> bool {
        println!(
            "not counted: on slopes that no cell draws the crate's float test differs from the exact \
             one in {} of {} calls",
            self.float_differs, self.float_asked
        );
        println!(
            "ring sets with an area for their one fault: {}",
            self.area_faults.shown()
        );
        for note in &self.notes {
            println!("{note}");
        }
        let whole = parts_may_lack || !self.lacks;
        if !whole {
            println!(
                "with a part lacking the run fails, unless it is called with --parts-may-lack"
            );
        }
        println!("{} compared, {} differ", self.compared, self.differ);
        self.compared > 0 && self.differ == 0 && whole
    }
}

/// A call of `area` in words.
pub fn area_call(ring: &[u16]) -> String {
    format!("area of {}", listed(ring))
}

/// A call of `contains` in words.
pub fn contains_call(outer: &[u16], tested: &[u16]) -> String {
    format!(
        "contains, outer {}, tested {}",
        listed(outer),
        listed(tested)
    )
}

pub fn listed(words: &[u16]) -> String {
    let mut text: String = words
        .chunks(2)
        .take(POINTS_SHOWN)
        .map(|p| match p {
            [x, y] => format!("({x},{y})"),
            rest => format!("({},", rest[0]),
        })
        .collect();
    if words.is_empty() {
        text.push_str("nothing");
    }
    if words.len() > 2 * POINTS_SHOWN {
        text.push_str(&format!(" and so on, {} words in all", words.len()));
    }
    text
}

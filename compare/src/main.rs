//! Asks the crate and our static library the same questions and counts the answers that differ. What is
//! expected comes from the crate or from `exact`, `rules`, `counts`, `row_drawing`, `ring_sets`, `geojson`, `word_text`,
//! `moves` and `program_inputs`, which are document 01 written down once more. Here stands what the command line asks for;
//! `parts` has the parts.

mod answers;
mod area_checks;
mod area_faults;
mod asked;
mod bounds;
mod calls;
mod counts;
mod damaged_sets;
mod directory;
mod drawing;
mod entries;
mod exact;
#[cfg(feature = "why")]
mod fates;
mod ffi;
mod geojson;
mod grid_refusals;
mod guarded;
mod kinds;
mod lent;
mod lent_sets;
mod line_answers;
mod line_checks;
mod lines;
mod lists;
mod made_sets;
#[cfg_attr(not(feature = "why"), allow(dead_code))]
mod moves;
mod nested;
mod oracle;
mod parts;
mod points;
mod printed;
mod program;
mod program_inputs;
mod random;
mod records;
mod refusals;
mod region_answers;
mod region_checks;
mod ring_checks;
mod ring_sets;
mod rings;
#[cfg(feature = "rows")]
mod row_calls;
#[cfg(feature = "rows")]
mod row_checks;
#[cfg(feature = "rows")]
mod row_drawing;
#[cfg(feature = "rows")]
mod row_entries;
#[cfg(feature = "rows")]
mod row_faults;
mod rule_parts;
mod rules;
mod set_faults;
mod shapes;
mod tally;
mod text_calls;
mod text_checks;
#[cfg(feature = "why")]
mod why_calls;
#[cfg(feature = "why")]
mod why_checks;
#[cfg(feature = "why")]
mod why_entries;
#[cfg(feature = "why")]
mod why_parts;
#[cfg(feature = "why")]
mod why_refusals;
#[cfg(feature = "why")]
mod why_sets;
#[cfg(feature = "why")]
mod why_vertices;
mod word_text;

/// The functions of our library, declared once for all who call it from Rust.
#[allow(dead_code)]
#[path = "../../bindings/rust/src/ffi.rs"]
mod declared;

use parts::Plan;
use std::process::ExitCode;
use tally::Tally;

/// The crate's float and point types, which its area.rs looks up here.
pub type Float = f64;
pub type Pt = geo_types::Coord;

/// Where the random numbers begin unless the command line says otherwise.
const SEED: u64 = 0x636F_6E74_6F75_7273;

/// What the command line asks for.
enum Task {
    /// Write the crate's answers, as one of the texts, to this file.
    Answers(fn() -> String, String),
    /// Compare by this plan. Where a part is lacking that is a failure, unless it is said that parts may lack.
    Compare { plan: Plan, parts_may_lack: bool },
}

fn main() -> ExitCode {
    match task(std::env::args().skip(1)) {
        Err(fault) => {
            eprintln!("{fault}");
            ExitCode::from(2)
        }
        Ok(Task::Answers(text, file)) => {
            std::fs::write(&file, text()).expect("a file to write the answers to");
            ExitCode::SUCCESS
        }
        Ok(Task::Compare {
            plan,
            parts_may_lack,
        }) => {
            let mut tally = Tally::default();
            plan.compare(&mut tally);
            ExitCode::from(if tally.close(parts_may_lack) { 0 } else { 1 })
        }
    }
}

fn task(mut words: impl Iterator<Item = String>) -> Result<Task, &'static str> {
    let mut parts_may_lack = false;
    let mut plan = Plan {
        rounds: 1,
        seed: SEED,
        printed: Vec::new(),
        program: Vec::new(),
    };
    while let Some(word) = words.next() {
        match word.as_str() {
            "--answers" => return answers_task(answers::text, words.next()),
            "--region-answers" => return answers_task(region_answers::text, words.next()),
            "--line-answers" => return answers_task(line_answers::text, words.next()),
            "--printed" => {
                let three: Vec<String> = words.by_ref().take(3).collect();
                let three = three.try_into();
                let three = three.map_err(|_| "--printed takes an example, a name and a file")?;
                plan.printed.push(three);
            }
            "--program" => plan.program = words.by_ref().take_while(|word| word != "--").collect(),
            "--parts-may-lack" => parts_may_lack = true,
            "--seed" => {
                let seed = words.next().and_then(|word| word.parse().ok());
                plan.seed = seed.ok_or("the seed is a whole number below 2^64")?;
            }
            number => {
                plan.rounds = number.parse().unwrap_or(0);
                if plan.rounds == 0 {
                    return Err("the number of rounds is a whole number above 0");
                }
            }
        }
    }
    Ok(Task::Compare {
        plan,
        parts_may_lack,
    })
}

fn answers_task(text: fn() -> String, file: Option<String>) -> Result<Task, &'static str> {
    let file = file.ok_or("the answers take a file")?;
    Ok(Task::Answers(text, file))
}

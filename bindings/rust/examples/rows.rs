//! Reads a terrain row by row and prints each ring as it closes. Standard input has the number of columns, the number
//! of rows and the threshold, and then the values, row after row, a row a line:
//!
//!     printf '3 3 1\n1 1 1\n1 0 1\n1 1 1\n' | cargo run --example rows

use nigrulent::{Point, Rings, Rows};
use std::error::Error;
use std::io::{self, BufRead};

fn main() -> Result<(), Box<dyn Error>> {
    let mut lines = io::stdin().lock().lines();
    let head = lines.next().ok_or("there is no first line")??;
    let (dx, dy, threshold) = match head.split_whitespace().collect::<Vec<_>>()[..] {
        [dx, dy, threshold] => (dx.parse()?, dy.parse()?, threshold.parse::<f64>()?),
        _ => return Err("the first line wants columns, rows and threshold".into()),
    };
    let mut rows = Rows::begin(threshold, dx, dy)?;
    let mut row = Vec::new();
    for number in 0..dy {
        let line = lines.next().ok_or("a row is missing")??;
        row.clear();
        for word in line.split_whitespace() {
            row.push(word.parse::<f64>()?);
        }
        print(&format!("row {number}"), rows.push(&row)?);
    }
    print("the end", rows.finish()?);
    Ok(())
}

/// A line for each ring, with what has closed it.
fn print(by: &str, rings: Rings) {
    for ring in rings.records() {
        println!(
            "ring {}, closed by {by}: {}",
            ring.number,
            shown(ring.points)
        );
    }
}

fn shown(ring: &[Point]) -> String {
    ring.iter().map(|[x, y]| format!("({x},{y})")).collect()
}

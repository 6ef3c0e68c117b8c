//! The least that a check costs, in plain Rust without a proof. Not a part of `race`: its benches time it beside `race check`.
//!
//!     peer sort FOOTPRINTS     reads typed lines, and sorts all paths with the recipes that touch them
//!     peer chains RECIPES N    a chain for each pair of recipes that all share a file, each behind the N before it

use serde::Deserialize;
use std::{env, fs, process};

/// A line of footprints.
#[derive(Deserialize)]
struct Line {
    target: String,
    #[serde(default)]
    reads: Vec<String>,
    #[serde(default)]
    writes: Vec<String>,
}

/// A path, the number of the recipe that touches it, and whether it writes there.
type Touch<'a> = (&'a str, usize, bool);

fn lines_of(text: &str) -> serde_json::Result<Vec<Line>> {
    text.lines().map(serde_json::from_str).collect()
}

/// All touches, in the order of their paths, each once.
fn touches(lines: &[Line]) -> Vec<Touch<'_>> {
    let mut all: Vec<Touch> = Vec::with_capacity(lines.iter().map(|it| it.reads.len() + it.writes.len()).sum());
    for (number, line) in lines.iter().enumerate() {
        all.extend(line.reads.iter().map(|path| (path.as_str(), number, false)));
        all.extend(line.writes.iter().map(|path| (path.as_str(), number, true)));
    }
    all.sort_unstable();
    all.dedup();
    all
}

/// The nodes before each node, rising: at most so many.
fn behind(recipes: u32, most: u32) -> Vec<Vec<u32>> {
    (0..recipes).map(|node| (node.saturating_sub(most)..node).collect()).collect()
}

/// A chain for each pair, one after another: each step goes to the least prerequisite from the first node on.
fn chains(needs: &[Vec<u32>]) -> (Vec<u32>, usize) {
    let (mut steps, mut pairs) = (Vec::new(), 0);
    for first in 0..needs.len() as u32 {
        for second in first + 1..needs.len() as u32 {
            let mut node = second;
            while node > first {
                steps.push(node);
                let row = &needs[node as usize];
                match row.get(row.partition_point(|it| *it < first)) {
                    Some(before) => node = *before,
                    None => break,
                }
            }
            steps.push(first);
            pairs += 1;
        }
    }
    (steps, pairs)
}

fn main() {
    let words: Vec<String> = env::args().skip(1).collect();
    match words.iter().map(String::as_str).collect::<Vec<_>>()[..] {
        ["sort", footprints] => {
            let text = fs::read_to_string(footprints).expect("footprints");
            let lines = lines_of(&text).expect("a line of footprints");
            let targets: usize = lines.iter().map(|it| it.target.len()).sum();
            println!("{} touches, {targets} bytes of targets", touches(&lines).len());
        }
        ["chains", recipes, most] => {
            let needs = behind(recipes.parse().expect("a number"), most.parse().expect("a number"));
            let (steps, pairs) = chains(&needs);
            println!("{pairs} pairs, {} steps", steps.len());
        }
        _ => {
            eprintln!("usage: peer sort FOOTPRINTS | peer chains RECIPES N");
            process::exit(3);
        }
    }
}

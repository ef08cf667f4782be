//! What came up in the searches that were compared, so that a reader sees that all kinds did.
use super::input::{Ending, Input, Outcome};

pub struct Tally {
    pub compared: u64,
    pub differ: u64,
    /// The smallest input that differs, and how.
    pub smallest: Option<(Input, String)>,
    /// Searches that document 01's prose was asked about too.
    pub prose: u64,
    /// Inputs whose bound was lowered, because they would have run too long.
    pub lowered: u64,
    tried: u64,
    most_tried: u64,
    kept: [u64; 6],
    found: [u64; 32],
    none: [u64; 32],
    full: [u64; 32],
    refused: [u64; 8],
}

/// The upper ends of the rows for the number kept.
const KEPT: [usize; 6] = [0, 9, 99, 999, 4095, 4096];

impl Tally {
    pub fn new() -> Self {
        Tally {
            compared: 0,
            differ: 0,
            smallest: None,
            prose: 0,
            lowered: 0,
            tried: 0,
            most_tried: 0,
            kept: [0; 6],
            found: [0; 32],
            none: [0; 32],
            full: [0; 32],
            refused: [0; 8],
        }
    }

    pub fn ended(&mut self, input: &Input, outcome: &Outcome) {
        match outcome.ending {
            Ending::Found(root) => self.found[root.size as usize] += 1,
            Ending::None => self.none[input.bound] += 1,
            Ending::Full(size) => self.full[size as usize] += 1,
        }
        self.tried += outcome.tried;
        self.most_tried = self.most_tried.max(outcome.tried);
        let row = KEPT.iter().position(|most| outcome.kept() <= *most).unwrap();
        self.kept[row] += 1;
    }

    pub fn refused(&mut self, number: u64) {
        self.refused[number as usize] += 1;
    }

    /// Counts one comparison; `wrong` says what differs.
    pub fn compared(&mut self, input: &Input, wrong: Option<String>) {
        self.compared += 1;
        let Some(wrong) = wrong else { return };
        self.differ += 1;
        if self
            .smallest
            .as_ref()
            .map_or(true, |found| input.size() < found.0.size())
        {
            self.smallest = Some((input.clone(), wrong));
        }
    }

    pub fn print(&self) {
        let line = |what: &str, by: &str, counts: &[u64]| {
            let sum: u64 = counts.iter().sum();
            let parts: Vec<String> = (0..counts.len())
                .filter(|at| counts[*at] > 0)
                .map(|at| format!("{at}: {}", counts[at]))
                .collect();
            if sum > 0 {
                println!("  {what} {sum}, by {by}: {}", parts.join(", "));
            }
        };
        line("found", "size", &self.found);
        line("none", "bound", &self.none);
        line("full", "size", &self.full);
        line("refused", "number", &self.refused);
        if self.tried > 0 {
            let rows = KEPT.iter().zip(&self.kept);
            let kept: Vec<String> = rows.map(|(most, count)| format!("up to {most}: {count}")).collect();
            println!("  kept formulas, {}", kept.join(", "));
            println!(
                "  candidates tried: {} in all, {} in the longest search",
                self.tried, self.most_tried
            );
            println!(
                "  asked of document 01's prose too: {}; bound lowered to end in time: {}",
                self.prose, self.lowered
            );
        }
        if let Some((input, wrong)) = &self.smallest {
            println!("  {} differ; the smallest: {input}: {wrong}", self.differ);
        }
    }
}

//! How often each operation had each outcome that its line of the table names.

use crate::answer::Answer;
use crate::operations::{Met, Operation};

pub struct Tally<'a> {
    operations: &'a [Operation],
    /// For each operation as many counts as it has outcomes.
    counts: Vec<Vec<u64>>,
}

impl Met {
    fn is_met_by(self, answer: Answer) -> bool {
        self.number == answer.number
            && self.first.map_or(true, |first| first == answer.first)
            && self.second.map_or(true, |second| second == answer.second)
    }

    /// How many values it names.
    fn values(self) -> usize {
        self.first.iter().count() + self.second.iter().count()
    }

    /// As the table has it.
    fn text(self) -> String {
        match (self.first, self.second) {
            (Some(first), Some(second)) => format!("{}={},{}", self.number, first, second),
            (None, Some(second)) => format!("{}=*,{}", self.number, second),
            (Some(first), None) => format!("{}={}", self.number, first),
            _ => self.number.to_string(),
        }
    }
}

impl<'a> Tally<'a> {
    pub fn new(operations: &'a [Operation]) -> Tally<'a> {
        let zeros = |operation: &Operation| vec![0; operation.outcomes.len()];
        Tally {
            operations,
            counts: operations.iter().map(zeros).collect(),
        }
    }

    /// Counts an answer, at the outcome with most values where it meets several. One that the operation's line does not name is an error.
    pub fn add(&mut self, operation: &Operation, answer: Answer) -> Result<(), String> {
        let named = |line: &Operation| line.name == operation.name;
        let place = self.operations.iter().position(named);
        let counts = &mut self.counts[place.expect("the operation is in the table")];
        let met = |at: &usize| operation.outcomes[*at].is_met_by(answer);
        let values = |at: &usize| operation.outcomes[*at].values();
        match (0..counts.len()).filter(met).max_by_key(values) {
            Some(at) => counts[at] += 1,
            None => return Err(format!("{} cannot answer {:?}", operation.name, answer)),
        }
        Ok(())
    }

    /// An outcome that was never met is an error.
    pub fn is_full(&self) -> Result<(), String> {
        for (operation, counts) in self.operations.iter().zip(&self.counts) {
            if let Some(at) = counts.iter().position(|&count| count == 0) {
                let met = operation.outcomes[at].text();
                return Err(format!("{} never gave {}", operation.name, met));
            }
        }
        Ok(())
    }

    /// A line for each operation: its outcomes, and how often each was met.
    pub fn print(&self) {
        for (operation, counts) in self.operations.iter().zip(&self.counts) {
            let pairs = operation.outcomes.iter().zip(counts);
            let parts: Vec<String> = pairs
                .map(|(met, count)| format!("{}: {}", met.text(), count))
                .collect();
            println!("{:20}{}", operation.name, parts.join("  "));
        }
    }
}

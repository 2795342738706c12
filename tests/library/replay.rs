//! Cases run on the archive, and held to what `readings` printed for them.

use crate::answer::Answer;
use crate::call::run;
use crate::case::Case;
use crate::operations::Operation;
use crate::rules::held_to_rules;
use crate::tally::Tally;

/// How many cases `readings` took, how many of them were run on the archive, and how many were held to the rules.
pub struct Replayed {
    pub taken: u64,
    pub on_archive: u64,
    pub by_rules: u64,
}

/// The lines that `readings` printed, one after the other.
struct Printed<'a> {
    lines: std::str::Lines<'a>,
}

impl<'a> Printed<'a> {
    fn next(&mut self) -> Result<&'a str, String> {
        self.lines
            .next()
            .ok_or("readings printed too little".to_string())
    }

    /// The rest of the next line, which has to begin like that.
    fn after(&mut self, start: &str) -> Result<&'a str, String> {
        let line = self.next()?;
        line.strip_prefix(start)
            .ok_or(format!("readings printed {:?}, not {:?}", line, start))
    }
}

/// Runs the cases of a text on the archive. The first one whose outcome is not the one printed is the error, and so is one on
/// which the engines of `readings` differ.
pub fn replay(
    operations: &[Operation],
    cases: &str,
    printed: &str,
    tally: &mut Tally,
) -> Result<Replayed, String> {
    let mut printed = Printed {
        lines: printed.lines(),
    };
    let mut replayed = Replayed {
        taken: 0,
        on_archive: 0,
        by_rules: 0,
    };
    for (index, line) in cases.lines().enumerate() {
        let begun = line.trim_start_matches([' ', '\t', '\r']);
        if begun.is_empty() || begun.starts_with('#') {
            continue;
        }
        let title = printed.after(&format!("{} ", index + 1))?;
        if title == "bad case" || title == "too large" {
            continue;
        }
        replayed.taken += 1;
        let expected = printed.after("proved ")?;
        printed.after("second ")?;
        let wrong = |what: String| format!("line {}: {}\n{}", index + 1, what, line);
        if printed.next()? != "agree" {
            return Err(wrong("the engines of readings differ".to_string()));
        }
        let case = Case::read(operations, line);
        let case = case.ok_or_else(|| wrong("not a case of the table".to_string()))?;
        check(&case, expected, index, tally, &mut replayed).map_err(wrong)?;
    }
    let taken = replayed.taken;
    printed.after(&format!("cases {}, agreed {}, differed 0,", taken, taken))?;
    Ok(replayed)
}

/// One case. What `readings` printed has to be what the archive leaves, if that has the operation.
fn check(
    case: &Case,
    expected: &str,
    turn: usize,
    tally: &mut Tally,
    replayed: &mut Replayed,
) -> Result<(), String> {
    let answer = read_answer(expected).ok_or(format!("readings printed {}", expected))?;
    tally.add(case.operation, answer)?;
    if case.operation.call.is_none() {
        return Ok(());
    }
    let found = run(case, turn)?;
    if found.to_string() != expected {
        return Err(format!("readings: {}\narchive:  {}", expected, found));
    }
    replayed.on_archive += 1;
    replayed.by_rules += held_to_rules(case, &found)? as u64;
    Ok(())
}

/// The number and the values at the beginning of what is printed.
fn read_answer(text: &str) -> Option<Answer> {
    let mut words = text.split(' ').map(|word| word.parse().ok());
    let mut next = || words.next().flatten();
    Some(Answer::new(next()?, next()?, next()?))
}

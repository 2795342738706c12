//! A case run on the archive: its lists become memory that is lent, and what is left in that memory is looked at afterwards.

use std::fmt;

use crate::answer::Answer;
use crate::case::{list_text, Case};
use crate::fields::Field;
use crate::operations::Handed;

const GUARD: u8 = 0xa5;

/// What a call answered and left in the lists that it was lent to write in.
#[derive(PartialEq, Eq)]
pub struct Outcome {
    pub answer: Answer,
    pub lists: Vec<Vec<u64>>,
}

impl fmt::Display for Outcome {
    fn fmt(&self, out: &mut fmt::Formatter) -> fmt::Result {
        let Answer {
            number,
            first,
            second,
        } = self.answer;
        write!(out, "{} {} {}", number, first, second)?;
        self.lists
            .iter()
            .try_for_each(|list| write!(out, " {}", list_text(list)))
    }
}

impl Outcome {
    /// What a case leaves whose answer changes nothing.
    pub fn unchanged(case: &Case, answer: Answer) -> Outcome {
        let fields = case.operation.fields.iter().zip(&case.values);
        let lent = fields.filter(|(field, _)| field.shape().lent);
        Outcome {
            answer,
            lists: lent.map(|(_, values)| values.clone()).collect(),
        }
    }
}

/// A list in memory, with guard bytes before it, and after it every other time: where there are none the list ends with
/// its allocation, so that a tool that watches memory sees what is read beyond it.
struct Lent {
    /// Numbers of eight bytes, so that the beginning is aligned for every width.
    memory: Vec<u64>,
    start: usize,
    width: usize,
    length: usize,
}

impl Lent {
    fn new(field: Field, values: &[u64], turn: usize) -> Lent {
        let width = field.shape().width;
        let size = values.len() * width;
        let after = if turn % 2 == 0 { 0 } else { 4 + turn % 13 };
        let words = (size + after + 7) / 8 + 2;
        let start = (8 * words - size - after) / width * width;
        let mut lent = Lent {
            memory: vec![u64::from_ne_bytes([GUARD; 8]); words],
            start,
            width,
            length: values.len(),
        };
        for (at, value) in values.iter().enumerate() {
            let from = start + at * width;
            lent.bytes_mut()[from..from + width].copy_from_slice(&value.to_le_bytes()[..width]);
        }
        lent
    }

    fn bytes(&self) -> &[u8] {
        // Safe: the memory of n words is 8n bytes.
        unsafe { std::slice::from_raw_parts(self.memory.as_ptr().cast(), 8 * self.memory.len()) }
    }

    fn bytes_mut(&mut self) -> &mut [u8] {
        // Safe: likewise, and any bytes make words.
        unsafe {
            std::slice::from_raw_parts_mut(self.memory.as_mut_ptr().cast(), 8 * self.memory.len())
        }
    }

    fn hand(&mut self) -> Handed {
        let start = self.start;
        Handed {
            number: 0,
            list: self.bytes_mut()[start..].as_mut_ptr().cast(),
            length: self.length,
        }
    }

    fn values(&self) -> Vec<u64> {
        let end = self.start + self.length * self.width;
        let widened = |bytes: &[u8]| {
            let mut eight = [0; 8];
            eight[..bytes.len()].copy_from_slice(bytes);
            u64::from_le_bytes(eight)
        };
        self.bytes()[self.start..end]
            .chunks(self.width)
            .map(widened)
            .collect()
    }

    fn is_guarded(&self) -> bool {
        let end = self.start + self.length * self.width;
        let (before, after) = (&self.bytes()[..self.start], &self.bytes()[end..]);
        before.iter().chain(after).all(|&byte| byte == GUARD)
    }
}

/// Runs a case on the archive, which has to have its operation. Writing beside a list, or in one that is not lent for it,
/// is an error. The turn decides where in memory the lists stand.
pub fn run(case: &Case, turn: usize) -> Result<Outcome, String> {
    let call = case.operation.call.expect("the archive has the operation");
    let fields = case.operation.fields.iter().zip(&case.values);
    let mut lent: Vec<Option<Lent>> = fields
        .clone()
        .map(|(&field, values)| field.is_list().then(|| Lent::new(field, values, turn)))
        .collect();
    let handed: Vec<Handed> = lent
        .iter_mut()
        .zip(&case.values)
        .map(|(lent, values)| match lent {
            Some(lent) => lent.hand(),
            None => Handed {
                number: values[0] as u32,
                list: std::ptr::null_mut(),
                length: 0,
            },
        })
        .collect();
    let mut answer = [0; 3];
    // Safe: a field for each parameter, and each list is memory of its own, aligned and of that length.
    unsafe { call(handed.as_ptr(), &mut answer) };
    let [number, first, second] = answer;
    let mut lists = Vec::new();
    for ((field, before), lent) in fields.zip(&lent) {
        let after = match lent {
            Some(lent) if lent.is_guarded() => lent.values(),
            Some(_) => return Err(format!("something was written beside the {:?}", field)),
            None => continue,
        };
        if field.shape().lent {
            lists.push(after);
        } else if after != *before {
            return Err(format!("the {:?} were changed", field));
        }
    }
    Ok(Outcome {
        answer: Answer::new(number, first, second),
        lists,
    })
}

//! One case: an operation and the values of its fields, in the form that `readings` reads and prints.

use std::fmt;

use crate::fields::Field;
use crate::operations::Operation;

/// A case. Each field has a list of values, that of a number has one.
#[derive(Clone)]
pub struct Case<'a> {
    pub operation: &'a Operation,
    pub values: Vec<Vec<u64>>,
}

impl<'a> Case<'a> {
    /// The case of an operation that is in the table, with what is given for each kind of field.
    pub fn filled(
        operations: &'a [Operation],
        name: &str,
        fill: impl Fn(Field) -> Vec<u64>,
    ) -> Case<'a> {
        let operation = operations.iter().find(|it| it.name == name);
        let operation = operation.expect("the operation is in the table");
        let values = operation.fields.iter().map(|&field| fill(field)).collect();
        Case { operation, values }
    }

    /// The case that stands in a line, if all of the line is one.
    pub fn read(operations: &'a [Operation], line: &str) -> Option<Case<'a>> {
        let spaced = line.replace('[', " [ ").replace(']', " ] ");
        let mut words = spaced.split_ascii_whitespace();
        let name = words.next()?;
        let operation = operations.iter().find(|it| it.name == name)?;
        let mut values = Vec::new();
        for field in &operation.fields {
            values.push(if field.is_list() {
                read_list(&mut words)?
            } else {
                vec![words.next()?.parse().ok()?]
            });
        }
        words.next().is_none().then_some(Case { operation, values })
    }

    /// The values of the field of that kind; of a number the only one. Empty where the operation has no such field.
    pub fn values_of(&self, field: Field) -> &[u64] {
        let place = self.operation.fields.iter().position(|&it| it == field);
        place.map_or(&[], |place| &self.values[place])
    }

    /// The same of a field whose numbers have 32 bits or fewer.
    pub fn words_of(&self, field: Field) -> Vec<u32> {
        let values = self.values_of(field).iter();
        values.map(|&value| value as u32).collect()
    }

    /// Gives the field of that kind other values, where the operation has one.
    pub fn set(&mut self, field: Field, values: Vec<u64>) {
        if let Some(place) = self.operation.fields.iter().position(|&it| it == field) {
            self.values[place] = values;
        }
    }
}

/// Numbers as the values of a field.
pub fn widened(numbers: &[u32]) -> Vec<u64> {
    numbers.iter().map(|&number| number.into()).collect()
}

/// The numbers between two brackets, `7*5` being five of them.
fn read_list<'a>(words: &mut impl Iterator<Item = &'a str>) -> Option<Vec<u64>> {
    let mut list = Vec::new();
    if words.next()? != "[" {
        return None;
    }
    loop {
        let (number, times) = match words.next()? {
            "]" => return Some(list),
            word => word.split_once('*').unwrap_or((word, "1")),
        };
        let size = list.len() + times.parse::<usize>().ok()?;
        list.resize(size, number.parse().ok()?);
    }
}

impl fmt::Display for Case<'_> {
    fn fmt(&self, out: &mut fmt::Formatter) -> fmt::Result {
        write!(out, "{}", self.operation.name)?;
        for (field, values) in self.operation.fields.iter().zip(&self.values) {
            if field.is_list() {
                write!(out, " {}", list_text(values))?;
            } else {
                write!(out, " {}", values[0])?;
            }
        }
        Ok(())
    }
}

/// A list in brackets, with four and more equal numbers in a row shortened.
pub fn list_text(list: &[u64]) -> String {
    let mut parts = Vec::new();
    let mut rest = list;
    while let Some(number) = rest.first() {
        let times = rest.iter().take_while(|&it| it == number).count();
        if times > 3 {
            parts.push(format!("{}*{}", number, times));
        } else {
            parts.extend((0..times).map(|_| number.to_string()));
        }
        rest = &rest[times..];
    }
    format!("[{}]", parts.join(" "))
}

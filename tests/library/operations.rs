//! The table of `operations.c`.

use std::ffi::CStr;
use std::os::raw::{c_char, c_void};

use crate::fields::Field;

/// A field as the table's calls take it.
#[repr(C)]
pub struct Handed {
    pub number: u32,
    pub list: *mut c_void,
    pub length: usize,
}

/// Calls an operation of the archive and puts its number and values into the second argument.
type Call = unsafe extern "C" fn(*const Handed, *mut [u32; 3]);

/// How often one of the engines goes through the net for an operation.
#[repr(C)]
#[derive(Clone, Copy, PartialEq, Eq)]
#[allow(dead_code)]
pub enum Effort {
    Once,
    EveryNode,
    EveryWord,
}

/// A line of the table as C has it.
#[repr(C)]
struct Line {
    name: *const c_char,
    fields: *const c_char,
    outcomes: *const c_char,
    effort: Effort,
    call: Option<Call>,
}

extern "C" {
    static operations: Line;
    static operations_len: usize;
}

/// A number of the table that an operation can give, with the values that are asked for.
#[derive(Clone, Copy, PartialEq, Eq)]
pub struct Met {
    pub number: u32,
    pub first: Option<u32>,
    pub second: Option<u32>,
}

/// An operation.
pub struct Operation {
    pub name: &'static str,
    pub fields: Vec<Field>,
    pub outcomes: Vec<Met>,
    pub effort: Effort,
    pub call: Option<Call>,
}

/// All operations, in the table's order.
pub fn all_operations() -> Vec<Operation> {
    // Safe: C fills the array, its length and its strings before the program begins, and never writes them again.
    let lines = unsafe { std::slice::from_raw_parts(&operations, operations_len) };
    lines.iter().map(read_line).collect()
}

fn read_line(line: &Line) -> Operation {
    Operation {
        name: text(line.name),
        fields: text(line.fields).split(' ').map(Field::named).collect(),
        outcomes: text(line.outcomes).split(' ').map(read_outcome).collect(),
        effort: line.effort,
        call: line.call,
    }
}

fn text(start: *const c_char) -> &'static str {
    // Safe: the strings of the table are constants of C.
    let bytes = unsafe { CStr::from_ptr(start) };
    bytes.to_str().expect("the table is in ASCII")
}

fn read_outcome(text: &str) -> Met {
    let number = |text: &str| text.parse().expect("outcomes are numbers");
    let mut parts = text.split(['=', ',']);
    let named = parts.next().expect("an outcome has a number");
    let mut value = || parts.next().filter(|it| *it != "*").map(number);
    Met {
        number: number(named),
        first: value(),
        second: value(),
    }
}

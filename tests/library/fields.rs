//! The kinds of fields that a case can have.

#[derive(Clone, Copy, Debug, PartialEq, Eq)]
pub enum Field {
    Objects,
    Kinds,
    Words,
    Plain,
    Links,
    Set,
    Word,
    Node,
    Kind,
    Sign,
    Budget,
    Pairs,
    Answers,
    Marks,
    List,
    Yes,
    No,
    FilledYes,
    FilledNo,
    Kept,
    Dropped,
    Table,
    Model,
    Scratch,
    Reason,
    Path,
    Lines,
    Derivation,
    Proof,
    Program,
    Commands,
    File,
    Byte,
}

/// What is known of a kind of field.
pub struct Shape {
    name: &'static str,
    field: Field,
    /// The bytes of one number of its list; 0 where the field is a single number.
    pub width: usize,
    /// The most numbers that `readings` takes in its list.
    pub most: usize,
    /// Whether the list is lent to be written in, so that it is printed afterwards.
    pub lent: bool,
}

const fn number(name: &'static str, field: Field) -> Shape {
    shape(name, field, 0, 1, false)
}

const fn shape(name: &'static str, field: Field, width: usize, most: usize, lent: bool) -> Shape {
    Shape {
        name,
        field,
        width,
        most,
        lent,
    }
}

static SHAPES: [Shape; 33] = [
    number("o", Field::Objects),
    number("k", Field::Kinds),
    shape("words", Field::Words, 4, 16_384, false),
    shape("plain", Field::Plain, 4, 16_384, false),
    shape("links", Field::Links, 4, 16_384, true),
    number("set", Field::Set),
    number("word", Field::Word),
    number("node", Field::Node),
    number("kind", Field::Kind),
    number("sign", Field::Sign),
    number("budget", Field::Budget),
    shape("pairs", Field::Pairs, 2, 2_048, false),
    shape("answers", Field::Answers, 1, 2_048, true),
    shape("marks", Field::Marks, 1, 2_048, true),
    shape("list", Field::List, 4, 16_384, true),
    shape("yes", Field::Yes, 8, 20_480, true),
    shape("no", Field::No, 8, 20_480, true),
    shape("filled_yes", Field::FilledYes, 8, 20_480, false),
    shape("filled_no", Field::FilledNo, 8, 20_480, false),
    shape("kept", Field::Kept, 4, 16_384, true),
    shape("dropped", Field::Dropped, 4, 16_384, true),
    shape("table", Field::Table, 1, 32_768, true),
    shape("model", Field::Model, 1, 32_768, false),
    shape("scratch", Field::Scratch, 2, 4_096, true),
    shape("reason", Field::Reason, 2, 4_096, true),
    shape("path", Field::Path, 2, 4_096, false),
    shape("lines", Field::Lines, 4, 16_384, true),
    shape("derivation", Field::Derivation, 4, 16_384, false),
    shape("proof", Field::Proof, 4, 16_384, false),
    shape("program", Field::Program, 4, 16_384, false),
    number("commands", Field::Commands),
    shape("file", Field::File, 1, 32_769, false),
    number("byte", Field::Byte),
];

impl Field {
    /// The field of a name in the table of operations.
    pub fn named(name: &str) -> Field {
        let found = SHAPES.iter().find(|shape| shape.name == name);
        found
            .unwrap_or_else(|| panic!("no kind of field is called {}", name))
            .field
    }

    pub fn shape(self) -> &'static Shape {
        let found = SHAPES.iter().find(|shape| shape.field == self);
        found.expect("every field has a shape")
    }

    pub fn is_list(self) -> bool {
        self.shape().width > 0
    }
}

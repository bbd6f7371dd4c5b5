//! The forms in which units are told: text, JSON and CSV, all from one list of fields.

use crate::answer::{number, Form, Value};
use clap::ValueEnum;
use std::fmt::Display;
use tuzmarghil::Refusal;

#[derive(Clone, Copy, PartialEq, Eq, ValueEnum)]
pub enum Format {
    /// A line of words a unit
    Text,
    /// An object a line
    Json,
    /// A row a unit, a column for each field that a unit can have
    Csv,
}

/// Answer lines: words `name=content`.
pub struct Text<'a> {
    pub to: &'a mut Vec<u8>,
    /// the fields that `tuz cases` does not tell
    pub more: bool,
    /// a refusal in words, for who reads it
    pub why: bool,
}

impl Form for Text<'_> {
    fn kind(&mut self, kind: &'static str) {
        self.to.extend_from_slice(kind.as_bytes());
    }

    fn field(&mut self, name: &'static str, value: Value<'_>) {
        self.to.push(b' ');
        self.to.extend_from_slice(name.as_bytes());
        self.to.push(b'=');
        value.text(self.to);
    }

    fn more(&mut self, name: &'static str, value: Value<'_>) {
        if self.more {
            self.field(name, value);
        }
    }

    /// `tuz cases` tells a set by its word.
    fn word(&mut self, set: &dyn Display) -> bool {
        if !self.more {
            self.to.extend_from_slice(format!(" {set}").as_bytes());
        }
        !self.more
    }

    fn refusal(&mut self, why: Refusal) {
        self.to.push(b' ');
        number(self.to, why.number.into());
        self.field("value", Value::Number(why.value));
        if let Some(bit) = why.bit {
            self.field("bit", Value::Number(bit as i64));
        }
        if self.why {
            self.to.extend_from_slice(b": ");
            Value::Why(why).text(self.to);
        }
    }
}

/// An object: place and length, then the fields.
pub fn json(to: &mut Vec<u8>, place: i64, length: i64, fields: impl FnOnce(&mut Json<'_>)) {
    to.extend_from_slice(b"{\"place\":");
    number(to, place);
    to.extend_from_slice(b",\"length\":");
    number(to, length);
    fields(&mut Json(to));
    to.extend_from_slice(b"}\n");
}

/// Members of an object that has begun.
pub struct Json<'a>(&'a mut Vec<u8>);

impl Form for Json<'_> {
    fn kind(&mut self, kind: &'static str) {
        self.field("answer", Value::Word(kind));
    }

    fn field(&mut self, name: &'static str, value: Value<'_>) {
        self.0.extend_from_slice(b",\"");
        self.0.extend_from_slice(name.as_bytes());
        self.0.extend_from_slice(b"\":");
        value.json(self.0);
    }
}

/// The row of the columns' names.
pub fn head(columns: &[&'static str]) -> String {
    format!("place,length,answer,{}\n", columns.join(","))
}

/// A row: place and length, then the fields in the columns' order.
pub fn row(
    to: &mut Vec<u8>,
    columns: &[&'static str],
    place: i64,
    length: i64,
    fields: impl FnOnce(&mut Row<'_>),
) {
    number(to, place);
    to.push(b',');
    number(to, length);
    let mut row = Row(to, columns);
    fields(&mut row);
    let Row(to, rest) = row;
    to.resize(to.len() + rest.len(), b',');
    to.push(b'\n');
}

/// Cells of a row that has begun, and the columns to come.
pub struct Row<'a>(&'a mut Vec<u8>, &'a [&'static str]);

impl Form for Row<'_> {
    fn kind(&mut self, kind: &'static str) {
        self.0.push(b',');
        self.0.extend_from_slice(kind.as_bytes());
    }

    fn field(&mut self, name: &'static str, value: Value<'_>) {
        let empty = self.1.iter().take_while(|n| **n != name).count();
        self.0.resize(self.0.len() + empty + 1, b',');
        self.1 = self.1.get(empty + 1..).unwrap_or(&[]);
        let start = self.0.len();
        value.text(self.0);
        if self.0[start..].contains(&b',') {
            self.0.insert(start, b'"');
            self.0.push(b'"');
        }
    }
}

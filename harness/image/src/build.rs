//! Adding rows to tables. Every `add` answers the new row's number or the first word's place.

use crate::kinds::*;
use crate::{ABSENT, Tables};

/// A table's next number. Tables are kept below 65,535 rows by those who fill them.
fn number(length: usize) -> u16 {
    length.min(usize::from(ABSENT)) as u16
}

impl Tables {
    pub fn add_type(&mut self, kind: u16, a: u16, b: u16, c: u16, copy: u16) -> u16 {
        self.types.push([kind, a, b, c, copy]);
        number(self.types.len() - 1)
    }

    pub fn add_integer_type(&mut self, size: u16, signed: u16) -> u16 {
        self.add_type(INTEGER, size, signed, 0, 1)
    }

    pub fn add_tuple_type(&mut self, fields: &[u16]) -> u16 {
        let start = self.add_words(fields);
        self.add_type(TUPLE_TYPE, start, number(fields.len()), 0, 1)
    }

    /// A variant with its fields in the list and its discriminant in the data.
    pub fn add_variant(&mut self, fields: &[u16], discriminant: i128) -> u16 {
        let first = self.add_words(fields);
        let offset = self.add_data(&discriminant.to_le_bytes());
        self.variants.push([first, number(fields.len()), offset]);
        number(self.variants.len() - 1)
    }

    pub fn add_adt(&mut self, c: u16, first: u16, count: u16) -> u16 {
        self.add_type(ADT, first, count, c, 0)
    }

    pub fn add_pattern(&mut self, kind: u16, type_: u16, derefs: u16, words: [u16; 4]) -> u16 {
        let [a, b, c, d] = words;
        self.patterns.push([kind, type_, derefs, a, b, c, d]);
        number(self.patterns.len() - 1)
    }

    pub fn add_binding(&mut self, type_: u16, picked: u16) -> u16 {
        self.bindings.push([type_, picked]);
        number(self.bindings.len() - 1)
    }

    pub fn add_words(&mut self, words: &[u16]) -> u16 {
        self.list.extend(words);
        number(self.list.len() - words.len())
    }

    pub fn add_data(&mut self, bytes: &[u8]) -> u16 {
        self.data.extend(bytes);
        number(self.data.len() - bytes.len())
    }

    /// An operand in the list, its bytes in the data.
    pub fn add_operand(&mut self, kind: u16, bytes: &[u8]) -> u16 {
        let offset = self.add_data(bytes);
        self.add_words(&[kind, offset, number(bytes.len())])
    }
}

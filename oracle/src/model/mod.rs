//! The port's rules in plain Rust: slow, and meant to be seen right by reading.
//!
//! Written from the rules alone; nothing here comes from the crate's text or calls it.
//!
//! * `types`: a list of types with their facts, and which of them are the same tree
//! * `tables`: a table in memory and in a file, and where it is at fault
//! * `bits`: bytes as lists of bits, and back
//! * `records`: what a record of a type is: views, both codecs, the cut
//! * `words`: words, buffers and the hash state, as types and as records
//! * `ladder`: refusals, and the tests that give them, one a number
//! * `calls`: every public call, a file for each part of include/calls.list: its tests in the order of the numbers,
//!   then what it does
//!
//! A record is a `Vec<bool>` of the type's width. Bytes and offsets enter in `calls` only, through `bits`.

mod bits;
mod calls;
mod ladder;
mod records;
mod tables;
mod types;
mod words;

pub use ladder::Refusal;
pub use tables::{read_file, Entries};
pub use types::{Shape, Types};

use crate::library::{Answer, Columns, Library, OwnedColumns, Request};
use std::cell::RefCell;
use std::rc::Rc;

/// The model. It remembers the last table it was handed, so as not to judge it again.
#[derive(Default)]
pub struct Model {
    last: RefCell<Option<(OwnedColumns, Result<Rc<Types>, Refusal>)>>,
}

impl Model {
    /// A model that has seen no table.
    pub fn new() -> Model {
        Model::default()
    }

    /// The types of a table in memory, or the refusal that it earns.
    pub fn types(&self, table: &Columns) -> Result<Rc<Types>, Refusal> {
        if let Some((columns, verdict)) = &*self.last.borrow() {
            if columns.lend() == *table {
                return verdict.clone();
            }
        }
        let verdict = tables::judge(table).map(Rc::new);
        let mut columns = OwnedColumns::default();
        columns.copy_from(table);
        *self.last.borrow_mut() = Some((columns, verdict.clone()));
        verdict
    }

    /// A table with its right facts, from sound entries.
    pub fn with_facts(entries: &Entries) -> OwnedColumns {
        tables::with_facts(entries)
    }
}

impl Library for Model {
    fn ask(&self, request: &Request, answer: &mut Answer) {
        answer.start(request);
        if let Err(refusal) = calls::answer(self, request, answer) {
            // A refusal returns number and place only; whatever the call began to write is taken back.
            answer.start(request);
            answer.code = refusal.code();
        }
    }
}

//! The cut.

use super::{bits, put};
use crate::library::{Answer, Request};
use crate::model::ladder::{record_types, records_fit, refuse_if, Test};
use crate::model::records;
use crate::model::types::Types;

pub fn prune(t: &Types, q: &Request, a: &mut Answer) -> Test {
    record_types(t, &[q.a.node, q.node])?;
    records_fit(t, &[q.a])?;
    match records::prune(t, q.a.node as usize, &bits(t, q.a), q.node as usize) {
        Some(record) => put(a, &record),
        None => refuse_if(true, 7),
    }
}

//! Lengths.

use super::{bits, record_stands};
use crate::library::{Answer, Request};
use crate::model::ladder::Test;
use crate::model::records::compact;
use crate::model::types::Types;

pub fn compact_len(t: &Types, q: &Request, a: &mut Answer) -> Test {
    record_stands(t, q.a)?;
    a.values[0] = compact(t, q.a.node as usize, &bits(t, q.a)).len() as u64;
    Ok(())
}

pub fn padded_len(t: &Types, q: &Request, a: &mut Answer) -> Test {
    record_stands(t, q.a)?;
    a.values[0] = t.width(q.a.node as usize);
    Ok(())
}

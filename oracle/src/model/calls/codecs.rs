//! Codecs.

use super::{bits, put, put_read, record_stands, rest};
use crate::library::{Answer, Request};
use crate::model::ladder::{record_types, stream_fits, Test};
use crate::model::records::{compact, read_compact};
use crate::model::types::Types;

pub fn from_compact_bits(t: &Types, q: &Request, a: &mut Answer) -> Test {
    record_types(t, &[q.node])?;
    stream_fits(&q.stream)?;
    put_read(a, read_compact(t, q.node as usize, &rest(q)))
}

pub fn from_padded_bits(t: &Types, q: &Request, a: &mut Answer) -> Test {
    record_types(t, &[q.node])?;
    stream_fits(&q.stream)?;
    let width = t.width(q.node as usize) as usize;
    put_read(a, rest(q).get(..width).map(|record| (record.to_vec(), width)))
}

pub fn to_compact_bits(t: &Types, q: &Request, a: &mut Answer) -> Test {
    record_stands(t, q.a)?;
    put(a, &compact(t, q.a.node as usize, &bits(t, q.a)))
}

pub fn to_padded_bits(t: &Types, q: &Request, a: &mut Answer) -> Test {
    record_stands(t, q.a)?;
    put(a, &bits(t, q.a))
}

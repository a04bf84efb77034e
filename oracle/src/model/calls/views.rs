//! Views of a record.

use super::{bits, record_stands};
use crate::library::{Answer, Request};
use crate::model::ladder::{places, refuse_if, Test};
use crate::model::records::payload_start;
use crate::model::types::{Shape, Types};

fn side_view(t: &Types, q: &Request, a: &mut Answer, tag: bool) -> Test {
    record_stands(t, q.a)?;
    let node = q.a.node as usize;
    let Shape::Sum(l, r) = t.shape(node) else { return refuse_if(true, 7) };
    refuse_if(bits(t, q.a)[0] != tag, 7)?;
    places(q.values, 2)?;
    let side = if tag { r } else { l };
    a.values[..2].copy_from_slice(&[q.a.offset + payload_start(t, node, side) as u64, side as u64]);
    Ok(())
}

pub fn as_left(t: &Types, q: &Request, a: &mut Answer) -> Test {
    side_view(t, q, a, false)
}

pub fn as_right(t: &Types, q: &Request, a: &mut Answer) -> Test {
    side_view(t, q, a, true)
}

pub fn as_product(t: &Types, q: &Request, a: &mut Answer) -> Test {
    record_stands(t, q.a)?;
    let Shape::Product(l, r) = t.shape(q.a.node as usize) else { return refuse_if(true, 7) };
    places(q.values, 4)?;
    a.values[..4].copy_from_slice(&[q.a.offset, l as u64, q.a.offset + t.width(l), r as u64]);
    Ok(())
}

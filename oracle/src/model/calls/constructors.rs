//! Constructors.

use super::{bits, put};
use crate::library::{Answer, Request};
use crate::model::ladder::{record_types, records_fit, refuse_if, Test};
use crate::model::records::make_sum;
use crate::model::types::{Shape, Types};

pub fn unit(t: &Types, q: &Request, a: &mut Answer) -> Test {
    record_types(t, &[q.node])?;
    refuse_if(t.shape(q.node as usize) != Shape::Unit, 7)?;
    put(a, &[])
}

fn side(t: &Types, q: &Request, a: &mut Answer, tag: bool) -> Test {
    record_types(t, &[q.a.node, q.node])?;
    records_fit(t, &[q.a])?;
    let Shape::Sum(l, r) = t.shape(q.node as usize) else { return refuse_if(true, 7) };
    refuse_if(!t.same(q.a.node as usize, if tag { r } else { l }), 7)?;
    put(a, &make_sum(t, q.node as usize, tag, &bits(t, q.a)))
}

pub fn left(t: &Types, q: &Request, a: &mut Answer) -> Test {
    side(t, q, a, false)
}

pub fn right(t: &Types, q: &Request, a: &mut Answer) -> Test {
    side(t, q, a, true)
}

pub fn product(t: &Types, q: &Request, a: &mut Answer) -> Test {
    record_types(t, &[q.a.node, q.b.node, q.node])?;
    records_fit(t, &[q.a, q.b])?;
    let Shape::Product(l, r) = t.shape(q.node as usize) else { return refuse_if(true, 7) };
    refuse_if(!t.same(q.a.node as usize, l) || !t.same(q.b.node as usize, r), 7)?;
    put(a, &[bits(t, q.a), bits(t, q.b)].concat())
}

pub fn none(t: &Types, q: &Request, a: &mut Answer) -> Test {
    record_types(t, &[q.node])?;
    let Shape::Sum(l, _) = t.shape(q.node as usize) else { return refuse_if(true, 7) };
    refuse_if(t.shape(l) != Shape::Unit, 7)?;
    put(a, &make_sum(t, q.node as usize, false, &[]))
}

pub fn some(t: &Types, q: &Request, a: &mut Answer) -> Test {
    record_types(t, &[q.a.node, q.node])?;
    records_fit(t, &[q.a])?;
    let Shape::Sum(l, r) = t.shape(q.node as usize) else { return refuse_if(true, 7) };
    refuse_if(t.shape(l) != Shape::Unit || !t.same(q.a.node as usize, r), 7)?;
    put(a, &make_sum(t, q.node as usize, true, &bits(t, q.a)))
}

pub fn zero(t: &Types, q: &Request, a: &mut Answer) -> Test {
    record_types(t, &[q.node])?;
    put(a, &vec![false; t.width(q.node as usize) as usize])
}

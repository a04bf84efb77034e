//! Questions about types.

use super::one_type;
use crate::library::{Answer, Request};
use crate::model::ladder::{nodes_exist, places, refuse_if, Test};
use crate::model::types::{Shape, Types};

fn two_types(t: &Types, q: &Request, a: &mut Answer, question: impl Fn(usize, usize) -> u64) -> Test {
    nodes_exist(t, &[q.node, q.other])?;
    a.values[0] = question(q.node as usize, q.other as usize);
    Ok(())
}

const SUM: u64 = 1;
const PRODUCT: u64 = 2;

/// The kind's number and the sides, as the columns have them.
fn kind_and_sides(shape: Shape) -> [u64; 3] {
    match shape {
        Shape::Unit => [0, 0, 0],
        Shape::Sum(l, r) => [SUM, l as u64, r as u64],
        Shape::Product(l, r) => [PRODUCT, l as u64, r as u64],
    }
}

pub fn facts_of(t: &Types, q: &Request, a: &mut Answer) -> Test {
    nodes_exist(t, &[q.node])?;
    places(q.values, 8)?;
    let node = q.node as usize;
    let [kind, left, right] = kind_and_sides(t.shape(node));
    let (padded, class) = (u64::from(t.padded(node)), t.class(node) as u64);
    let facts = [t.width(node), t.size(node), padded, class, kind, left, right, t.least(node)];
    a.values[..8].copy_from_slice(&facts);
    Ok(())
}

pub fn same_type(t: &Types, q: &Request, a: &mut Answer) -> Test {
    two_types(t, q, a, |x, y| u64::from(t.same(x, y)))
}

pub fn is_unit(t: &Types, q: &Request, a: &mut Answer) -> Test {
    one_type(t, q, a, |x| u64::from(t.shape(x) == Shape::Unit))
}

pub fn is_empty(t: &Types, q: &Request, a: &mut Answer) -> Test {
    one_type(t, q, a, |x| u64::from(t.width(x) == 0))
}

fn sides(t: &Types, q: &Request, a: &mut Answer, asked: u64) -> Test {
    nodes_exist(t, &[q.node])?;
    let [kind, left, right] = kind_and_sides(t.shape(q.node as usize));
    refuse_if(kind != asked, 7)?;
    places(q.values, 2)?;
    a.values[..2].copy_from_slice(&[left, right]);
    Ok(())
}

pub fn type_as_sum(t: &Types, q: &Request, a: &mut Answer) -> Test {
    sides(t, q, a, SUM)
}

pub fn type_as_product(t: &Types, q: &Request, a: &mut Answer) -> Test {
    sides(t, q, a, PRODUCT)
}

pub fn pad_left(t: &Types, q: &Request, a: &mut Answer) -> Test {
    two_types(t, q, a, |x, y| t.width(x).max(t.width(y)) - t.width(x))
}

pub fn pad_right(t: &Types, q: &Request, a: &mut Answer) -> Test {
    two_types(t, q, a, |x, y| t.width(x).max(t.width(y)) - t.width(y))
}

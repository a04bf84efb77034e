//! Comparison.

use super::bits;
use crate::library::{Answer, Request};
use crate::model::ladder::{record_types, records_fit, Refusal, Test};
use crate::model::types::Types;
use std::cmp::Ordering;

/// The order of two records: by class, then by bits.
fn order(t: &Types, q: &Request) -> Result<Ordering, Refusal> {
    record_types(t, &[q.a.node, q.b.node])?;
    records_fit(t, &[q.a, q.b])?;
    let classes = (t.class(q.a.node as usize), t.class(q.b.node as usize));
    Ok(classes.0.cmp(&classes.1).then_with(|| bits(t, q.a).cmp(&bits(t, q.b))))
}

pub fn equal(t: &Types, q: &Request, a: &mut Answer) -> Test {
    a.values[0] = u64::from(order(t, q)?.is_eq());
    Ok(())
}

pub fn compare(t: &Types, q: &Request, a: &mut Answer) -> Test {
    a.values[0] = match order(t, q)? {
        Ordering::Less => 0,
        Ordering::Equal => 1,
        Ordering::Greater => 2,
    };
    Ok(())
}

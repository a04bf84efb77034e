//! What a record of a type is: a list of bits as long as the type is wide. No bytes and no offsets here.
//!
//! Sum: a tag (false left, true right), padding up to the larger side, the payload at the end. Product: left, right.

use super::types::{Shape, Types};

/// Where a sum's payload starts: after the tag and the padding.
pub fn payload_start(t: &Types, sum: usize, side: usize) -> usize {
    (t.width(sum) - t.width(side)) as usize
}

/// The tag and the payload with its type, if the record is one of a sum.
fn open_sum<'r>(t: &Types, node: usize, record: &'r [bool]) -> Option<(bool, usize, &'r [bool])> {
    let Shape::Sum(l, r) = t.shape(node) else { return None };
    let tag = record[0];
    let side = if tag { r } else { l };
    Some((tag, side, &record[payload_start(t, node, side)..]))
}

/// The two halves with their types, if the record is one of a product.
fn open_product<'r>(t: &Types, node: usize, record: &'r [bool]) -> Option<(usize, &'r [bool], usize, &'r [bool])> {
    let Shape::Product(l, r) = t.shape(node) else { return None };
    let (left, right) = record.split_at(t.width(l) as usize);
    Some((l, left, r, right))
}

/// A record of the sum type `node`: tag, zero padding, payload.
pub fn make_sum(t: &Types, node: usize, tag: bool, payload: &[bool]) -> Vec<bool> {
    let padding = t.width(node) as usize - 1 - payload.len();
    let mut record = vec![tag];
    record.extend(vec![false; padding]);
    record.extend(payload);
    record
}

/// The compact bits: the tags met on the walk, left before right.
pub fn compact(t: &Types, node: usize, record: &[bool]) -> Vec<bool> {
    if let Some((tag, side, payload)) = open_sum(t, node, record) {
        let mut bits = vec![tag];
        bits.extend(compact(t, side, payload));
        bits
    } else if let Some((l, left, r, right)) = open_product(t, node, record) {
        let mut bits = compact(t, l, left);
        bits.extend(compact(t, r, right));
        bits
    } else {
        Vec::new()
    }
}

/// Reads a record from compact bits at the head of `stream`: the record, and how many bits it took.
/// None if the stream ends early.
pub fn read_compact(t: &Types, node: usize, stream: &[bool]) -> Option<(Vec<bool>, usize)> {
    match t.shape(node) {
        Shape::Unit => Some((Vec::new(), 0)),
        Shape::Sum(l, r) => {
            let (tag, rest) = stream.split_first()?;
            let (payload, taken) = read_compact(t, if *tag { r } else { l }, rest)?;
            Some((make_sum(t, node, *tag, &payload), 1 + taken))
        }
        Shape::Product(l, r) => {
            let (mut record, taken_left) = read_compact(t, l, stream)?;
            let (right, taken_right) = read_compact(t, r, &stream[taken_left..])?;
            record.extend(right);
            Some((record, taken_left + taken_right))
        }
    }
}

/// The cut of a record to the type `target`. None is wrong shape.
pub fn prune(t: &Types, node: usize, record: &[bool], target: usize) -> Option<Vec<bool>> {
    if t.same(node, target) {
        return Some(record.to_vec());
    }
    match t.shape(target) {
        Shape::Unit => Some(Vec::new()),
        Shape::Sum(l, r) => {
            let (tag, side, payload) = open_sum(t, node, record)?;
            let cut = prune(t, side, payload, if tag { r } else { l })?;
            Some(make_sum(t, target, tag, &cut))
        }
        Shape::Product(l, r) => {
            let (own_l, left, own_r, right) = open_product(t, node, record)?;
            let mut cut = prune(t, own_l, left, l)?;
            cut.extend(prune(t, own_r, right, r)?);
            Some(cut)
        }
    }
}

//! Whether the crate's text says what the rules say, and if not, which listed difference explains it.
//!
//! A difference counts as listed only if the text answers exactly what the entry predicts.

use crate::library::{Answer, Call, Request};
use crate::published::{Published, Said};
use std::cmp::Ordering;

/// The differences between rules and text that a comparison may meet, as docs/DIFFERENCES.md numbers them.
#[derive(Clone, Copy, PartialEq, Eq, Debug)]
pub enum Listed {
    /// Equality and order read the bits after the record, up to the end of its last byte.
    NeighbourBits,
    /// Values of different types are ordered by Merkle root.
    OrderOfTypes,
    /// After an early end the crate's iterator has moved.
    MovedIterator,
}

impl Listed {
    pub const ALL: [Listed; 3] = [Listed::NeighbourBits, Listed::OrderOfTypes, Listed::MovedIterator];

    pub fn title(self) -> &'static str {
        match self {
            Listed::NeighbourBits => "equality and order read the neighbour's bits in the last byte",
            Listed::OrderOfTypes => "values of different types are ordered by Merkle root",
            Listed::MovedIterator => "the iterator has moved after an early end",
        }
    }
}

/// Agreement, or the listed difference, or a difference beyond the list with what the text said.
#[derive(Clone, PartialEq, Eq, Debug)]
pub enum Verdict {
    /// The text has no answer to such a request.
    NoAnswer,
    Agrees,
    Differs(Listed),
    Beyond(String),
}

/// Compares the text's answer to a request with the expected one.
pub fn judge(published: &Published, q: &Request, expected: &Answer) -> Verdict {
    if !matches!(expected.number(), 0 | 6 | 7 | 8) {
        return Verdict::NoAnswer;
    }
    let said = published.ask(q);
    let of_different_types = q.call == Call::Compare && expected.code == 0 && !same_class(q);
    match said {
        Said::Nothing => Verdict::NoAnswer,
        // The order of roots is the stand-in's, so only "not equal" is the crate's own answer.
        Said::Values(ref values) if of_different_types && values[0] != 1 => Verdict::Differs(Listed::OrderOfTypes),
        Said::Refuses if expected.code != 0 => Verdict::Agrees,
        _ if expected.code == 0 && !of_different_types && agrees(q, expected, &said) => Verdict::Agrees,
        other => Verdict::Beyond(format!("{other:?}")),
    }
}

/// Whether an accepted answer is the text's.
fn agrees(q: &Request, expected: &Answer, said: &Said) -> bool {
    let accepted = &expected.values[..q.call.value_count()];
    match said {
        Said::Nothing | Said::Refuses => false,
        Said::Values(values) if q.call == Call::FactsOf => values[..] == [accepted[0], accepted[2], accepted[3]],
        Said::Values(values) => values[..] == *accepted,
        Said::Bits(bytes, count) => match q.call {
            Call::AsLeft | Call::AsRight | Call::AsProduct => viewed(q, accepted) == first_bits(bytes, *count),
            _ => expected.out[..bytes.len()] == bytes[..] && accepted[0] == *count,
        },
        Said::Read(bytes, _, read) => {
            expected.out[..bytes.len()] == bytes[..] && expected.position == q.stream.position + read
        }
    }
}

/// Equality and order of two records where they stand. The text must answer what whole last bytes give.
pub fn judge_in_place(published: &Published, q: &Request, expected: &Answer) -> Verdict {
    let (equal, order) = published.compare_in_place(q);
    let by_bytes = whole_bytes(q, true).cmp(&whole_bytes(q, false));
    let (said, predicted) = match q.call {
        Call::Equal => (u64::from(equal), u64::from(same_class(q) && by_bytes == Ordering::Equal)),
        Call::Compare if same_class(q) => ((order as i8 + 1) as u64, (by_bytes as i8 + 1) as u64),
        _ => return Verdict::NoAnswer,
    };
    if said != predicted {
        Verdict::Beyond(format!("{said} in place, where whole bytes give {predicted}"))
    } else if said != expected.values[0] {
        Verdict::Differs(Listed::NeighbourBits)
    } else {
        Verdict::Agrees
    }
}

fn same_class(q: &Request) -> bool {
    q.table.facts(q.a.node as usize).class == q.table.facts(q.b.node as usize).class
}

/// The bits that accepted views show, one view after the other.
fn viewed(q: &Request, accepted: &[u64]) -> Vec<bool> {
    let mut bits = Vec::new();
    for view in accepted.chunks_exact(2) {
        let end = view[0] + q.table.facts(view[1] as usize).width;
        bits.extend((view[0]..end).map(|i| bit(q.a.bytes, i)));
    }
    bits
}

fn bit(bytes: &[u8], i: u64) -> bool {
    bytes[(i / 8) as usize] >> (7 - i % 8) & 1 == 1
}

fn first_bits(bytes: &[u8], count: u64) -> Vec<bool> {
    (0..count).map(|i| bit(bytes, i)).collect()
}

/// A record's bits and those after it up to a whole number of bytes, as they lie; zero past the end of the bytes.
fn whole_bytes(q: &Request, first: bool) -> Vec<bool> {
    let record = if first { q.a } else { q.b };
    let width = q.table.facts(record.node as usize).width;
    let end = 8 * record.bytes.len() as u64;
    let last = record.offset + width.next_multiple_of(8);
    (record.offset..last).map(|i| i < end && bit(record.bytes, i)).collect()
}

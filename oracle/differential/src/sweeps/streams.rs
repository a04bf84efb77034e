//! Readers: every small type, every stream of up to one bit more than its width, at eight positions; and the exact
//! meaning of refusal 8, by listing every record of the type.

use super::{before, bytes_for, placed, Size};
use crate::run::Run;
use oracle::library::{Answer, Call, Library, OwnedColumns, Record, Request, Stream};
use oracle::supply::{crossed_trees, trees_up_to};

pub fn sweep(run: &mut Run, size: &Size) {
    let mut random = size.random(40);
    let out = before(8);
    let trees = [trees_up_to(size.pick(4, 5) as usize), crossed_trees()].concat();
    for (number, tree) in trees.iter().enumerate() {
        let alone = super::alone(tree, number % 2 == 1);
        let codes = all_codes(run, &alone.table, alone.node, alone.width);
        for length in 0..=alone.width + 1 {
            for pattern in 0..1u64 << length {
                for position in 0..8 {
                    let after = random.below(2) as usize;
                    let bytes = placed(&mut random, pattern, length, position, after);
                    let stream = Stream { bytes: &bytes, length: position + length, position };
                    let room = random.below(4) as usize;
                    for call in [Call::FromCompactBits, Call::FromPaddedBits] {
                        let q = Request {
                            stream,
                            node: alone.node,
                            out: &out[..room],
                            ..Request::new(call, alone.table.lend())
                        };
                        let refused_early = run.check(&q).number() == 8;
                        if refused_early {
                            run.note_moved_iterator(&q);
                        }
                        let some_record_begins = match call {
                            Call::FromPaddedBits => length >= alone.width,
                            _ => codes.iter().any(|code| begins(code, pattern, length)),
                        };
                        if refused_early == some_record_begins {
                            run.model_fault(&q, "8 exactly if no record's bits begin the stream");
                        }
                        run.check(&Request { out: &out[..bytes_for(alone.width)], ..q });
                    }
                }
            }
        }
    }
}

/// The compact bits of every record of a type, by the model's writer.
fn all_codes(run: &Run, table: &OwnedColumns, node: u64, width: u64) -> Vec<(u64, u64)> {
    let mut answer = Answer::default();
    let mut codes = Vec::new();
    for pattern in 0..1u64 << width {
        let bytes = placed(&mut oracle::supply::Random::new(0), pattern, width, 0, 0);
        let a = Record { bytes: &bytes, offset: 0, node };
        let q = Request { a, out: &[0; 8], ..Request::new(Call::ToCompactBits, table.lend()) };
        run.model.ask(&q, &mut answer);
        let code = u64::from_be_bytes(answer.out[..8].try_into().expect("eight bytes"));
        codes.push((code, answer.values[0]));
    }
    codes
}

/// Whether a code (its bits at the top, and their count) begins a stream of `length` bits.
fn begins(code: &(u64, u64), pattern: u64, length: u64) -> bool {
    let (bits, count) = *code;
    count <= length && (count == 0 || bits >> (64 - count) == pattern >> (length - count))
}

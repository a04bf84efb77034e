//! The crate's text asked for the same answers, where it has one.
//!
//! A record at bit offset k of some bytes becomes a `Value` that stands at bit k modulo 64 of its own bytes, with
//! the true bits before and after it: the value is read as the middle of a triple and then looked at through
//! `as_product`. So the crate meets the same alignments and the same neighbours.
//!
//! * `Published`: the crate's types for the last table
//! * `Said`: what the crate answers to one request

use crate::library::{Call, Columns, OwnedColumns, Record, Request};
use crate::types::Final;
use crate::{BitCollector, BitIter, Tmr, Value, Word};
use std::cell::RefCell;
use std::cmp::Ordering;
use std::panic::{catch_unwind, AssertUnwindSafe};
use std::rc::Rc;
use std::sync::Arc;

/// What the crate answers.
#[derive(Clone, Debug, PartialEq, Eq)]
pub enum Said {
    /// It has no such call, or none for such input.
    Nothing,
    /// `None`, an error or a panic, or a value of another type than the one named.
    Refuses,
    /// Numbers, in the order of the port's accepted values.
    Values(Vec<u64>),
    /// Bits as whole bytes (zero after the last) and their count.
    Bits(Vec<u8>, u64),
    /// The same, and how many bits of the stream were read.
    Read(Vec<u8>, u64, u64),
}

/// The crate's types for the tables it is asked about.
#[derive(Default)]
pub struct Published {
    last: RefCell<Option<(OwnedColumns, Rc<Vec<Arc<Final>>>)>>,
    /// A type of each width up to 64, for what stands before and after a record.
    fill: RefCell<Vec<Arc<Final>>>,
}

const MOST_BEFORE: u64 = 64;
const MOST_AFTER: u64 = 16;

impl Published {
    pub fn new() -> Published {
        Published::default()
    }

    /// The crate's type of every node of a sound table.
    pub fn types(&self, table: &Columns) -> Rc<Vec<Arc<Final>>> {
        if let Some((columns, types)) = &*self.last.borrow() {
            if columns.lend() == *table {
                return Rc::clone(types);
            }
        }
        let mut types: Vec<Arc<Final>> = Vec::new();
        for node in 0..table.count as usize {
            let side = |side: u16| Arc::clone(&types[usize::from(side)]);
            let ty = match table.kinds[node] {
                0 => Final::unit(),
                1 => Final::sum(side(table.lefts[node]), side(table.rights[node])),
                _ => Final::product(side(table.lefts[node]), side(table.rights[node])),
            };
            types.push(ty);
        }
        let types = Rc::new(types);
        let mut columns = OwnedColumns::default();
        columns.copy_from(table);
        *self.last.borrow_mut() = Some((columns, Rc::clone(&types)));
        types
    }

    /// A type of `width` bits.
    fn filler(&self, width: u64) -> Arc<Final> {
        let mut fill = self.fill.borrow_mut();
        if fill.is_empty() {
            fill.push(Final::unit());
        }
        while fill.len() as u64 <= width {
            let next = Final::product(Arc::clone(fill.last().expect("not empty")), Final::u1());
            fill.push(next);
        }
        Arc::clone(&fill[width as usize])
    }

    /// The record as a value among its neighbours. It lies within its bytes.
    pub fn value(&self, types: &[Arc<Final>], record: Record) -> Value {
        let ty = &types[record.node as usize];
        let width = ty.bit_width() as u64;
        let before = record.offset % MOST_BEFORE;
        let end = record.offset + width;
        let after = (8 * record.bytes.len() as u64 - end).min(MOST_AFTER);
        let middle = Final::product(Arc::clone(ty), self.filler(after));
        let whole = Final::product(self.filler(before), middle);
        let mut bits = BitIter::window(record.bytes, (record.offset - before) as usize, (end + after) as usize);
        let whole = Value::from_padded_bits(&mut bits, &whole).expect("the window is as wide as the type");
        let (_, middle) = whole.as_product().expect("a product");
        let (own, _) = middle.as_product().expect("a product");
        own.to_value()
    }

    /// The record as a value alone: at bit 0 of its own bytes, zero bits after it.
    fn value_alone(&self, types: &[Arc<Final>], record: Record) -> Value {
        let ty = &types[record.node as usize];
        let end = record.offset as usize + ty.bit_width();
        let mut bits = BitIter::window(record.bytes, record.offset as usize, end);
        Value::from_padded_bits(&mut bits, ty).expect("the window is as wide as the type")
    }

    /// Equality and order as the crate gives them for the records where they stand, neighbours and all.
    pub fn compare_in_place(&self, q: &Request) -> (bool, Ordering) {
        let types = self.types(&q.table);
        let (a, b) = (self.value(&types, q.a), self.value(&types, q.b));
        (a == b, a.cmp(&b))
    }

    /// What the crate answers to a request that passes 1 to 5 of the ladder.
    pub fn ask(&self, q: &Request) -> Said {
        let types = match q.call {
            Call::ReadTable | Call::FillFacts | Call::CheckTable => return Said::Nothing,
            Call::WordWidth => return of_type(Final::two_two_n(q.n as usize).ok()),
            Call::BufferWidth => return of_type(Final::buffer8_two_n_plus_one(q.n as usize).ok()),
            _ => self.types(&q.table),
        };
        let named = |node: u64| &types[node as usize];
        let number_of = |ty: &Arc<Final>, among: [u16; 2]| {
            among.into_iter().find(|node| Arc::ptr_eq(&types[usize::from(*node)], ty)).map(u64::from)
        };
        let value = |record: Record| self.value(&types, record);
        let made = |value: Value| made_as(value, named(q.node));
        match q.call {
            Call::ReadTable | Call::FillFacts | Call::CheckTable | Call::WordWidth | Call::BufferWidth => {
                unreachable!("answered above")
            }
            Call::FactsOf => {
                let ty = named(q.node);
                let class = types.iter().position(|other| other == ty).expect("itself at least");
                Said::Values(vec![ty.bit_width() as u64, u64::from(ty.has_padding()), class as u64])
            }
            Call::SameType => yes_no(named(q.node) == named(q.other)),
            Call::IsUnit => yes_no(named(q.node).is_unit()),
            Call::IsEmpty => yes_no(named(q.node).is_empty()),
            Call::TypeAsSum | Call::TypeAsProduct => {
                let ty = named(q.node);
                let sides = if q.call == Call::TypeAsSum { ty.as_sum() } else { ty.as_product() };
                let node = q.node as usize;
                let columns = [q.table.lefts[node], q.table.rights[node]];
                match sides {
                    None => Said::Refuses,
                    Some((l, r)) => {
                        let (l, r) = (number_of(l, [columns[0]; 2]), number_of(r, [columns[1]; 2]));
                        Said::Values(vec![l.expect("the left side"), r.expect("the right side")])
                    }
                }
            }
            Call::PadLeft => Said::Values(vec![named(q.node).pad_left(named(q.other)) as u64]),
            Call::PadRight => Said::Values(vec![named(q.node).pad_right(named(q.other)) as u64]),
            Call::AsWord => named(q.node).as_word().map_or(Said::Refuses, |n| Said::Values(vec![u64::from(n)])),
            Call::IsBuffer8 => match Final::buffer8_two_n_plus_one(q.n as usize) {
                Ok(ty) => yes_no(*named(q.node) == ty),
                Err(_) => Said::Refuses,
            },
            Call::IsCtx8 => yes_no(*named(q.node) == Final::ctx8()),
            Call::AsLeft | Call::AsRight | Call::AsProduct => self.views(&types, q),
            Call::Equal => yes_no(self.value_alone(&types, q.a) == self.value_alone(&types, q.b)),
            Call::Compare => {
                let order = self.value_alone(&types, q.a).cmp(&self.value_alone(&types, q.b));
                Said::Values(vec![(order as i8 + 1) as u64])
            }
            Call::CompactLen => Said::Values(vec![value(q.a).compact_len() as u64]),
            Call::PaddedLen => Said::Values(vec![value(q.a).padded_len() as u64]),
            Call::Unit => made(Value::unit()),
            Call::Left => match named(q.node).as_sum() {
                Some((_, right)) => made(Value::left(value(q.a), Arc::clone(right))),
                None => Said::Refuses,
            },
            Call::Right => match named(q.node).as_sum() {
                Some((left, _)) => made(Value::right(Arc::clone(left), value(q.a))),
                None => Said::Refuses,
            },
            Call::Product => made(Value::product(value(q.a), value(q.b))),
            Call::None => match named(q.node).as_sum() {
                Some((_, right)) => made(Value::none(Arc::clone(right))),
                None => Said::Refuses,
            },
            Call::Some => made(Value::some(value(q.a))),
            Call::Zero => made(Value::zero(named(q.node))),
            Call::U1 | Call::U2 | Call::U4 => match u8::try_from(q.n) {
                Ok(number) => or_panic(|| match q.call {
                    Call::U1 => Value::u1(number),
                    Call::U2 => Value::u2(number),
                    _ => Value::u4(number),
                })
                .map_or(Said::Refuses, made),
                Err(_) => Said::Nothing,
            },
            Call::U8 => fixed(q.data, |b: [u8; 1]| Value::u8(b[0])).map_or(Said::Nothing, made),
            Call::U16 => fixed(q.data, |b| Value::u16(u16::from_be_bytes(b))).map_or(Said::Nothing, made),
            Call::U32 => fixed(q.data, |b| Value::u32(u32::from_be_bytes(b))).map_or(Said::Nothing, made),
            Call::U64 => fixed(q.data, |b| Value::u64(u64::from_be_bytes(b))).map_or(Said::Nothing, made),
            Call::U128 => fixed(q.data, |b| Value::u128(u128::from_be_bytes(b))).map_or(Said::Nothing, made),
            Call::U256 => fixed(q.data, Value::u256).map_or(Said::Nothing, made),
            Call::U512 => fixed(q.data, Value::u512).map_or(Said::Nothing, made),
            Call::FromByteArray => match byte_array(q.data) {
                Some(outcome) => outcome.map_or(Said::Refuses, made),
                None => Said::Nothing,
            },
            Call::WordProduct => {
                let joined = match (value(q.a).to_word(), value(q.b).to_word()) {
                    (Some(a), Some(b)) => a.product(b),
                    _ => None,
                };
                joined.map_or(Said::Refuses, |word| made(word.as_value().shallow_clone()))
            }
            Call::Buffer8TwoNPlusOne => Value::buffer8_two_n_plus_one(q.n as usize, q.data).map_or(Said::Refuses, made),
            Call::Ctx8 => match <[u8; 32]>::try_from(q.data) {
                Ok(midstate) => Value::ctx8(midstate, q.n, q.buffer).map_or(Said::Refuses, made),
                Err(_) => Said::Nothing,
            },
            Call::WordFromBits | Call::FromCompactBits | Call::FromPaddedBits => read(&types, q),
            Call::ToCompactBits => {
                let (bytes, count) = value(q.a).iter_compact().collect_bits();
                Said::Bits(bytes, count as u64)
            }
            Call::ToPaddedBits => {
                let (bytes, count) = value(q.a).iter_padded().collect_bits();
                Said::Bits(bytes, count as u64)
            }
            Call::Prune => value(q.a).prune(named(q.node)).map_or(Said::Refuses, made),
        }
    }

    /// How far the views of a record lie from its start, by the crate's `Debug` text; None where it has no view.
    pub fn view_distances(&self, q: &Request) -> Option<Vec<u64>> {
        let value = self.value(&self.types(&q.table), q.a);
        let views = match q.call {
            Call::AsLeft => vec![value.as_left()?],
            Call::AsRight => vec![value.as_right()?],
            _ => {
                let (l, r) = value.as_product()?;
                vec![l, r]
            }
        };
        let start = offset_in_debug_text(&value);
        Some(views.iter().map(|view| offset_in_debug_text(&view.to_value()) - start).collect())
    }

    /// The views. The crate hides a value's offset; it is told by the bits that the view shows, so a view is
    /// answered as its padded bits (of a product, both views' bits).
    fn views(&self, types: &[Arc<Final>], q: &Request) -> Said {
        let value = self.value(types, q.a);
        let shown = match q.call {
            Call::AsLeft => value.as_left().map(|v| v.iter_padded().collect::<Vec<bool>>()),
            Call::AsRight => value.as_right().map(|v| v.iter_padded().collect()),
            _ => value.as_product().map(|(l, r)| l.iter_padded().chain(r.iter_padded()).collect()),
        };
        match shown {
            Some(bits) => {
                let (bytes, count) = bits.into_iter().collect_bits();
                Said::Bits(bytes, count as u64)
            }
            None => Said::Refuses,
        }
    }
}

/// The bit offset that the crate's `Debug` text shows of a value: the only way to see it from outside.
fn offset_in_debug_text(value: &Value) -> u64 {
    let text = format!("{value:?}");
    let (_, after) = text.rsplit_once("raw_bit_offset: ").expect("the text names the offset");
    let digits: String = after.chars().take_while(char::is_ascii_digit).collect();
    digits.parse().expect("a number follows")
}

/// How far the crate's iterator has moved after it met an early end, if it did.
pub fn moved_by_early_end(types: &[Arc<Final>], q: &Request) -> Option<u64> {
    let mut bits = BitIter::window(q.stream.bytes, q.stream.position as usize, q.stream.length as usize);
    let ty = &types[q.node as usize];
    let read = match q.call {
        Call::FromPaddedBits => Value::from_padded_bits(&mut bits, ty),
        _ => Value::from_compact_bits(&mut bits, ty),
    };
    read.is_err().then(|| bits.n_total_read() as u64)
}

fn read(types: &[Arc<Final>], q: &Request) -> Said {
    let mut bits = BitIter::window(q.stream.bytes, q.stream.position as usize, q.stream.length as usize);
    let ty = &types[q.node as usize];
    let value = match q.call {
        Call::FromPaddedBits => Value::from_padded_bits(&mut bits, ty).ok(),
        Call::FromCompactBits => Value::from_compact_bits(&mut bits, ty).ok(),
        _ => {
            if q.n <= 31 && ty.as_word().map(u64::from) != Some(q.n) {
                return Said::Refuses; // The crate is told n alone; the node is the port's.
            }
            let n = u32::try_from(q.n).unwrap_or(u32::MAX);
            let word = or_panic(|| Word::from_bits(&mut bits, n));
            word.and_then(Result::ok).map(|word| word.as_value().shallow_clone())
        }
    };
    match value {
        Some(value) if value.is_of_type(ty) => {
            let (bytes, count) = value.iter_padded().collect_bits();
            Said::Read(bytes, count as u64, bits.n_total_read() as u64)
        }
        _ => Said::Refuses,
    }
}

fn of_type(ty: Option<Arc<Final>>) -> Said {
    ty.map_or(Said::Refuses, |ty| Said::Values(vec![ty.bit_width() as u64]))
}

fn yes_no(answer: bool) -> Said {
    Said::Values(vec![u64::from(answer)])
}

/// A constructor's value: its bits, if it is of the type that the port names.
fn made_as(value: Value, ty: &Final) -> Said {
    if !value.is_of_type(ty) {
        return Said::Refuses;
    }
    let (bytes, count) = value.iter_padded().collect_bits();
    Said::Bits(bytes, count as u64)
}

/// The outcome, or None if the crate panics.
fn or_panic<T>(call: impl FnOnce() -> T) -> Option<T> {
    catch_unwind(AssertUnwindSafe(call)).ok()
}

/// A fixed word from exactly as many bytes; the crate's types allow no other number.
fn fixed<const N: usize>(data: &[u8], make: impl FnOnce([u8; N]) -> Value) -> Option<Value> {
    <[u8; N]>::try_from(data).ok().map(make)
}

/// The lengths at which the crate's byte-array constructor is instantiated here, with its outcome at `data`'s.
/// The outer None: not instantiated at this length. The inner None: it panics.
fn byte_array(data: &[u8]) -> Option<Option<Value>> {
    macro_rules! at_lengths {
        ($($n:literal)*) => {
            match data.len() {
                $($n => {
                    let array = <[u8; $n]>::try_from(data).expect("the length just matched");
                    Some(or_panic(|| Value::from_byte_array(array)))
                })*
                _ => None,
            }
        };
    }
    at_lengths!(0 1 2 3 4 5 6 7 8 9 12 15 16 17 24 31 32 33 48 63 64 65 100 127 128 129 256 512 1024 2048 4096 8192
        16384 32768 65536)
}

/// The roots that the constant lists name are those of the types built by the rules; asked once by the runs.
pub fn lists_are_consistent() -> bool {
    let words = (0..32).all(|n| Final::two_two_n(n).expect("n below 32").tmr() == Tmr::TWO_TWO_N[n]);
    let buffers = Tmr::BUFFER8_TWO_N_PLUS_ONE
        .iter()
        .enumerate()
        .all(|(n, root)| Final::buffer8_two_n_plus_one(n).expect("within the list").tmr() == *root);
    words && buffers
}

//! What the tests on the raw layer share: a table with a type of every sort, a world of everything that a call can be
//! handed, and all calls with what each looks at. A call that does not accept a new world has a line in `make_good`.

#![allow(dead_code)]

use quelomavunt::raw::{self, Columns, ColumnsMut, GROUP_BYTES, RawRecord};

/// A table with its facts, and the nodes that the tests name.
#[derive(Clone, PartialEq, Debug)]
pub struct Zoo {
    pub kinds: Vec<u8>,
    pub lefts: Vec<u16>,
    pub rights: Vec<u16>,
    pub groups: Vec<u8>,
    pub count: u64,
}

pub const UNIT: u64 = 0;
/// Word n is node 1 + n, for n up to 20.
pub const BIT: u64 = 1;
pub const BYTE: u64 = 4;
/// Wider than a record may be: word 20.
pub const WIDE: u64 = 21;
/// 1 + 2^8: buffer type 0.
pub const BUFFER: u64 = 22;
/// 2 + 2 × 2: three bits, padded.
pub const SUM: u64 = 23;
/// SUM × 2: four bits.
pub const PAIR: u64 = 24;
/// The hash state's type.
pub const STATE: u64 = 36;
/// No width, and a size above the limit.
pub const LARGE: u64 = 57;

impl Zoo {
    pub fn new() -> Zoo {
        let mut zoo = Zoo { kinds: vec![0], lefts: vec![0], rights: vec![0], groups: Vec::new(), count: 0 };
        zoo.push(1, 0, 0);
        for word in 1..=20 {
            zoo.push(2, word, word);
        }
        assert_eq!(u64::from(zoo.push(1, 0, 4)), BUFFER);
        assert_eq!(u64::from(zoo.push(1, 1, 2)), SUM);
        assert_eq!(u64::from(zoo.push(2, 23, 1)), PAIR);
        let mut tail = BUFFER as u16;
        for word in 5..=9 {
            let run = zoo.push(1, 0, word);
            tail = zoo.push(2, run, tail);
        }
        let rest = zoo.push(2, 7, 9);
        assert_eq!(u64::from(zoo.push(2, tail, rest)), STATE);
        let mut hollow = 0;
        for _ in 0..21 {
            hollow = zoo.push(2, hollow, hollow);
        }
        assert_eq!(u64::from(hollow), LARGE);
        zoo.fill();
        zoo
    }

    /// Counts the nodes and makes their facts.
    pub fn fill(&mut self) {
        self.count = self.kinds.len() as u64;
        self.groups = vec![0; GROUP_BYTES * self.kinds.len()];
        assert_eq!(raw::fill_facts(&self.kinds, &self.lefts, &self.rights, self.count, &mut self.groups), 0);
    }

    /// Adds a node.
    pub fn push(&mut self, kind: u8, left: u16, right: u16) -> u16 {
        self.kinds.push(kind);
        self.lefts.push(left);
        self.rights.push(right);
        (self.kinds.len() - 1) as u16
    }

    pub fn columns(&self) -> Columns<'_> {
        Columns {
            kinds: &self.kinds,
            lefts: &self.lefts,
            rights: &self.rights,
            groups: &self.groups,
            count: self.count,
        }
    }

    /// The bytes of a node's facts.
    pub fn group(&mut self, node: usize) -> &mut [u8] {
        &mut self.groups[GROUP_BYTES * node..][..GROUP_BYTES]
    }

    /// A node's width, as its group says it.
    pub fn width(&self, node: u64) -> u64 {
        let at = GROUP_BYTES * node as usize;
        u64::from_le_bytes(self.groups[at..at + 8].try_into().expect("eight bytes"))
    }
}

/// Everything that a call can be handed, lent outputs with their contents included.
#[derive(Clone, PartialEq, Debug)]
pub struct World {
    pub table: Zoo,
    pub a: (Vec<u8>, u64, u64),
    pub b: (Vec<u8>, u64, u64),
    pub stream: Vec<u8>,
    pub length: u64,
    pub position: u64,
    pub n: u64,
    pub data: Vec<u8>,
    pub buffer: Vec<u8>,
    pub node: u64,
    pub other: u64,
    pub value: u64,
    pub values: Vec<u64>,
    pub out: Vec<u8>,
}

impl World {
    /// A world in which nothing is wrong, though no call in particular is meant.
    pub fn new() -> World {
        World {
            table: Zoo::new(),
            a: (vec![0b0110_1101, 0b1011_0110], 3, BIT),
            b: (vec![0b1010_0101], 5, BIT),
            stream: vec![0b0100_1110, 0b1111_0000],
            length: 13,
            position: 2,
            n: 0,
            data: Vec::new(),
            buffer: Vec::new(),
            node: UNIT,
            other: UNIT,
            value: 0x5A5A_5A5A,
            values: vec![0x5A5A_5A5A; 9],
            out: vec![0x77; 110],
        }
    }
}

/// What a call looks at.
pub struct Call {
    pub name: &'static str,
    pub run: fn(&mut World) -> u64,
    /// The table with facts.
    pub table: bool,
    /// The records: none, `a`, or `a` and `b`.
    pub records: usize,
    pub stream: bool,
    /// `node` is named: as a type in a question, or as a record's type.
    pub names: Names,
    /// How many entries `values` needs; 0 if the call has none.
    pub values: usize,
    /// How many bytes the good world needs in `out`; None if the call has no output.
    pub out: Option<usize>,
}

#[derive(Clone, Copy, PartialEq)]
pub enum Names {
    Nothing,
    Type,
    TwoTypes,
    RecordType,
}

fn a(w: &World) -> RawRecord<'_> {
    RawRecord { bytes: &w.a.0, offset: w.a.1, node: w.a.2 }
}

fn b(w: &World) -> RawRecord<'_> {
    RawRecord { bytes: &w.b.0, offset: w.b.1, node: w.b.2 }
}

fn lent(t: &mut Zoo) -> ColumnsMut<'_> {
    ColumnsMut { kinds: &mut t.kinds, lefts: &mut t.lefts, rights: &mut t.rights, groups: &mut t.groups }
}

fn word(bytes: usize, w: &mut World) {
    w.data = vec![0xC3; bytes];
    w.node = BYTE + bytes.ilog2() as u64;
}

/// Makes a new world one that the call accepts.
fn make_good(call: &str, w: &mut World) {
    match call {
        "read_table" => w.data = quelomavunt::samples::TABLE_S.to_vec(),
        "type_as_sum" | "left" => w.node = SUM,
        "type_as_product" | "zero" | "from_compact_bits" | "from_padded_bits" => w.node = PAIR,
        "as_word" => w.node = BYTE,
        "as_left" => w.a = (vec![0b0001_0000], 1, SUM),
        "as_right" => w.a = (vec![0b0100_0000], 1, SUM),
        "as_product" | "compact_len" | "padded_len" | "to_compact_bits" | "to_padded_bits" => w.a.2 = PAIR,
        "right" => (w.node, w.a.2) = (SUM, BIT + 1),
        "product" => (w.node, w.a.2) = (PAIR, SUM),
        "none" => w.node = BUFFER,
        "some" => (w.node, w.a.2) = (BUFFER, BYTE),
        "u1" => w.node = BIT,
        "u2" | "word_product" => w.node = BIT + 1,
        "u4" => w.node = BIT + 2,
        "u8" => word(1, w),
        "u16" => word(2, w),
        "u32" => word(4, w),
        "u64" => word(8, w),
        "u128" | "from_byte_array" => word(16, w),
        "u256" => word(32, w),
        "u512" => word(64, w),
        "word_from_bits" => (w.n, w.node) = (3, BYTE),
        "buffer8_two_n_plus_one" => (w.node, w.data) = (BUFFER, vec![0xA5]),
        "ctx8" => (w.node, w.data, w.buffer) = (STATE, vec![7; 32], vec![9; 63]),
        "prune" => (w.a.2, w.node) = (PAIR, PAIR),
        _ => {}
    }
}

/// How many bytes of `out` a call needs in its good world.
fn needed(call: &str) -> usize {
    match call {
        "unit" => 0,
        "none" | "some" | "u16" | "buffer8_two_n_plus_one" => 2,
        "u32" => 4,
        "u64" => 8,
        "u128" | "from_byte_array" => 16,
        "u256" => 32,
        "u512" => 64,
        "ctx8" => 104,
        _ => 1,
    }
}

/// Every call, with what it looks at. A call runs on a copy of the world's inputs `i`, with its table `t`, and the
/// world's own outputs `o`.
macro_rules! every_call {
    ($($name:ident: names $names:ident, records $records:literal, values $values:literal,
       table $table:literal, stream $stream:literal, out $out:literal, |$t:ident, $i:ident, $o:ident| $call:expr;)*) => {
        /// Every call.
        pub fn calls() -> Vec<Call> {
            vec![$(Call {
                name: stringify!($name),
                run: |$o| {
                    let inputs = $o.clone();
                    let $i = &inputs;
                    let $t = &$i.table.columns();
                    let _ = ($t, $i);
                    $call
                },
                table: $table,
                records: $records,
                stream: $stream,
                names: Names::$names,
                values: $values,
                out: $out.then(|| needed(stringify!($name))),
            },)*]
        }
    };
}

every_call! {
    // calls.list begins: tools/calls writes what stands up to its end.
    read_table: names Nothing, records 0, values 0, table false, stream false, out false,
        |t, i, o| raw::read_table(&i.data, lent(&mut o.table), &mut o.value);
    fill_facts: names Nothing, records 0, values 0, table false, stream false, out false,
        |t, i, o| raw::fill_facts(t.kinds, t.lefts, t.rights, t.count, &mut o.table.groups);
    check_table: names Nothing, records 0, values 0, table true, stream false, out false,
        |t, i, o| raw::check_table(t);
    facts_of: names Type, records 0, values 8, table true, stream false, out false,
        |t, i, o| raw::facts_of(t, i.node, &mut o.values);
    same_type: names TwoTypes, records 0, values 0, table true, stream false, out false,
        |t, i, o| raw::same_type(t, i.node, i.other, &mut o.value);
    is_unit: names Type, records 0, values 0, table true, stream false, out false,
        |t, i, o| raw::is_unit(t, i.node, &mut o.value);
    is_empty: names Type, records 0, values 0, table true, stream false, out false,
        |t, i, o| raw::is_empty(t, i.node, &mut o.value);
    type_as_sum: names Type, records 0, values 2, table true, stream false, out false,
        |t, i, o| raw::type_as_sum(t, i.node, &mut o.values);
    type_as_product: names Type, records 0, values 2, table true, stream false, out false,
        |t, i, o| raw::type_as_product(t, i.node, &mut o.values);
    pad_left: names TwoTypes, records 0, values 0, table true, stream false, out false,
        |t, i, o| raw::pad_left(t, i.node, i.other, &mut o.value);
    pad_right: names TwoTypes, records 0, values 0, table true, stream false, out false,
        |t, i, o| raw::pad_right(t, i.node, i.other, &mut o.value);
    as_word: names Type, records 0, values 0, table true, stream false, out false,
        |t, i, o| raw::as_word(t, i.node, &mut o.value);
    word_width: names Nothing, records 0, values 0, table false, stream false, out false,
        |t, i, o| raw::word_width(i.n, &mut o.value);
    buffer_width: names Nothing, records 0, values 0, table false, stream false, out false,
        |t, i, o| raw::buffer_width(i.n, &mut o.value);
    is_buffer8: names Type, records 0, values 0, table true, stream false, out false,
        |t, i, o| raw::is_buffer8(t, i.node, i.n, &mut o.value);
    is_ctx8: names Type, records 0, values 0, table true, stream false, out false,
        |t, i, o| raw::is_ctx8(t, i.node, &mut o.value);
    as_left: names Nothing, records 1, values 2, table true, stream false, out false,
        |t, i, o| raw::as_left(t, &a(i), &mut o.values);
    as_right: names Nothing, records 1, values 2, table true, stream false, out false,
        |t, i, o| raw::as_right(t, &a(i), &mut o.values);
    as_product: names Nothing, records 1, values 4, table true, stream false, out false,
        |t, i, o| raw::as_product(t, &a(i), &mut o.values);
    equal: names Nothing, records 2, values 0, table true, stream false, out false,
        |t, i, o| raw::equal(t, &a(i), &b(i), &mut o.value);
    compare: names Nothing, records 2, values 0, table true, stream false, out false,
        |t, i, o| raw::compare(t, &a(i), &b(i), &mut o.value);
    compact_len: names Nothing, records 1, values 0, table true, stream false, out false,
        |t, i, o| raw::compact_len(t, &a(i), &mut o.value);
    padded_len: names Nothing, records 1, values 0, table true, stream false, out false,
        |t, i, o| raw::padded_len(t, &a(i), &mut o.value);
    unit: names RecordType, records 0, values 0, table true, stream false, out true,
        |t, i, o| raw::unit(t, i.node, &mut o.value, &mut o.out);
    left: names RecordType, records 1, values 0, table true, stream false, out true,
        |t, i, o| raw::left(t, &a(i), i.node, &mut o.value, &mut o.out);
    right: names RecordType, records 1, values 0, table true, stream false, out true,
        |t, i, o| raw::right(t, &a(i), i.node, &mut o.value, &mut o.out);
    product: names RecordType, records 2, values 0, table true, stream false, out true,
        |t, i, o| raw::product(t, &a(i), &b(i), i.node, &mut o.value, &mut o.out);
    none: names RecordType, records 0, values 0, table true, stream false, out true,
        |t, i, o| raw::none(t, i.node, &mut o.value, &mut o.out);
    some: names RecordType, records 1, values 0, table true, stream false, out true,
        |t, i, o| raw::some(t, &a(i), i.node, &mut o.value, &mut o.out);
    zero: names RecordType, records 0, values 0, table true, stream false, out true,
        |t, i, o| raw::zero(t, i.node, &mut o.value, &mut o.out);
    u1: names RecordType, records 0, values 0, table true, stream false, out true,
        |t, i, o| raw::u1(t, i.n, i.node, &mut o.value, &mut o.out);
    u2: names RecordType, records 0, values 0, table true, stream false, out true,
        |t, i, o| raw::u2(t, i.n, i.node, &mut o.value, &mut o.out);
    u4: names RecordType, records 0, values 0, table true, stream false, out true,
        |t, i, o| raw::u4(t, i.n, i.node, &mut o.value, &mut o.out);
    u8: names RecordType, records 0, values 0, table true, stream false, out true,
        |t, i, o| raw::u8(t, &i.data, i.node, &mut o.value, &mut o.out);
    u16: names RecordType, records 0, values 0, table true, stream false, out true,
        |t, i, o| raw::u16(t, &i.data, i.node, &mut o.value, &mut o.out);
    u32: names RecordType, records 0, values 0, table true, stream false, out true,
        |t, i, o| raw::u32(t, &i.data, i.node, &mut o.value, &mut o.out);
    u64: names RecordType, records 0, values 0, table true, stream false, out true,
        |t, i, o| raw::u64(t, &i.data, i.node, &mut o.value, &mut o.out);
    u128: names RecordType, records 0, values 0, table true, stream false, out true,
        |t, i, o| raw::u128(t, &i.data, i.node, &mut o.value, &mut o.out);
    u256: names RecordType, records 0, values 0, table true, stream false, out true,
        |t, i, o| raw::u256(t, &i.data, i.node, &mut o.value, &mut o.out);
    u512: names RecordType, records 0, values 0, table true, stream false, out true,
        |t, i, o| raw::u512(t, &i.data, i.node, &mut o.value, &mut o.out);
    from_byte_array: names RecordType, records 0, values 0, table true, stream false, out true,
        |t, i, o| raw::from_byte_array(t, &i.data, i.node, &mut o.value, &mut o.out);
    word_product: names RecordType, records 2, values 0, table true, stream false, out true,
        |t, i, o| raw::word_product(t, &a(i), &b(i), i.node, &mut o.value, &mut o.out);
    word_from_bits: names RecordType, records 0, values 0, table true, stream true, out true,
        |t, i, o| raw::word_from_bits(t, &i.stream, i.length, &mut o.position, i.n, i.node, &mut o.out);
    buffer8_two_n_plus_one: names RecordType, records 0, values 0, table true, stream false, out true,
        |t, i, o| raw::buffer8_two_n_plus_one(t, i.n, &i.data, i.node, &mut o.value, &mut o.out);
    ctx8: names RecordType, records 0, values 0, table true, stream false, out true,
        |t, i, o| raw::ctx8(t, &i.data, i.n, &i.buffer, i.node, &mut o.value, &mut o.out);
    from_compact_bits: names RecordType, records 0, values 0, table true, stream true, out true,
        |t, i, o| raw::from_compact_bits(t, &i.stream, i.length, &mut o.position, i.node, &mut o.out);
    from_padded_bits: names RecordType, records 0, values 0, table true, stream true, out true,
        |t, i, o| raw::from_padded_bits(t, &i.stream, i.length, &mut o.position, i.node, &mut o.out);
    to_compact_bits: names Nothing, records 1, values 0, table true, stream false, out true,
        |t, i, o| raw::to_compact_bits(t, &a(i), &mut o.value, &mut o.out);
    to_padded_bits: names Nothing, records 1, values 0, table true, stream false, out true,
        |t, i, o| raw::to_padded_bits(t, &a(i), &mut o.value, &mut o.out);
    prune: names RecordType, records 1, values 0, table true, stream false, out true,
        |t, i, o| raw::prune(t, &a(i), i.node, &mut o.value, &mut o.out);
    // calls.list ends
}

impl Call {
    /// The world that the call accepts.
    pub fn good_world(&self) -> World {
        let mut world = World::new();
        make_good(self.name, &mut world);
        world
    }

    /// Runs the call on a world that must be refused with this number at this place, and with nothing changed.
    pub fn refuses(&self, mut world: World, number: u64, place: u64, why: &str) {
        let before = world.clone();
        let code = (self.run)(&mut world);
        assert_eq!((code % 256, code / 256), (number, place), "{}: {why}", self.name);
        assert!(world == before, "{}: a refusal changed something: {why}", self.name);
    }

    /// Runs the call on a world that must be accepted, and answers the world after.
    pub fn accepts(&self, mut world: World, why: &str) -> World {
        let code = (self.run)(&mut world);
        assert_eq!(code, 0, "{}: {why}", self.name);
        world
    }
}

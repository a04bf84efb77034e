//! A request for any call of the port, and its answer: the one form in which all sides are asked.
//!
//! * `Call`: the calls of include/calls.list, by the names of the C header without its prefix
//! * `Columns`, `OwnedColumns`: a table with its facts, borrowed and owned; `Facts`: those of one node, read again
//! * `Record`, `Stream`: bytes with an offset and a node; bytes with a length and a position, in bits
//! * `Request`: one call with everything handed in, and what lies in the lent outputs before
//! * `Answer`: the result, and what lies in the lent outputs, columns, groups and position after
//! * `Library`: whoever answers (the model, or the archive through its C interface)

/// Declares the calls: each with its number in recorded lists, its name, how many accepted values it gives, how many
/// nodes it names and records it is handed, and whether it has a table, a stream and an output.
macro_rules! calls {
    ($($call:ident = $number:literal, $name:literal, values $values:literal, nodes $nodes:literal,
       records $records:literal, table $table:literal, stream $stream:literal, out $out:literal;)*) => {
        /// The calls of the port, by the numbers that they have in recorded lists.
        #[derive(Clone, Copy, PartialEq, Eq, Debug, Hash)]
        pub enum Call { $(#[doc = $name] $call = $number,)* }

        impl Call {
            /// Every call, in the order of the C header.
            pub const ALL: &'static [Call] = &[$(Call::$call,)*];

            /// The name in the C header, without the prefix `qv_`.
            pub fn name(self) -> &'static str {
                match self { $(Call::$call => $name,)* }
            }

            /// How many accepted values the call gives (a stream's position not counted).
            pub fn value_count(self) -> usize {
                match self { $(Call::$call => $values,)* }
            }

            /// How many nodes the call names besides those of its records.
            pub fn node_count(self) -> usize {
                match self { $(Call::$call => $nodes,)* }
            }

            /// How many records the call is handed.
            pub fn record_count(self) -> usize {
                match self { $(Call::$call => $records,)* }
            }

            /// Whether the call is handed a table with its facts.
            pub fn takes_a_table(self) -> bool {
                match self { $(Call::$call => $table,)* }
            }

            /// Whether the call reads a stream and moves its position.
            pub fn reads_a_stream(self) -> bool {
                match self { $(Call::$call => $stream,)* }
            }

            /// Whether the call writes a record or bits to `out`.
            pub fn writes_out(self) -> bool {
                match self { $(Call::$call => $out,)* }
            }
        }
    };
}

calls! {
    // calls.list begins: tools/calls writes what stands up to its end.
    ReadTable = 0, "read_table", values 1, nodes 0, records 0, table false, stream false, out false;
    FillFacts = 1, "fill_facts", values 0, nodes 0, records 0, table false, stream false, out false;
    CheckTable = 2, "check_table", values 0, nodes 0, records 0, table true, stream false, out false;
    FactsOf = 3, "facts_of", values 8, nodes 1, records 0, table true, stream false, out false;
    SameType = 4, "same_type", values 1, nodes 2, records 0, table true, stream false, out false;
    IsUnit = 5, "is_unit", values 1, nodes 1, records 0, table true, stream false, out false;
    IsEmpty = 6, "is_empty", values 1, nodes 1, records 0, table true, stream false, out false;
    TypeAsSum = 7, "type_as_sum", values 2, nodes 1, records 0, table true, stream false, out false;
    TypeAsProduct = 8, "type_as_product", values 2, nodes 1, records 0, table true, stream false, out false;
    PadLeft = 9, "pad_left", values 1, nodes 2, records 0, table true, stream false, out false;
    PadRight = 10, "pad_right", values 1, nodes 2, records 0, table true, stream false, out false;
    AsWord = 11, "as_word", values 1, nodes 1, records 0, table true, stream false, out false;
    WordWidth = 12, "word_width", values 1, nodes 0, records 0, table false, stream false, out false;
    BufferWidth = 13, "buffer_width", values 1, nodes 0, records 0, table false, stream false, out false;
    IsBuffer8 = 14, "is_buffer8", values 1, nodes 1, records 0, table true, stream false, out false;
    IsCtx8 = 15, "is_ctx8", values 1, nodes 1, records 0, table true, stream false, out false;
    AsLeft = 16, "as_left", values 2, nodes 0, records 1, table true, stream false, out false;
    AsRight = 17, "as_right", values 2, nodes 0, records 1, table true, stream false, out false;
    AsProduct = 18, "as_product", values 4, nodes 0, records 1, table true, stream false, out false;
    Equal = 19, "equal", values 1, nodes 0, records 2, table true, stream false, out false;
    Compare = 20, "compare", values 1, nodes 0, records 2, table true, stream false, out false;
    CompactLen = 21, "compact_len", values 1, nodes 0, records 1, table true, stream false, out false;
    PaddedLen = 22, "padded_len", values 1, nodes 0, records 1, table true, stream false, out false;
    Unit = 23, "unit", values 1, nodes 1, records 0, table true, stream false, out true;
    Left = 24, "left", values 1, nodes 1, records 1, table true, stream false, out true;
    Right = 25, "right", values 1, nodes 1, records 1, table true, stream false, out true;
    Product = 26, "product", values 1, nodes 1, records 2, table true, stream false, out true;
    None = 27, "none", values 1, nodes 1, records 0, table true, stream false, out true;
    Some = 28, "some", values 1, nodes 1, records 1, table true, stream false, out true;
    Zero = 29, "zero", values 1, nodes 1, records 0, table true, stream false, out true;
    U1 = 30, "u1", values 1, nodes 1, records 0, table true, stream false, out true;
    U2 = 31, "u2", values 1, nodes 1, records 0, table true, stream false, out true;
    U4 = 32, "u4", values 1, nodes 1, records 0, table true, stream false, out true;
    U8 = 33, "u8", values 1, nodes 1, records 0, table true, stream false, out true;
    U16 = 34, "u16", values 1, nodes 1, records 0, table true, stream false, out true;
    U32 = 35, "u32", values 1, nodes 1, records 0, table true, stream false, out true;
    U64 = 36, "u64", values 1, nodes 1, records 0, table true, stream false, out true;
    U128 = 37, "u128", values 1, nodes 1, records 0, table true, stream false, out true;
    U256 = 38, "u256", values 1, nodes 1, records 0, table true, stream false, out true;
    U512 = 39, "u512", values 1, nodes 1, records 0, table true, stream false, out true;
    FromByteArray = 40, "from_byte_array", values 1, nodes 1, records 0, table true, stream false, out true;
    WordProduct = 41, "word_product", values 1, nodes 1, records 2, table true, stream false, out true;
    WordFromBits = 42, "word_from_bits", values 0, nodes 1, records 0, table true, stream true, out true;
    Buffer8TwoNPlusOne = 43, "buffer8_two_n_plus_one", values 1, nodes 1, records 0, table true, stream false, out true;
    Ctx8 = 44, "ctx8", values 1, nodes 1, records 0, table true, stream false, out true;
    FromCompactBits = 45, "from_compact_bits", values 0, nodes 1, records 0, table true, stream true, out true;
    FromPaddedBits = 46, "from_padded_bits", values 0, nodes 1, records 0, table true, stream true, out true;
    ToCompactBits = 47, "to_compact_bits", values 1, nodes 0, records 1, table true, stream false, out true;
    ToPaddedBits = 48, "to_padded_bits", values 1, nodes 0, records 1, table true, stream false, out true;
    Prune = 49, "prune", values 1, nodes 1, records 1, table true, stream false, out true;
    // calls.list ends
}

impl Call {
    /// The call's number in recorded lists: from 0, below the number of calls.
    pub fn number(self) -> usize {
        self as usize
    }

    /// The call that has this number.
    pub fn of_number(number: usize) -> Option<Call> {
        Call::ALL.iter().copied().find(|call| call.number() == number)
    }

    /// Whether the accepted values go to a slice, which may be too short, and not to a single number.
    pub fn values_are_a_slice(self) -> bool {
        self.value_count() > 1
    }
}

/// The bytes of one node's facts in the groups.
pub const GROUP_BYTES: usize = 27;

/// A table with its facts, borrowed.
#[derive(Clone, Copy, Debug, Default, PartialEq, Eq)]
pub struct Columns<'a> {
    pub kinds: &'a [u8],
    pub lefts: &'a [u16],
    pub rights: &'a [u16],
    pub groups: &'a [u8],
    pub count: u64,
}

/// The facts of one node, as its group says them.
#[derive(Clone, Copy, Debug, PartialEq, Eq)]
pub struct Facts {
    pub width: u64,
    pub size: u64,
    pub padded: u8,
    pub class: u16,
    pub least: u64,
}

impl Columns<'_> {
    /// What a node's group says, right or wrong. Whoever makes requests and compares answers reads by this; the model
    /// does not.
    pub fn facts(&self, node: usize) -> Facts {
        let group = &self.groups[GROUP_BYTES * node..][..GROUP_BYTES];
        let number = |bytes: &[u8]| bytes.iter().rev().fold(0, |number, byte| number << 8 | u64::from(*byte));
        Facts {
            width: number(&group[..8]),
            size: number(&group[8..16]),
            padded: group[16],
            class: number(&group[17..19]) as u16,
            least: number(&group[19..27]),
        }
    }
}

/// A table with its facts, owned. `count` is beside the lengths, since a hostile table may disagree with them.
#[derive(Clone, Debug, Default, PartialEq, Eq)]
pub struct OwnedColumns {
    pub kinds: Vec<u8>,
    pub lefts: Vec<u16>,
    pub rights: Vec<u16>,
    pub groups: Vec<u8>,
    pub count: u64,
}

impl OwnedColumns {
    /// The same table, borrowed.
    pub fn lend(&self) -> Columns<'_> {
        Columns {
            kinds: &self.kinds,
            lefts: &self.lefts,
            rights: &self.rights,
            groups: &self.groups,
            count: self.count,
        }
    }

    /// What a node's group says, right or wrong.
    pub fn facts(&self, node: usize) -> Facts {
        self.lend().facts(node)
    }

    /// Columns of `length` entries each and so many groups, all of them a mark that no call writes by chance.
    pub fn marked(length: usize) -> OwnedColumns {
        OwnedColumns {
            kinds: vec![0xA5; length],
            lefts: vec![0xA5A5; length],
            rights: vec![0xA5A5; length],
            groups: vec![0xA5; GROUP_BYTES * length],
            count: length as u64,
        }
    }

    /// Copies `from` into the room this one already has.
    pub fn copy_from(&mut self, from: &Columns) {
        refill(&mut self.kinds, from.kinds);
        refill(&mut self.lefts, from.lefts);
        refill(&mut self.rights, from.rights);
        refill(&mut self.groups, from.groups);
        self.count = from.count;
    }
}

/// A record: bytes, the bit at which it starts, its type.
#[derive(Clone, Copy, Debug, Default)]
pub struct Record<'a> {
    pub bytes: &'a [u8],
    pub offset: u64,
    pub node: u64,
}

/// A stream: bytes, how many of their bits count, and the bit to read next.
#[derive(Clone, Copy, Debug, Default)]
pub struct Stream<'a> {
    pub bytes: &'a [u8],
    pub length: u64,
    pub position: u64,
}

/// One call with everything handed in. A call looks only at the members that its C parameters name.
#[derive(Clone, Copy, Debug)]
pub struct Request<'a> {
    pub call: Call,
    /// The table; for `read_table` and `fill_facts` also what lies in the output columns and groups before.
    pub table: Columns<'a>,
    /// The record, or the first of two.
    pub a: Record<'a>,
    /// The second record.
    pub b: Record<'a>,
    /// The stream.
    pub stream: Stream<'a>,
    /// `n`, `number` or `bytes_hashed`.
    pub n: u64,
    /// `file`, `data` or `midstate`.
    pub data: &'a [u8],
    /// The hash state's buffered bytes.
    pub buffer: &'a [u8],
    /// The node named besides records: `node`, `result`, `target`, or the first of two.
    pub node: u64,
    /// The second of two named nodes.
    pub other: u64,
    /// What lies where accepted values go, before the call.
    pub values: &'a [u64],
    /// What lies in `out` before the call.
    pub out: &'a [u8],
}

/// What lies in places for accepted values before a call, unless a request says otherwise: one more than any call fills.
pub const VALUES_BEFORE: [u64; 9] = [0xD1D2_D3D4_D5D6_D7D8; 9];

impl<'a> Request<'a> {
    /// A request with nothing handed in but the table, and room for the accepted values.
    pub fn new(call: Call, table: Columns<'a>) -> Request<'a> {
        Request {
            call,
            table,
            a: Record::default(),
            b: Record::default(),
            stream: Stream::default(),
            n: 0,
            data: &[],
            buffer: &[],
            node: 0,
            other: 0,
            values: &VALUES_BEFORE[..call.value_count()],
            out: &[],
        }
    }

    /// The nodes named besides those of records.
    pub fn nodes(&self) -> impl Iterator<Item = u64> {
        [self.node, self.other].into_iter().take(self.call.node_count())
    }
}

/// The result of a call and everything it may have changed.
#[derive(Clone, Debug, Default, PartialEq, Eq)]
pub struct Answer {
    /// 0, or number + 256 * place.
    pub code: u64,
    pub values: Vec<u64>,
    pub position: u64,
    pub out: Vec<u8>,
    /// The output columns and groups of `read_table` and `fill_facts`; empty for other calls.
    pub columns: OwnedColumns,
}

impl Answer {
    /// Everything as it lies before the call.
    pub fn start(&mut self, request: &Request) {
        self.code = 0;
        refill(&mut self.values, request.values);
        refill(&mut self.out, request.out);
        self.position = request.stream.position;
        if matches!(request.call, Call::ReadTable | Call::FillFacts) {
            self.columns.copy_from(&request.table);
        } else {
            self.columns.copy_from(&Columns::default());
        }
    }

    /// The records of an accepted request: those handed in; those that a view shows, in the same bytes; the one made,
    /// which lies in `out` if the call names its type.
    pub fn records<'a>(&'a self, request: &Request<'a>) -> Vec<Record<'a>> {
        let call = request.call;
        let mut records = [request.a, request.b][..call.record_count()].to_vec();
        if matches!(call, Call::AsLeft | Call::AsRight | Call::AsProduct) {
            let views = self.values[..call.value_count()].chunks_exact(2);
            records.extend(views.map(|view| Record { bytes: request.a.bytes, offset: view[0], node: view[1] }));
        }
        if call.writes_out() && call.node_count() > 0 {
            records.push(Record { bytes: &self.out, offset: 0, node: request.node });
        }
        records
    }

    /// The refusal's number, 0 if accepted.
    pub fn number(&self) -> u64 {
        self.code % 256
    }
}

fn refill<T: Copy>(room: &mut Vec<T>, from: &[T]) {
    room.clear();
    room.extend_from_slice(from);
}

/// Whoever answers requests.
pub trait Library {
    /// Answers `request`; `answer` is overwritten whole.
    fn ask(&self, request: &Request, answer: &mut Answer);
}

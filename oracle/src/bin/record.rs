//! Writes, or checks, the fixed list of recorded answers that the program `samples` replays with no Rust at hand.
//!
//!     record FILE            write the list
//!     record --check FILE    read it again, ask the model every case, and compare
//!
//! Every answer is the model's. Where the crate's text has an answer too, it was asked when the list was written and
//! agreed (or the difference is listed); a difference beyond the list stops the writing.
//!
//! # The form of the file
//!
//! A *number* is one byte k, 0 to 8, and then k bytes, the highest first (0 is the single byte 0).
//! A *run* is a number, the length, and so many bytes.
//!
//! The file is a number, the count of cases, then the cases. Nothing follows. A case starts with one byte:
//!
//! * 255: a table. A run follows: a sound table file. The cases after it are about this table, read by
//!   `read_table`. It counts as a case.
//! * else the call: its number in include/calls.list. Then, for every call alike, whether it
//!   looks at them or not:
//!
//!   | what | form |
//!   |---|---|
//!   | the record, or the first of two: bytes, offset, node | run, number, number |
//!   | the second record: bytes, offset, node | run, number, number |
//!   | the stream: bytes, length, position | run, number, number |
//!   | `n`, `number` or `bytes_hashed` | number |
//!   | `file`, `data` or `midstate` | run |
//!   | `buffer` | run |
//!   | `node`, `result`, `target`, or `a` of two nodes | number |
//!   | `b` of two nodes | number |
//!   | the length of `out`, every byte of it 0xEE before the call | number |
//!   | expected: the result, number + 256 * place, 0 if accepted | number |
//!   | expected: the position after | number |
//!   | expected: the accepted values (none if refused): how many, then each | numbers |
//!   | expected: `out` after | run |
//!   | who says so: 0 the rules, 1 the rules and the crate's text, 2 the rules, with a listed difference | one byte |
//!
//! Of `read_table` and `fill_facts` (which is about the entries of the table at hand) the expected `out` is, for an
//! accepted call, the nodes one after the other, 32 bytes each: kind 1, left 2, right 2, width 8, size 8, padded 1,
//! class 2, least 8, the highest byte first. Their columns have 1,024 entries, and their groups are 1,024.

use oracle::agreement::{judge, Verdict};
use oracle::library::{Answer, Call, Columns, Library, OwnedColumns, Record, Request, Stream};
use oracle::model::Model;
use oracle::published::Published;
use oracle::supply::{Random, TableMaker};

const OUT_BEFORE: u8 = 0xEE;
const COLUMNS: usize = 1024;

fn main() {
    let words: Vec<String> = std::env::args().skip(1).collect();
    std::panic::set_hook(Box::new(|_| {}));
    let done = match &words.iter().map(String::as_str).collect::<Vec<_>>()[..] {
        ["--check", file] => check(file),
        [file] => write(file),
        _ => Err("usage: record [--check] FILE".to_string()),
    };
    if let Err(why) = done {
        eprintln!("record: {why}");
        std::process::exit(1);
    }
}

// Writing.

struct Recorder {
    model: Model,
    published: Published,
    cases: Vec<u8>,
    count: u64,
    by_call: Vec<u64>,
    by_word: [u64; 3],
    fault: Option<String>,
}

fn write(file: &str) -> Result<(), String> {
    let mut recorder = Recorder {
        model: Model::new(),
        published: Published::new(),
        cases: Vec::new(),
        count: 0,
        by_call: vec![0; Call::ALL.len()],
        by_word: [0; 3],
        fault: None,
    };
    sample_table(&mut recorder);
    special_table(&mut recorder);
    limits_table(&mut recorder);
    files(&mut recorder);
    if let Some(fault) = recorder.fault {
        return Err(fault);
    }
    let mut bytes = Vec::new();
    put_number(&mut bytes, recorder.count);
    bytes.extend(&recorder.cases);
    std::fs::write(file, &bytes).map_err(|error| format!("{file}: {error}"))?;
    for call in Call::ALL {
        println!("{:24} {}", call.name(), recorder.by_call[call.number()]);
    }
    let [rules, both, listed] = recorder.by_word;
    println!(
        "{} cases, {} bytes: {rules} by the rules alone, {both} by rules and text, {listed} listed",
        recorder.count,
        bytes.len()
    );
    match Call::ALL.iter().find(|call| recorder.by_call[call.number()] == 0) {
        Some(call) => Err(format!("no case of {}", call.name())),
        None => Ok(()),
    }
}

impl Recorder {
    fn table(&mut self, maker: &TableMaker) -> OwnedColumns {
        self.cases.push(255);
        put_run(&mut self.cases, &maker.file());
        self.count += 1;
        maker.finish()
    }

    fn case(&mut self, q: &Request) {
        let mut answer = Answer::default();
        self.model.ask(q, &mut answer);
        let word = match judge(&self.published, q, &answer) {
            Verdict::NoAnswer => 0,
            Verdict::Agrees => 1,
            Verdict::Differs(_) => 2,
            Verdict::Beyond(said) => {
                self.fault = Some(format!("{}: the text says {said}, the rules {answer:?}", q.call.name()));
                0
            }
        };
        let out = expected_out(q, &answer);
        let cases = &mut self.cases;
        cases.push(q.call.number() as u8);
        for record in [&q.a, &q.b] {
            put_run(cases, record.bytes);
            put_number(cases, record.offset);
            put_number(cases, record.node);
        }
        put_run(cases, q.stream.bytes);
        put_number(cases, q.stream.length);
        put_number(cases, q.stream.position);
        put_number(cases, q.n);
        put_run(cases, q.data);
        put_run(cases, q.buffer);
        put_number(cases, q.node);
        put_number(cases, q.other);
        put_number(cases, q.out.len() as u64);
        put_number(cases, answer.code);
        put_number(cases, answer.position);
        let accepted = if answer.code == 0 { &answer.values[..] } else { &[] };
        put_number(cases, accepted.len() as u64);
        for value in accepted {
            put_number(cases, *value);
        }
        put_run(cases, &out);
        cases.push(word);
        self.count += 1;
        self.by_call[q.call.number()] += 1;
        self.by_word[usize::from(word)] += 1;
    }
}

/// `out` after the call, or the nodes that a table call wrote.
fn expected_out(q: &Request, answer: &Answer) -> Vec<u8> {
    if !matches!(q.call, Call::ReadTable | Call::FillFacts) {
        return answer.out.clone();
    }
    if answer.code != 0 {
        return Vec::new();
    }
    let t = &answer.columns;
    let count = if q.call == Call::ReadTable { answer.values[0] } else { q.table.count };
    let mut nodes = Vec::new();
    for node in 0..count as usize {
        nodes.push(t.kinds[node]);
        nodes.extend(t.lefts[node].to_be_bytes());
        nodes.extend(t.rights[node].to_be_bytes());
        let facts = t.facts(node);
        nodes.extend(facts.width.to_be_bytes());
        nodes.extend(facts.size.to_be_bytes());
        nodes.push(facts.padded);
        nodes.extend(facts.class.to_be_bytes());
        nodes.extend(facts.least.to_be_bytes());
    }
    nodes
}

fn put_number(to: &mut Vec<u8>, number: u64) {
    let length = (64 - number.leading_zeros()).div_ceil(8) as usize;
    to.push(length as u8);
    to.extend(&number.to_be_bytes()[8 - length..]);
}

fn put_run(to: &mut Vec<u8>, run: &[u8]) {
    put_number(to, run.len() as u64);
    to.extend(run);
}

// The cases.

/// The rules' own sample table: every type, every short record and stream, every cut.
fn sample_table(r: &mut Recorder) {
    let mut maker = TableMaker::new();
    maker.push(0, 0, 0);
    for (kind, left, right) in
        [(1, 0, 0), (2, 0, 0), (1, 0, 1), (2, 1, 1), (1, 1, 4), (1, 0, 0), (2, 5, 1), (1, 1, 0), (1, 1, 2)]
    {
        maker.push(kind, left, right);
    }
    let table = r.table(&maker);
    let t = table.lend();
    r.case(&Request::new(Call::CheckTable, t));
    r.case(&Request::new(Call::FillFacts, with_room(&table).lend()));
    for node in 0..=10 {
        use Call::*;
        for call in [FactsOf, IsUnit, IsEmpty, TypeAsSum, TypeAsProduct, AsWord, IsBuffer8, IsCtx8] {
            r.case(&Request { node, ..Request::new(call, t) });
        }
        for other in [node / 2, 6] {
            for call in [SameType, PadLeft, PadRight] {
                r.case(&Request { node, other, ..Request::new(call, t) });
            }
        }
    }
    records_of(r, t);
    streams_of(r, t);
    constructors_of(r, t);
}

fn records_of(r: &mut Recorder, t: Columns) {
    use Call::*;
    let mut random = Random::new(1);
    for node in 0..t.count {
        let width = t.facts(node as usize).width;
        for pattern in 0..1u64 << width {
            let offset = random.below(20);
            let bytes = placed(&mut random, pattern, width, offset);
            let a = Record { bytes: &bytes, offset, node };
            for call in [AsLeft, AsRight, AsProduct, CompactLen, PaddedLen, ToCompactBits, ToPaddedBits] {
                r.case(&Request { a, out: &[OUT_BEFORE; 2], ..Request::new(call, t) });
            }
            let other = placed(&mut random, pattern ^ 1, width, 3);
            let b = Record { bytes: &other, offset: 3, node: if node == 6 { 1 } else { node } };
            r.case(&Request { a, b, ..Request::new(Equal, t) });
            r.case(&Request { a, b, ..Request::new(Compare, t) });
            r.case(&Request { a, b: a, ..Request::new(Equal, t) });
            for target in [0, 1, 5, 9, node] {
                r.case(&Request { a, node: target, out: &[OUT_BEFORE; 2], ..Request::new(Prune, t) });
            }
        }
    }
    // Different types: the rules order by class number, the crate by Merkle root.
    for (a_node, b_node) in [(1, 3), (3, 1), (5, 7), (7, 5), (2, 0), (0, 2), (6, 4), (4, 6)] {
        let a = Record { bytes: &[0x9C], offset: 2, node: a_node };
        let b = Record { bytes: &[0x63], offset: 1, node: b_node };
        r.case(&Request { a, b, ..Request::new(Compare, t) });
        r.case(&Request { a, b, ..Request::new(Equal, t) });
    }
    // The left halves of 11 and 10: the crate's text, asked in place, would read the neighbour.
    let (a, b) = (Record { bytes: &[0xC0], offset: 0, node: 1 }, Record { bytes: &[0x80], offset: 0, node: 1 });
    r.case(&Request { a, b, ..Request::new(Equal, t) });
    for (offset, node) in [(6, 5), (5, 5), (8, 0), (9, 0), (u64::MAX, 0), (u64::MAX, 5), (0, 10), (0, u64::MAX)] {
        let a = Record { bytes: &[0x6C], offset, node };
        for call in [AsLeft, CompactLen, ToPaddedBits, Prune] {
            r.case(&Request { a, node: 0, out: &[OUT_BEFORE; 1], ..Request::new(call, t) });
        }
    }
}

fn streams_of(r: &mut Recorder, t: Columns) {
    let mut random = Random::new(2);
    for node in [1, 2, 3, 5, 7, 9] {
        for length in 0..=t.facts(node as usize).width {
            for pattern in 0..1u64 << length {
                let position = random.below(11);
                let bytes = placed(&mut random, pattern, length, position);
                let stream = Stream { bytes: &bytes, length: position + length, position };
                for call in [Call::FromCompactBits, Call::FromPaddedBits] {
                    r.case(&Request { stream, node, out: &[OUT_BEFORE; 2], ..Request::new(call, t) });
                }
            }
        }
    }
    let bytes = [0x5A, 0xC3];
    for (length, position) in [(17, 0), (16, 17), (16, 16), (u64::MAX, 0), (3, u64::MAX), (16, 12)] {
        for (call, room) in [(Call::FromCompactBits, 0), (Call::FromPaddedBits, 1), (Call::WordFromBits, 1)] {
            let stream = Stream { bytes: &bytes, length, position };
            let (n, node) = (1, 4);
            r.case(&Request { stream, n, node, out: &[OUT_BEFORE; 2][..room], ..Request::new(call, t) });
        }
    }
}

fn constructors_of(r: &mut Recorder, t: Columns) {
    use Call::*;
    let mut random = Random::new(3);
    for node in 0..t.count {
        for call in [Unit, None, Zero] {
            r.case(&Request { node, out: &[OUT_BEFORE; 2], ..Request::new(call, t) });
            r.case(&Request { node, ..Request::new(call, t) });
        }
        for payload in [0, 1, 4, 5] {
            let width = t.facts(payload as usize).width;
            let (offset, pattern) = (random.below(12), random.below(1 << width));
            let bytes = placed(&mut random, pattern, width, offset);
            let a = Record { bytes: &bytes, offset, node: payload };
            for call in [Left, Right, Some] {
                r.case(&Request { a, node, out: &[OUT_BEFORE; 2], ..Request::new(call, t) });
            }
            let b = Record { bytes: &[0x40], offset: 1, node: 1 };
            for call in [Product, WordProduct] {
                r.case(&Request { a, b, node, out: &[OUT_BEFORE; 2], ..Request::new(call, t) });
            }
        }
    }
}

/// Words 0 to 9, buffers 0 to 5 and the hash state.
fn special_table(r: &mut Recorder) {
    use Call::*;
    let mut random = Random::new(4);
    let mut maker = TableMaker::new();
    let words: Vec<u64> = (0..=9).map(|n| u64::from(maker.word(n))).collect();
    let buffers: Vec<u64> = (0..=5).map(|n| u64::from(maker.buffer(n))).collect();
    let state = u64::from(maker.ctx8());
    let table = r.table(&maker);
    let t = table.lend();
    let out = [OUT_BEFORE; 110];
    for n in [0, 5, 12, 13, 31, 32, 64, u64::MAX] {
        r.case(&Request { n, ..Request::new(WordWidth, t) });
        r.case(&Request { n, ..Request::new(BufferWidth, t) });
        r.case(&Request { n, node: buffers[5], ..Request::new(IsBuffer8, t) });
    }
    r.case(&Request { node: state, ..Request::new(IsCtx8, t) });
    for (call, n, most) in [(U1, 0, 1), (U2, 1, 3), (U4, 2, 15)] {
        for number in (0..=most + 1).chain([256, u64::MAX]) {
            r.case(&Request { n: number, node: words[n], out: &out[..2], ..Request::new(call, t) });
        }
        r.case(&Request { n: 1, node: words[n], ..Request::new(call, t) });
        r.case(&Request { n: 1, node: words[n + 1], out: &out, ..Request::new(call, t) });
    }
    for (call, n) in [(U8, 3), (U16, 4), (U32, 5), (U64, 6), (U128, 7), (U256, 8), (U512, 9)] {
        let length = 1usize << (n - 3);
        for given in [length, length - 1, length + 1] {
            let data = random.bytes(given);
            r.case(&Request { data: &data, node: words[n], out: &out[..length + 1], ..Request::new(call, t) });
            r.case(&Request { data: &data, node: words[n], out: &out[..length - 1], ..Request::new(call, t) });
        }
        let data = random.bytes(length);
        r.case(&Request { data: &data, node: words[n - 1], out: &out, ..Request::new(call, t) });
    }
    for length in [0, 1, 2, 3, 4, 5, 8, 16, 24, 32, 64, 65, 100] {
        let data = random.bytes(length);
        let node = words[9.min(3 + length.max(1).ilog2() as usize)];
        r.case(&Request { data: &data, node, out: &out[..66], ..Request::new(FromByteArray, t) });
    }
    for n in 0..9 {
        let (a, b) = (random.bytes(34), random.bytes(33));
        let (a_offset, b_offset) = (random.below(9), random.below(8));
        let a = Record { bytes: &a, offset: a_offset, node: words[n] };
        let b = Record { bytes: &b, offset: b_offset, node: words[n] };
        r.case(&Request { a, b, node: words[n + 1], out: &out[..66], ..Request::new(WordProduct, t) });
        r.case(&Request { a, b, node: words[n], out: &out[..66], ..Request::new(WordProduct, t) });
        let stream = Stream { bytes: a.bytes, length: 272, position: a_offset };
        for word in [n as u64, n as u64 + 1, 32] {
            r.case(&Request { stream, n: word, node: words[n], out: &out[..66], ..Request::new(WordFromBits, t) });
        }
    }
    for n in 0..=5u64 {
        let holds = (2usize << n) - 1;
        for length in [0, 1, holds / 2, holds - 1, holds, holds + 1] {
            let data = random.bytes(length);
            let node = buffers[n as usize];
            r.case(&Request { n, data: &data, node, out: &out[..66], ..Request::new(Buffer8TwoNPlusOne, t) });
        }
    }
    for length in [0, 1, 31, 62, 63, 64] {
        let (midstate, buffer, n) = (random.bytes(32), random.bytes(length), random.draw());
        let q = Request { data: &midstate, n, buffer: &buffer, node: state, ..Request::new(Ctx8, t) };
        r.case(&Request { out: &out[..105], ..q });
        r.case(&Request { out: &out[..103], ..q });
        r.case(&Request { data: &midstate[..31], out: &out[..105], ..q });
    }
}

/// Types past all limits.
fn limits_table(r: &mut Recorder) {
    use Call::*;
    let mut maker = TableMaker::new();
    let word = maker.word(20);
    let mut hollow = 0;
    for _ in 0..21 {
        hollow = maker.push(2, hollow, hollow);
    }
    let both = maker.push(1, hollow, word);
    let table = r.table(&maker);
    let t = table.lend();
    for node in [word, hollow, both, hollow - 1].map(u64::from) {
        let a = Record { bytes: &[], offset: 0, node };
        for call in [FactsOf, AsLeft, AsProduct, CompactLen, PaddedLen, ToCompactBits, ToPaddedBits, Zero, Unit] {
            r.case(&Request { a, node, ..Request::new(call, t) });
        }
        r.case(&Request { a, node: 0, ..Request::new(Prune, t) });
        r.case(&Request { node, ..Request::new(FromCompactBits, t) });
        r.case(&Request { node, ..Request::new(FromPaddedBits, t) });
    }
    // Word 19 fits: asked of a record that does not.
    let a = Record { bytes: &[0], offset: 0, node: u64::from(word) - 1 };
    r.case(&Request { a, ..Request::new(PaddedLen, t) });
}

/// Table files, sound and not.
fn files(r: &mut Recorder) {
    let columns = OwnedColumns::marked(COLUMNS);
    let sample = [10, 0, 1, 0, 0, 2, 0, 0, 1, 0, 1, 2, 1, 1, 1, 1, 4, 1, 0, 0, 2, 5, 1, 1, 1, 0, 1, 1, 2];
    let mut list: Vec<Vec<u8>> = (0..=sample.len()).map(|end| sample[..end].to_vec()).collect();
    list.push([&sample[..], &[0]].concat());
    list.push([&sample[..], &[7, 7]].concat());
    for at in 0..sample.len() {
        let mut changed = sample.to_vec();
        changed[at] ^= if at % 2 == 0 { 0x80 } else { 3 };
        list.push(changed);
    }
    for short in [
        &[1u8, 0][..],
        &[0],
        &[0x80],
        &[0x80, 0],
        &[0x81, 0],
        &[0x81, 0x80, 0],
        &[0xFF, 0x7F],
        &[1, 1],
        &[1, 1, 0, 0],
        &[1, 2, 0, 0],
        &[1, 3],
        &[1, 0x80],
        &[1, 0x80, 0],
        &[2, 0, 1, 0x80, 0, 0],
        &[2, 0, 1, 0, 1],
        &[2, 0, 2, 1, 0],
        &[3, 0, 1, 0, 0, 2, 1, 1],
        &[1, 0, 0],
        &[0x80, 8],
        &[0x81, 8],
    ] {
        list.push(short.to_vec());
    }
    // 130 nodes, so that counts and sides take two groups; 1,024 units with one byte too many.
    let mut many = TableMaker::new();
    many.push(0, 0, 0);
    for node in 1..130u16 {
        many.push(1 + (node % 2) as u8, node - 1, node / 2);
    }
    list.push(many.file());
    list.push([&[0x80, 8][..], &[0; 1025]].concat());
    for file in &list {
        r.case(&Request { data: file, ..Request::new(Call::ReadTable, columns.lend()) });
    }
}

/// The entries of a table in columns of 1,024.
fn with_room(table: &OwnedColumns) -> OwnedColumns {
    let mut columns = OwnedColumns::marked(COLUMNS);
    let count = table.count as usize;
    columns.kinds[..count].copy_from_slice(&table.kinds);
    columns.lefts[..count].copy_from_slice(&table.lefts);
    columns.rights[..count].copy_from_slice(&table.rights);
    columns.count = table.count;
    columns
}

/// Random bytes with `width` bits of `pattern` at bit `offset`.
fn placed(random: &mut Random, pattern: u64, width: u64, offset: u64) -> Vec<u8> {
    let mut bytes = random.bytes((offset + width).div_ceil(8) as usize);
    for i in 0..width {
        let at = offset + i;
        let mask = 0x80 >> (at % 8);
        bytes[(at / 8) as usize] &= !mask;
        if pattern >> (width - 1 - i) & 1 == 1 {
            bytes[(at / 8) as usize] |= mask;
        }
    }
    bytes
}

// Checking.

/// What is left of the file.
struct Rest<'a>(&'a [u8]);

impl<'a> Rest<'a> {
    fn byte(&mut self) -> Result<u8, String> {
        let (first, rest) = self.0.split_first().ok_or("the file ends early")?;
        self.0 = rest;
        Ok(*first)
    }

    fn number(&mut self) -> Result<u64, String> {
        let length = self.byte()?;
        if length > 8 {
            return Err(format!("a number of {length} bytes"));
        }
        (0..length).try_fold(0, |number, _| Ok(number << 8 | u64::from(self.byte()?)))
    }

    fn run(&mut self) -> Result<&'a [u8], String> {
        let length = self.number()? as usize;
        if length > self.0.len() {
            return Err("a run past the end".into());
        }
        let (run, rest) = self.0.split_at(length);
        self.0 = rest;
        Ok(run)
    }

    fn record(&mut self) -> Result<Record<'a>, String> {
        Ok(Record { bytes: self.run()?, offset: self.number()?, node: self.number()? })
    }
}

fn check(file: &str) -> Result<(), String> {
    let bytes = std::fs::read(file).map_err(|error| format!("{file}: {error}"))?;
    let mut rest = Rest(&bytes);
    let model = Model::new();
    let count = rest.number()?;
    let mut table = OwnedColumns::default();
    for case in 0..count {
        let first = rest.byte()?;
        if first == 255 {
            table = read_table(&model, rest.run()?)?;
            continue;
        }
        let call = Call::of_number(usize::from(first)).ok_or(format!("case {case}: no call {first}"))?;
        check_case(&model, call, &table, &mut rest).map_err(|why| format!("case {case}, {}: {why}", call.name()))?;
    }
    if !rest.0.is_empty() {
        return Err("bytes follow the last case".into());
    }
    println!("{file}: {count} cases, all as recorded");
    Ok(())
}

fn read_table(model: &Model, file: &[u8]) -> Result<OwnedColumns, String> {
    let columns = OwnedColumns::marked(COLUMNS);
    let mut answer = Answer::default();
    model.ask(&Request { data: file, ..Request::new(Call::ReadTable, columns.lend()) }, &mut answer);
    if answer.code != 0 {
        return Err("a table that is not sound".into());
    }
    answer.columns.count = answer.values[0];
    Ok(answer.columns)
}

fn check_case(model: &Model, call: Call, table: &OwnedColumns, rest: &mut Rest) -> Result<(), String> {
    let (a, b) = (rest.record()?, rest.record()?);
    let stream = Stream { bytes: rest.run()?, length: rest.number()?, position: rest.number()? };
    let (n, data, buffer) = (rest.number()?, rest.run()?, rest.run()?);
    let (node, other) = (rest.number()?, rest.number()?);
    let out = vec![OUT_BEFORE; rest.number()? as usize];
    let lent = if call == Call::ReadTable { OwnedColumns::marked(COLUMNS) } else { table.clone() };
    let q = Request { a, b, stream, n, data, buffer, node, other, out: &out, ..Request::new(call, lent.lend()) };
    let mut answer = Answer::default();
    model.ask(&q, &mut answer);
    let (code, position) = (rest.number()?, rest.number()?);
    if (code, position) != (answer.code, answer.position) {
        return Err(format!("{code} and {position} recorded, {} and {} now", answer.code, answer.position));
    }
    let values = (0..rest.number()?).map(|_| rest.number()).collect::<Result<Vec<_>, _>>()?;
    if code == 0 && values != answer.values || code != 0 && !values.is_empty() {
        return Err(format!("values {values:?} recorded, {:?} now", answer.values));
    }
    if rest.run()? != expected_out(&q, &answer) {
        return Err("another output recorded".into());
    }
    match rest.byte()? {
        0..=2 => Ok(()),
        word => Err(format!("no such word: {word}")),
    }
}

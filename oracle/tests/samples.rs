//! The samples of the rules, asked of the model and of the crate's text.

use oracle::agreement::{judge, Verdict};
use oracle::library::{Answer, Call, Facts, Library, OwnedColumns, Record, Request, Stream, GROUP_BYTES};
use oracle::model::Model;
use oracle::published::Published;
use oracle::supply::TableMaker;

const TABLE_S: [u8; 29] = [10, 0, 1, 0, 0, 2, 0, 0, 1, 0, 1, 2, 1, 1, 1, 1, 4, 1, 0, 0, 2, 5, 1, 1, 1, 0, 1, 1, 2];

/// The model's answer, with which the text agrees.
fn both(q: &Request) -> Answer {
    let mut answer = Answer::default();
    Model::new().ask(q, &mut answer);
    assert_eq!(judge(&Published::new(), q, &answer), Verdict::Agrees, "{}", q.call.name());
    answer
}

fn sample() -> OwnedColumns {
    let mut answer = Answer::default();
    let room = OwnedColumns::marked(10);
    Model::new().ask(&Request { data: &TABLE_S, ..Request::new(Call::ReadTable, room.lend()) }, &mut answer);
    assert_eq!((answer.code, answer.values[0]), (0, 10));
    answer.columns
}

fn facts(node: u64) -> Vec<u64> {
    both(&Request { node, ..Request::new(Call::FactsOf, sample().lend()) }).values
}

/// Reads compact bits: the refusal's number, the first byte of the record, the bits consumed.
fn compact(node: u64, byte: u8, length: u64) -> (u64, u8, u64) {
    let (table, bytes) = (sample(), [byte]);
    let stream = Stream { bytes: &bytes, length, position: 0 };
    let q = Request { stream, node, out: &[0], ..Request::new(Call::FromCompactBits, table.lend()) };
    let answer = both(&q);
    (answer.code, answer.out[0], answer.position)
}

/// Cuts a record: the refusal's number, the first byte of the result.
fn cut(node: u64, byte: u8, target: u64) -> (u64, u8) {
    let a = Record { bytes: &[byte], offset: 0, node };
    let answer = both(&Request { a, node: target, out: &[0], ..Request::new(Call::Prune, sample().lend()) });
    (answer.code, answer.out[0])
}

#[test]
fn m1_m2_facts() {
    assert_eq!(facts(6)[3], 1);
    assert_ne!(facts(3)[3], facts(8)[3]);
    assert_eq!(facts(5)[..3], [3, 11, 1]);
    assert_eq!(facts(7)[..2], [4, 15]);
    assert_eq!((0..10).map(|node| facts(node)[7]).collect::<Vec<_>>(), [0, 1, 0, 1, 2, 2, 1, 3, 1, 1]);
}

#[test]
fn m3_to_m7_compact_reading() {
    assert_eq!(compact(5, 0b0100_0000, 2), (0, 0b0010_0000, 2));
    assert_eq!(compact(5, 0b1100_0000, 3), (0, 0b1100_0000, 3));
    assert_eq!(compact(5, 0b1100_0000, 2), (8, 0, 0));
    assert_eq!(compact(7, 0b0110_0000, 3), (0, 0b0011_0000, 3));
    assert_eq!(compact(2, 0, 0), (0, 0, 0));
    assert_eq!(compact(1, 0, 0), (8, 0, 0));
}

#[test]
fn m8_a_view() {
    let a = Record { bytes: &[0b0110_0000], offset: 0, node: 5 };
    assert_eq!(both(&Request { a, ..Request::new(Call::AsLeft, sample().lend()) }).values, [2, 1]);
}

#[test]
fn m9_m10_cuts() {
    assert_eq!(cut(5, 0b0110_0000, 9), (0, 0b0100_0000));
    assert_eq!(cut(9, 0b0100_0000, 5), (0, 0b0010_0000));
    assert_eq!(cut(5, 0b0110_0000, 5), (0, 0b0110_0000));
    assert_eq!(cut(4, 0, 1).0, 7);
    for (node, byte) in [(5, 0b0110_0000), (9, 0b0100_0000), (5, 0b0010_0000)] {
        let a = Record { bytes: &[byte], offset: 0, node };
        let answer = both(&Request { a, out: &[0], ..Request::new(Call::ToCompactBits, sample().lend()) });
        assert_eq!((answer.values[0], answer.out[0]), (2, 0b0100_0000));
    }
}

#[test]
fn m11_left_halves_are_equal() {
    let (a, b) = (Record { bytes: &[0xC0], offset: 0, node: 1 }, Record { bytes: &[0x80], offset: 0, node: 1 });
    assert_eq!(both(&Request { a, b, ..Request::new(Call::Equal, sample().lend()) }).values, [1]);
}

#[test]
fn m12_and_the_second_buffer() {
    let mut maker = TableMaker::new();
    let (first, second) = (maker.buffer(0).into(), maker.buffer(1).into());
    let table = maker.finish();
    let q =
        Request { data: &[0xA5], node: first, out: &[0; 4], ..Request::new(Call::Buffer8TwoNPlusOne, table.lend()) };
    let answer = both(&q);
    assert_eq!((answer.values[0], &answer.out[..2]), (9, &[0xD2, 0x80][..]));
    let answer = both(&Request { n: 1, data: &[0xFF], node: second, ..q });
    assert_eq!((answer.values[0], &answer.out[..]), (26, &[0, 0, 0x7F, 0xC0][..]));
    let a = Record { bytes: &answer.out, offset: 0, node: second };
    let written = both(&Request { a, out: &[0; 2], ..Request::new(Call::ToCompactBits, table.lend()) });
    assert_eq!((written.values[0], &written.out[..]), (10, &[0x7F, 0xC0][..]));
}

#[test]
fn word_19_fits_and_word_20_does_not() {
    let mut maker = TableMaker::new();
    let (fits, too_wide) = (maker.word(19).into(), maker.word(20).into());
    let table = maker.finish();
    let zero = |node| {
        let mut answer = Answer::default();
        let out = vec![1; 65_536];
        Model::new().ask(&Request { node, out: &out, ..Request::new(Call::Zero, table.lend()) }, &mut answer);
        answer.code
    };
    assert_eq!((zero(fits), zero(too_wide)), (0, 3));
    assert_eq!(table.facts(fits as usize).size, 2_097_151);
}

#[test]
fn the_sample_of_the_report() {
    let mut answer = Answer::default();
    let room = OwnedColumns::marked(5);
    let q = Request { data: &[3, 0, 1, 0, 0, 2, 1, 1], ..Request::new(Call::ReadTable, room.lend()) };
    Model::new().ask(&q, &mut answer);
    let t = &answer.columns;
    let facts = |width, size, class, least| Facts { width, size, padded: 0, class, least };
    assert_eq!([0, 1, 2].map(|node| t.facts(node)), [facts(0, 1, 0, 0), facts(1, 3, 1, 1), facts(2, 7, 2, 2)]);
    assert_eq!(t.kinds[3], room.kinds[3], "entries past the count stay");
    assert_eq!(t.groups[3 * GROUP_BYTES..], room.groups[3 * GROUP_BYTES..], "bytes past the count's groups stay");
}

#[test]
fn a_group_is_width_size_padded_class_least_low_byte_first() {
    let mut maker = TableMaker::new();
    let (word, smaller) = (maker.word(16), maker.word(9));
    // Enough nodes that a class takes two bytes.
    while maker.count() < 300 {
        maker.push(0, 0, 0);
    }
    let node = usize::from(maker.push(1, smaller, word));
    let group = &maker.finish().groups[GROUP_BYTES * node..];
    let width = [1, 0, 1, 0, 0, 0, 0, 0];
    let size = [0xFF, 7, 4, 0, 0, 0, 0, 0];
    let least = [1, 2, 0, 0, 0, 0, 0, 0];
    assert_eq!(group, [&width[..], &size[..], &[1], &[0x2C, 0x01], &least].concat());
}

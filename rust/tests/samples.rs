//! The rules' own samples, through the safe face.

use quelomavunt::{Record, Refusal, Shape, Stream, Table, samples};

fn table() -> Table {
    Table::from_file(&samples::TABLE_S).expect("the sample table is sound")
}

/// Bits given as text.
fn bits(text: &str) -> (Vec<u8>, u64) {
    let mut bytes = vec![0; text.len().div_ceil(8)];
    for (i, c) in text.chars().enumerate() {
        bytes[i / 8] |= u8::from(c == '1') << (7 - i % 8);
    }
    (bytes, text.len() as u64)
}

/// Reads compact bits: the record, and how many bits it took.
fn compact(node: usize, text: &str) -> Result<(Vec<u8>, u64), Refusal> {
    let (bytes, length) = bits(text);
    let mut out = vec![0; 1];
    let mut stream = Stream { bytes: &bytes, length, position: 0 };
    table().from_compact_bits(&mut stream, node, &mut out)?;
    Ok((out, stream.position))
}

#[test]
fn m1_and_m2_facts() {
    let t = table();
    assert_eq!(t.facts_of(6).unwrap().class, 1);
    assert!(!t.same_type(3, 8).unwrap());
    let facts = t.facts_of(5).unwrap();
    assert_eq!((facts.width, facts.size, facts.padded, facts.least), (3, 11, true, 2));
    let facts = t.facts_of(7).unwrap();
    assert_eq!((facts.width, facts.size, facts.least), (4, 15, 3));
    assert_eq!(facts.shape, Shape::Product { left: 5, right: 1 });
    let leasts: Vec<u64> = (0..t.len()).map(|node| t.facts_of(node).unwrap().least).collect();
    assert_eq!(leasts, [0, 1, 0, 1, 2, 2, 1, 3, 1, 1]);
}

#[test]
fn m3_to_m7_compact_reading() {
    assert_eq!(compact(5, "01").unwrap(), (bits("001").0, 2));
    assert_eq!(compact(5, "110").unwrap(), (bits("110").0, 3));
    assert_eq!(compact(5, "11").unwrap_err().number, 8);
    assert_eq!(compact(7, "011").unwrap(), (bits("0011").0, 3));
    assert_eq!(compact(2, "").unwrap().1, 0);
    assert_eq!(compact(1, "").unwrap_err().number, 8);
}

#[test]
fn m8_a_left_view() {
    let bytes = bits("011").0;
    let view = table().as_left(Record::new(&bytes, 0, 5)).unwrap();
    assert_eq!(view, Record::new(&bytes, 2, 1));
}

#[test]
fn m9_and_m10_cuts() {
    let t = table();
    let record = bits("011").0;
    let mut short = [0];
    t.prune(Record::new(&record, 0, 5), 9, &mut short).unwrap();
    assert_eq!(short, bits("01").0[..]);
    let mut back = [0];
    t.prune(Record::new(&short, 0, 9), 5, &mut back).unwrap();
    assert_eq!(back, bits("001").0[..]);
    let mut own = [0];
    t.prune(Record::new(&record, 0, 5), 5, &mut own).unwrap();
    assert_eq!(own, bits("011").0[..]);
    for (bytes, node) in [(&record[..], 5), (&short[..], 9), (&back[..], 5), (&own[..], 5)] {
        let mut out = [0];
        assert_eq!(t.to_compact_bits(Record::new(bytes, 0, node), &mut out).unwrap(), 2);
        assert_eq!(out, bits("01").0[..]);
    }
    assert_eq!(t.prune(Record::new(&[0], 0, 4), 1, &mut [0]).unwrap_err().number, 7);
}

#[test]
fn m11_neighbours_do_not_matter() {
    let (a, b) = (bits("11").0, bits("10").0);
    let t = table();
    let left = |bytes| t.as_product(Record::new(bytes, 0, 4)).unwrap().0;
    assert!(t.equal(left(&a), left(&b)).unwrap());
}

#[test]
fn m12_and_the_second_buffer() {
    // 1, 2, 2^2, 2^4, 2^8, 2^16, 1 + 2^8, 1 + 2^16, buffer 1
    let file = [9, 0, 1, 0, 0, 2, 1, 1, 2, 2, 2, 2, 3, 3, 2, 4, 4, 1, 0, 4, 1, 0, 5, 2, 7, 6];
    let t = Table::from_file(&file).unwrap();
    let mut out = [0; 2];
    assert_eq!(t.buffer8_two_n_plus_one(0, &[0xA5], 6, &mut out).unwrap(), 9);
    assert_eq!(out, [0xD2, 0x80]);
    let mut out = [0; 4];
    assert_eq!(t.buffer8_two_n_plus_one(1, &[0xFF], 8, &mut out).unwrap(), 26);
    assert_eq!(out, [0, 0, 0x7F, 0xC0]);
    let mut compact = [0; 2];
    assert_eq!(t.to_compact_bits(Record::new(&out, 0, 8), &mut compact).unwrap(), 10);
    assert_eq!(compact, [0x7F, 0xC0]);
}

#[test]
fn a_refusal_says_what_it_means() {
    let refusal = Table::from_file(&[]).unwrap_err();
    assert_eq!(refusal.to_string(), "refused 1 at 0: unsound table or facts");
    let meanings: Vec<&str> = (1..=9).map(|number| Refusal { number, place: 0 }.meaning()).collect();
    for (i, meaning) in meanings.iter().enumerate() {
        assert!(!meanings[..i].contains(meaning), "each number has a meaning of its own");
    }
}

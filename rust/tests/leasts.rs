//! The least compact length, held to what it promises: every small type with all its records and all its short streams,
//! the structure of types whose numbers stop at the end of 64 bits, and groups in which it is wrong.

use quelomavunt::raw::{self, Columns, GROUP_BYTES};
use quelomavunt::{Record, Stream, Table, samples};

/// Where a group has the least compact length.
const LEAST: std::ops::Range<usize> = 19..27;

/// A table under way.
#[derive(Default)]
struct Types {
    kinds: Vec<u8>,
    lefts: Vec<u16>,
    rights: Vec<u16>,
}

impl Types {
    fn push(&mut self, kind: u8, left: usize, right: usize) -> usize {
        self.kinds.push(kind);
        self.lefts.push(left as u16);
        self.rights.push(right as u16);
        self.kinds.len() - 1
    }

    /// The fewest compact bits of each type, by its structure. True numbers as far as 128 bits go, and only then brought
    /// to 64.
    fn by_structure(&self) -> Vec<u64> {
        let mut fewest: Vec<u128> = Vec::new();
        for (node, kind) in self.kinds.iter().enumerate() {
            let (left, right) = (usize::from(self.lefts[node]), usize::from(self.rights[node]));
            fewest.push(match kind {
                0 => 0,
                1 => fewest[left].min(fewest[right]).saturating_add(1),
                _ => fewest[left].saturating_add(fewest[right]),
            });
        }
        fewest.into_iter().map(|bits| u64::try_from(bits).unwrap_or(u64::MAX)).collect()
    }

    fn table(&self) -> Table {
        Table::from_columns(self.kinds.clone(), self.lefts.clone(), self.rights.clone()).expect("sound entries")
    }
}

/// Every type of up to four sums and products, each once; then two sums whose narrower side has the greater least length,
/// with their parts.
fn small_types() -> Types {
    let mut types = Types::default();
    types.push(0, 0, 0);
    let mut inner = vec![0];
    for total in 1..=4 {
        let count = inner.len();
        for (left, right) in (0..count).flat_map(|left| (0..count).map(move |right| (left, right))) {
            if inner[left] + inner[right] + 1 == total {
                types.push(1, left, right);
                types.push(2, left, right);
                inner.extend([total, total]);
            }
        }
    }
    assert_eq!(inner.len(), 1 + 2 + 8 + 40 + 224);
    let two = types.push(1, 0, 0);
    let narrow = types.push(2, two, two);
    let four_bits = types.push(2, narrow, narrow);
    let short = types.push(1, 0, four_bits);
    types.push(1, narrow, short);
    types.push(1, short, narrow);
    types
}

#[test]
fn every_small_record_has_the_least_or_more_and_one_has_just_so_many() {
    let types = small_types();
    let (table, by_structure) = (types.table(), types.by_structure());
    for (node, least) in by_structure.into_iter().enumerate() {
        let facts = table.facts_of(node).unwrap();
        assert_eq!(facts.least, least, "node {node}");
        let lengths: Vec<u64> = (0..1u16 << facts.width)
            .map(|pattern| table.compact_len(Record::new(&[(pattern << (8 - facts.width)) as u8], 0, node)).unwrap())
            .collect();
        assert!(lengths.iter().all(|bits| (facts.least..=facts.width).contains(bits)), "node {node}: {lengths:?}");
        assert!(lengths.contains(&facts.least), "node {node}: {lengths:?}");
    }
}

#[test]
fn no_stream_shorter_than_the_least_is_a_record_and_one_of_its_length_is() {
    let types = small_types();
    let table = types.table();
    for node in 0..table.len() {
        let facts = table.facts_of(node).unwrap();
        for length in 0..=facts.width {
            let mut accepted = 0;
            for pattern in 0..1u16 << length {
                let bytes = [(pattern << (8 - length)) as u8];
                let mut stream = Stream { bytes: &bytes, length, position: 0 };
                match table.from_compact_bits(&mut stream, node, &mut [0]) {
                    Ok(()) => accepted += 1,
                    Err(refusal) => assert_eq!(refusal.number, 8, "node {node}"),
                }
            }
            assert_eq!(accepted > 0, length >= facts.least, "node {node}, {length} bits");
        }
    }
}

#[test]
fn the_least_stops_at_the_end_by_each_addition() {
    let mut types = Types::default();
    let unit = types.push(0, 0, 0);
    // Words 0 to 63, and side by side so far: 2^(n+1) - 1 bits.
    let mut word = types.push(1, unit, unit);
    let mut all = word;
    for _ in 1..64 {
        word = types.push(2, word, word);
        all = types.push(2, all, word);
    }
    let beyond = types.push(2, word, word);
    let (far_beyond, one_more) = (types.push(2, beyond, all), types.push(2, all, 1));
    let (small, choice) = (types.push(1, unit, all), types.push(1, all, word));
    let (tagged, twice) = (types.push(1, all, beyond), types.push(2, choice, choice));
    let at_the_end = [all, beyond, far_beyond, one_more, tagged, twice];
    let (table, by_structure) = (types.table(), types.by_structure());
    let leasts: Vec<u64> = (0..table.len()).map(|node| table.facts_of(node).unwrap().least).collect();
    assert_eq!(leasts, by_structure);
    assert_eq!(at_the_end.map(|node| leasts[node]), [u64::MAX; 6]);
    assert_eq!([word, small, choice].map(|node| leasts[node]), [1 << 63, 1, (1 << 63) + 1]);
    assert!([small, choice].iter().all(|node| table.facts_of(*node).unwrap().width == u64::MAX));
}

#[test]
fn a_wrong_least_is_1_at_its_node() {
    let table = Table::from_file(&samples::TABLE_S).expect("the sample table is sound");
    let lent = table.columns();
    let refused = |groups: &[u8], node: usize| {
        let wrong = Columns { groups, ..lent };
        assert_eq!(raw::check_table(&wrong), 1 + 256 * node as u64, "node {node}: {groups:?}");
        let mut facts = [7; 8];
        assert_eq!(raw::facts_of(&wrong, 0, &mut facts), 1 + 256 * node as u64);
        assert_eq!(facts, [7; 8], "a refusal changes nothing");
    };
    for node in 0..table.len() {
        let at = GROUP_BYTES * node;
        let facts = table.facts_of(node).unwrap();
        assert_eq!(lent.groups[at..][LEAST], facts.least.to_le_bytes());
        for byte in LEAST {
            for change in 1..=255 {
                let mut groups = lent.groups.to_vec();
                groups[at + byte] ^= change;
                refused(&groups, node);
            }
        }
        // Numbers that are near the right one, or another fact's.
        let near = [facts.least + 1, facts.least.wrapping_sub(1), facts.least << 56];
        for wrong in near.into_iter().chain([0, facts.width, facts.size, 3, u64::MAX]).filter(|n| *n != facts.least) {
            let mut groups = lent.groups.to_vec();
            groups[at..][LEAST].copy_from_slice(&wrong.to_le_bytes());
            refused(&groups, node);
        }
    }
}

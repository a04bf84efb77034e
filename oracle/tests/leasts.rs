//! The model's least compact length against the crate's text, which has no such number: the shortest of all values of a
//! type, by the text's own `compact_len`.

use oracle::published::Published;
use oracle::supply::{crossed_trees, trees_up_to, TableMaker};
use oracle::{BitIter, Value};

#[test]
fn the_least_is_the_compact_length_of_the_shortest_value() {
    let mut maker = TableMaker::new();
    let trees = [trees_up_to(4), crossed_trees()].concat();
    let nodes: Vec<u16> = trees.iter().map(|tree| maker.add_shared(tree)).collect();
    let table = maker.finish();
    let types = Published::new().types(&table.lend());
    for node in nodes.into_iter().map(usize::from) {
        let (facts, ty) = (table.facts(node), &types[node]);
        let lengths: Vec<u64> = (0..1u64 << facts.width)
            .map(|pattern| (pattern << (8 - facts.width)) as u8)
            .map(|byte| Value::from_padded_bits(&mut BitIter::new([byte].into_iter()), ty).expect("enough bits"))
            .map(|value| value.compact_len() as u64)
            .collect();
        assert_eq!(lengths.iter().min(), Some(&facts.least), "{ty}");
        assert!(lengths.iter().all(|bits| *bits <= facts.width), "{ty}");
    }
}

#[test]
fn the_least_stops_with_each_addition() {
    let mut maker = TableMaker::new();
    let word = maker.word(63);
    let next = maker.shared(2, word, word);
    let past = maker.shared(2, next, word);
    let tagged = maker.shared(1, next, past);
    // A sum takes the smaller side, whatever the other is.
    let (choice, small) = (maker.shared(1, next, word), maker.shared(1, 0, past));
    let both = maker.shared(2, choice, choice);
    let table = maker.finish();
    let least = |node: u16| table.facts(usize::from(node)).least;
    assert_eq!([word, next, past, tagged, both].map(least), [1 << 63, u64::MAX, u64::MAX, u64::MAX, u64::MAX]);
    assert_eq!([choice, small].map(least), [(1 << 63) + 1, 1]);
}

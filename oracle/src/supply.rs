//! Types, tables and random numbers for whoever asks questions.
//!
//! * `Random`: a small seeded generator; the same seed gives the same run
//! * `Tree`: a type as a tree; `all_trees` lists every one of a given number of inner nodes
//! * `TableMaker`: puts trees into a table, sharing equal parts or not

use crate::library::OwnedColumns;
use crate::model::{Entries, Model};
use std::collections::HashMap;
use std::rc::Rc;

/// A seeded generator (splitmix64).
#[derive(Clone, Debug)]
pub struct Random(u64);

impl Random {
    /// The generator of a seed.
    pub fn new(seed: u64) -> Random {
        Random(seed)
    }

    /// The next 64 bits.
    pub fn draw(&mut self) -> u64 {
        self.0 = self.0.wrapping_add(0x9E37_79B9_7F4A_7C15);
        let mut z = self.0;
        z = (z ^ z >> 30).wrapping_mul(0xBF58_476D_1CE4_E5B9);
        z = (z ^ z >> 27).wrapping_mul(0x94D0_49BB_1331_11EB);
        z ^ z >> 31
    }

    /// A number below `end`, which is not 0.
    pub fn below(&mut self, end: u64) -> u64 {
        self.draw() % end
    }

    /// One time in `n`.
    pub fn one_in(&mut self, n: u64) -> bool {
        self.below(n) == 0
    }

    /// One of a list.
    pub fn pick<'a, T>(&mut self, list: &'a [T]) -> &'a T {
        &list[self.below(list.len() as u64) as usize]
    }

    /// Random bytes.
    pub fn bytes(&mut self, count: usize) -> Vec<u8> {
        (0..count).map(|_| self.draw() as u8).collect()
    }
}

/// A type as a tree.
#[derive(Clone, PartialEq, Eq, Hash, Debug)]
pub enum Tree {
    Unit,
    Sum(Rc<Tree>, Rc<Tree>),
    Product(Rc<Tree>, Rc<Tree>),
}

impl Tree {
    pub fn unit() -> Rc<Tree> {
        Rc::new(Tree::Unit)
    }

    pub fn sum(left: &Rc<Tree>, right: &Rc<Tree>) -> Rc<Tree> {
        Rc::new(Tree::Sum(Rc::clone(left), Rc::clone(right)))
    }

    pub fn product(left: &Rc<Tree>, right: &Rc<Tree>) -> Rc<Tree> {
        Rc::new(Tree::Product(Rc::clone(left), Rc::clone(right)))
    }
}

/// Every tree with exactly `inner` sums and products.
pub fn all_trees(inner: usize) -> Vec<Rc<Tree>> {
    let mut by_inner: Vec<Vec<Rc<Tree>>> = vec![vec![Tree::unit()]];
    for total in 1..=inner {
        let mut trees = Vec::new();
        for on_left in 0..total {
            for left in &by_inner[on_left] {
                for right in &by_inner[total - 1 - on_left] {
                    trees.push(Tree::sum(left, right));
                    trees.push(Tree::product(left, right));
                }
            }
        }
        by_inner.push(trees);
    }
    by_inner.pop().expect("one list for each number")
}

/// Every tree with up to `inner` sums and products.
pub fn trees_up_to(inner: usize) -> Vec<Rc<Tree>> {
    (0..=inner).flat_map(all_trees).collect()
}

/// Sums of a word of two bits and an absent or present one of four, in both orders: the narrower side has the greater
/// least length. In trees of a few inner nodes the two go together.
pub fn crossed_trees() -> Vec<Rc<Tree>> {
    let two = Tree::sum(&Tree::unit(), &Tree::unit());
    let narrow = Tree::product(&two, &two);
    let short = Tree::sum(&Tree::unit(), &Tree::product(&narrow, &narrow));
    vec![Tree::sum(&narrow, &short), Tree::sum(&short, &narrow)]
}

/// Puts nodes into a table.
#[derive(Clone, Debug, Default)]
pub struct TableMaker {
    pub entries: Entries,
    known: HashMap<(u8, u16, u16), u16>,
}

impl TableMaker {
    /// A table with no node yet.
    pub fn new() -> TableMaker {
        TableMaker::default()
    }

    /// How many nodes there are.
    pub fn count(&self) -> usize {
        self.entries.kinds.len()
    }

    /// A new node, also where the same one is there.
    pub fn push(&mut self, kind: u8, left: u16, right: u16) -> u16 {
        let node = self.count() as u16;
        self.entries.kinds.push(kind);
        self.entries.lefts.push(left);
        self.entries.rights.push(right);
        self.known.entry((kind, left, right)).or_insert(node);
        node
    }

    /// A node with this entry: one that is there, or a new one.
    pub fn shared(&mut self, kind: u8, left: u16, right: u16) -> u16 {
        match self.known.get(&(kind, left, right)) {
            Some(node) => *node,
            None => self.push(kind, left, right),
        }
    }

    /// A tree with every part shared that can be.
    pub fn add_shared(&mut self, tree: &Tree) -> u16 {
        match tree {
            Tree::Unit => self.shared(0, 0, 0),
            Tree::Sum(l, r) => {
                let (l, r) = (self.add_shared(l), self.add_shared(r));
                self.shared(1, l, r)
            }
            Tree::Product(l, r) => {
                let (l, r) = (self.add_shared(l), self.add_shared(r));
                self.shared(2, l, r)
            }
        }
    }

    /// A tree with a node of its own for each of its parts, so that class and number differ.
    pub fn add_spread(&mut self, tree: &Tree) -> u16 {
        match tree {
            Tree::Unit => self.push(0, 0, 0),
            Tree::Sum(l, r) => {
                let (l, r) = (self.add_spread(l), self.add_spread(r));
                self.push(1, l, r)
            }
            Tree::Product(l, r) => {
                let (l, r) = (self.add_spread(l), self.add_spread(r));
                self.push(2, l, r)
            }
        }
    }

    /// The word type 2^(2^n).
    pub fn word(&mut self, n: u32) -> u16 {
        let unit = self.shared(0, 0, 0);
        let mut node = self.shared(1, unit, unit);
        for _ in 0..n {
            node = self.shared(2, node, node);
        }
        node
    }

    /// Buffer type n.
    pub fn buffer(&mut self, n: u32) -> u16 {
        let unit = self.shared(0, 0, 0);
        let word = self.word(n + 3);
        let run = self.shared(1, unit, word);
        if n == 0 {
            return run;
        }
        let tail = self.buffer(n - 1);
        self.shared(2, run, tail)
    }

    /// The type of the hash state.
    pub fn ctx8(&mut self) -> u16 {
        let buffer = self.buffer(5);
        let (count, midstate) = (self.word(6), self.word(8));
        let rest = self.shared(2, count, midstate);
        self.shared(2, buffer, rest)
    }

    /// The table with its facts.
    pub fn finish(&self) -> OwnedColumns {
        Model::with_facts(&self.entries)
    }

    /// The table's file.
    pub fn file(&self) -> Vec<u8> {
        let mut file = Vec::new();
        put_number(&mut file, self.count() as u16);
        for node in 0..self.count() {
            put_number(&mut file, u16::from(self.entries.kinds[node]));
            if self.entries.kinds[node] != 0 {
                put_number(&mut file, self.entries.lefts[node]);
                put_number(&mut file, self.entries.rights[node]);
            }
        }
        file
    }
}

/// A number of the file form.
pub fn put_number(file: &mut Vec<u8>, number: u16) {
    if number < 128 {
        file.push(number as u8);
    } else {
        file.push((number % 128) as u8 | 128);
        file.push((number / 128) as u8);
    }
}

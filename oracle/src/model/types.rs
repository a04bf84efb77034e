//! A list of types: each is unit, a sum or a product of earlier ones; their facts; which are the same tree.

/// What a type is. Sides are numbers of earlier types.
#[derive(Clone, Copy, PartialEq, Eq, Debug)]
pub enum Shape {
    Unit,
    Sum(usize, usize),
    Product(usize, usize),
}

/// Types, each with its facts.
#[derive(Clone, Debug, Default)]
pub struct Types {
    shapes: Vec<Shape>,
    widths: Vec<u64>,
    sizes: Vec<u64>,
    padded: Vec<bool>,
    classes: Vec<usize>,
    leasts: Vec<u64>,
    /// `same[i][j]` for j ≤ i: types i and j are the same tree.
    same: Vec<Vec<bool>>,
    /// The n of type i, if it is the word type 2^(2^n).
    words: Vec<Option<u64>>,
}

impl Types {
    pub fn count(&self) -> usize {
        self.shapes.len()
    }

    pub fn shape(&self, node: usize) -> Shape {
        self.shapes[node]
    }

    pub fn width(&self, node: usize) -> u64 {
        self.widths[node]
    }

    pub fn size(&self, node: usize) -> u64 {
        self.sizes[node]
    }

    pub fn padded(&self, node: usize) -> bool {
        self.padded[node]
    }

    /// The smallest number of a type with the same tree.
    pub fn class(&self, node: usize) -> usize {
        self.classes[node]
    }

    /// The least compact length of a record.
    pub fn least(&self, node: usize) -> u64 {
        self.leasts[node]
    }

    /// Whether both are the same tree.
    pub fn same(&self, a: usize, b: usize) -> bool {
        self.same[a.max(b)][a.min(b)]
    }

    /// The n of a word type of any n.
    pub fn word(&self, node: usize) -> Option<u64> {
        self.words[node]
    }

    /// Adds a type whose sides, if any, are here already.
    pub fn add(&mut self, shape: Shape) {
        let (width, size, padded, least) = match shape {
            Shape::Unit => (0, 1, false, 0),
            Shape::Sum(l, r) => (
                1u64.saturating_add(self.widths[l].max(self.widths[r])),
                1u64.saturating_add(self.sizes[l]).saturating_add(self.sizes[r]),
                self.padded[l] || self.padded[r] || self.widths[l] != self.widths[r],
                1u64.saturating_add(self.leasts[l].min(self.leasts[r])),
            ),
            Shape::Product(l, r) => (
                self.widths[l].saturating_add(self.widths[r]),
                1u64.saturating_add(self.sizes[l]).saturating_add(self.sizes[r]),
                self.padded[l] || self.padded[r],
                self.leasts[l].saturating_add(self.leasts[r]),
            ),
        };
        let word = match shape {
            Shape::Sum(l, r) if self.shapes[l] == Shape::Unit && self.shapes[r] == Shape::Unit => Some(0),
            Shape::Product(l, r) => match (self.words[l], self.words[r]) {
                (Some(m), Some(n)) if m == n => Some(n + 1),
                _ => None,
            },
            _ => None,
        };
        let same: Vec<bool> = (0..self.count()).map(|j| self.same_tree(shape, self.shapes[j])).collect();
        let class = same.iter().position(|is| *is).unwrap_or(self.count());
        self.shapes.push(shape);
        self.widths.push(width);
        self.sizes.push(size);
        self.padded.push(padded);
        self.words.push(word);
        self.classes.push(class);
        self.leasts.push(least);
        self.same.push(same);
        self.same.last_mut().expect("just added").push(true);
    }

    fn same_tree(&self, a: Shape, b: Shape) -> bool {
        match (a, b) {
            (Shape::Unit, Shape::Unit) => true,
            (Shape::Sum(al, ar), Shape::Sum(bl, br)) => self.same(al, bl) && self.same(ar, br),
            (Shape::Product(al, ar), Shape::Product(bl, br)) => self.same(al, bl) && self.same(ar, br),
            _ => false,
        }
    }
}

//! The sample table that the examples use.

/// A table file of ten nodes:
///
/// | node | type | width | least compact length |
/// |---|---|---|---|
/// | 0 | 1 | 0 | 0 |
/// | 1 | 1 + 1, the one-bit word | 1 | 1 |
/// | 2 | 1 × 1 | 0 | 0 |
/// | 3 | 1 + 2 | 2 | 1 |
/// | 4 | 2 × 2, the two-bit word | 2 | 2 |
/// | 5 | 2 + 2 × 2 | 3 | 2 |
/// | 6 | 1 + 1 again | 1 | 1 |
/// | 7 | node 5 × 2 | 4 | 3 |
/// | 8 | 2 + 1 | 2 | 1 |
/// | 9 | 2 + 1 × 1 | 2 | 1 |
pub const TABLE_S: [u8; 29] = [10, 0, 1, 0, 0, 2, 0, 0, 1, 0, 1, 2, 1, 1, 1, 1, 4, 1, 0, 0, 2, 5, 1, 1, 1, 0, 1, 1, 2];

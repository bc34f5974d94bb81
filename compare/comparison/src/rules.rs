// Document 01's rules for what a call answers, stated for the comparison from that page alone:
// limits, lengths, patterns, numbers, and the order in which they are asked. Nothing here is taken from the port.

/// The numbers of the table "Numbers a call answers with", in its checking order.
pub const ORDER: [u32; 11] = [1, 10, 2, 3, 11, 6, 7, 8, 5, 4, 9];

/// "After 1, 10, 2, 3, 11, 6, 7 and 8 no lent word has changed."
pub const UNCHANGED: [u32; 8] = [1, 10, 2, 3, 11, 6, 7, 8];

/// "After 4 and 5 all output and work words are 0."
pub const CLEARED: [u32; 2] = [4, 5];

pub const DONE: u32 = 0;
pub const SIZE: u32 = 1;
pub const LIMIT: u32 = 10;
pub const SHAPE: u32 = 2;
pub const PATTERN: u32 = 3;
pub const SPLIT: u32 = 11;
pub const NODE: u32 = 6;
pub const NO_ENTRY: u32 = 7;
pub const NO_PLACE: u32 = 8;
pub const ROOM: u32 = 4;
pub const SINGULAR: u32 = 9;

/// The first number, in the table's order, of those whose condition holds; 0 if none does.
/// The conditions may be given in any order.
pub fn first_refusal(conditions: &[(u32, bool)]) -> u32 {
    let holds = |number: &u32| conditions.iter().any(|&(no, held)| no == *number && held);
    ORDER.into_iter().find(|no| holds(no)).unwrap_or(DONE)
}

/// "Rows n: 1 to 4,096."
pub fn rows_in_range(n: u128) -> bool {
    (1..=4096).contains(&n)
}

/// "Entries of any pattern: 0 to 65,535."
pub fn entries_in_range(entries: usize) -> bool {
    entries <= 65_535
}

/// "Nodes m of an element: 1 to 8."
pub fn nodes_in_range(nodes: u128) -> bool {
    (1..=8).contains(&nodes)
}

/// "Iteration limit: 0 to 4,096."
pub fn limit_in_range(limit: u32) -> bool {
    limit <= 4096
}

/// "N is 1, 2 or 3 values per row."
pub fn is_dim(dim: u32) -> bool {
    [1, 2, 3].contains(&dim)
}

/// How many values a lent slice stands for.
#[derive(Clone, Copy, Debug, PartialEq, Eq)]
pub enum Shape {
    /// N values.
    Vector,
    /// B = N*N values.
    Block,
}

impl Shape {
    pub fn values(self, dim: usize) -> usize {
        match self {
            Shape::Vector => dim,
            Shape::Block => dim * dim,
        }
    }

    /// 8 bytes for each value.
    pub fn bytes(self, dim: usize) -> usize {
        8 * self.values(dim)
    }
}

/// What a call on vectors and blocks in bytes is refused by before it does anything, or 0.
pub fn byte_call_refusal(dim: u32, lent: &[(Shape, usize)]) -> u32 {
    let misshapen = !is_dim(dim)
        || lent
            .iter()
            .any(|&(shape, length)| length != shape.bytes(dim as usize));
    first_refusal(&[(SHAPE, misshapen)])
}

/// What a call that is given n and one vector of `dim` values a row is refused by, or 0.
pub fn vector_refusal(n: u32, dim: u32, length: usize) -> u32 {
    let (n, dim, length) = (u128::from(n), u128::from(dim), length as u128);
    first_refusal(&[(SIZE, !rows_in_range(n)), (SHAPE, length != dim * n)])
}

/// What lengths are worked out from.
#[derive(Clone, Copy, Debug, Default)]
pub struct Counts {
    pub dim: u32,
    pub rows: usize,
    /// The entries of a pattern that is read, or the room for those of one that is written.
    pub entries: usize,
    /// The entries of A, where it is lent beside a factor.
    pub entries_of_a: usize,
    pub nodes: usize,
    /// The limit of a solver's steps.
    pub limit: u32,
}

/// How many words a lent slice has to have, by the sentence that begins "Lengths:".
#[derive(Clone, Copy, Debug, PartialEq, Eq)]
pub enum Length {
    /// Offsets and columns: however many there are, they say what n and the entries are.
    Any,
    /// "Offsets n+1", of a pattern that is written.
    Offsets,
    /// "Room is the length of the lent output columns, at most 65,535; longer is 2."
    Room,
    /// "Splits n."
    Splits,
    /// "Lengths of work slices are fixed in docs/": a level for each entry that there is room for.
    Levels,
    /// Likewise: a mark for each column of a row.
    Marks,
    /// "Vectors and flags N*n."
    Rows,
    /// "Flags may be longer than the vector."
    RowsOrMore,
    /// "Diagonal values B*n."
    Diagonal,
    /// "Entry values B per entry."
    Entries,
    /// The same of A's entries, where it is lent beside a factor.
    EntriesOfA,
    /// "Nodes m of an element: 1 to 8", in each of an element's lists.
    Nodes,
    /// "Element values m*m*B."
    Element,
    /// "A history needs at least the limit (plain)."
    Ratios,
    /// "Or the limit plus 2 (preconditioned)."
    Norms,
}

impl Length {
    /// The right number of words; None where any number is.
    pub fn right(self, counts: &Counts) -> Option<u128> {
        let [rows, entries, entries_of_a, nodes] = [
            counts.rows,
            counts.entries,
            counts.entries_of_a,
            counts.nodes,
        ]
        .map(|count| count as u128);
        let dim = u128::from(counts.dim);
        let block = dim * dim;
        match self {
            Length::Any => None,
            Length::Offsets => Some(rows + 1),
            Length::Room | Length::Levels => Some(entries),
            Length::Splits | Length::Marks => Some(rows),
            Length::Rows | Length::RowsOrMore => Some(dim * rows),
            Length::Diagonal => Some(block * rows),
            Length::Entries => Some(block * entries),
            Length::EntriesOfA => Some(block * entries_of_a),
            Length::Nodes => Some(nodes),
            Length::Element => Some(nodes * nodes * block),
            Length::Ratios => Some(u128::from(counts.limit)),
            Length::Norms => Some(u128::from(counts.limit) + 2),
        }
    }

    fn allows(self, words: u128, counts: &Counts) -> bool {
        let Some(right) = self.right(counts) else {
            return true;
        };
        match self {
            Length::RowsOrMore | Length::Ratios | Length::Norms => words >= right,
            Length::Room => words == right && entries_in_range(words as usize),
            Length::Nodes => words == right && nodes_in_range(words),
            _ => words == right,
        }
    }
}

/// A slice as it is lent in bytes: how many, how many are a word, and what its length has to be.
#[derive(Clone, Copy)]
pub struct Measured {
    pub bytes: usize,
    pub word: usize,
    pub length: Length,
}

impl Measured {
    fn is_right(&self, counts: &Counts) -> bool {
        let words = (self.bytes / self.word) as u128;
        self.bytes.is_multiple_of(self.word) && self.length.allows(words, counts)
    }
}

/// Whether N is none, or some lent slice is not whole words or has the wrong length.
pub fn is_misshapen(counts: &Counts, lent: &[Measured]) -> bool {
    !is_dim(counts.dim) || lent.iter().any(|slice| !slice.is_right(counts))
}

/// A pattern as it is lent: the whole words of both slices.
#[derive(Clone, Copy)]
pub struct Pattern<'a> {
    pub offsets: &'a [u32],
    pub columns: &'a [u32],
}

impl<'a> Pattern<'a> {
    /// "n is 0 (offsets of length 0 or 1)."
    pub fn rows(&self) -> usize {
        self.offsets.len().saturating_sub(1)
    }

    /// The columns of row i, which has to be a row; none if its offsets are no part of the columns.
    fn row(&self, i: usize) -> &'a [u32] {
        let (from, to) = (self.offsets[i] as usize, self.offsets[i + 1] as usize);
        self.columns.get(from..to).unwrap_or(&[])
    }

    fn every_row(&self, holds: impl Fn(usize, &[u32]) -> bool) -> bool {
        (0..self.rows()).all(|i| holds(i, self.row(i)))
    }
}

/// "n is 0 or above 4,096; more than 65,535 columns of an input pattern."
pub fn is_too_large(pattern: &Pattern) -> bool {
    !rows_in_range(pattern.rows() as u128) || !entries_in_range(pattern.columns.len())
}

/// "Offsets: n+1 numbers, first 0."
pub fn starts_at_zero(pattern: &Pattern) -> bool {
    pattern.offsets.first() == Some(&0)
}

/// "Never falling."
pub fn never_falls(pattern: &Pattern) -> bool {
    pattern.offsets.is_sorted()
}

/// "Last equal to the number of columns lent."
pub fn ends_at_the_count(pattern: &Pattern) -> bool {
    let last = pattern.offsets.last();
    last.is_some_and(|&last| last as usize == pattern.columns.len())
}

/// "Every column is below n."
pub fn columns_are_below_n(pattern: &Pattern) -> bool {
    let columns = pattern.columns.iter();
    columns
        .copied()
        .all(|column| (column as usize) < pattern.rows())
}

/// "And stands once in its row."
pub fn columns_stand_once(pattern: &Pattern) -> bool {
    pattern.every_row(|_, row| {
        let mut sorted = row.to_vec();
        sorted.sort_unstable();
        sorted.windows(2).all(|pair| pair[0] != pair[1])
    })
}

/// "The row's own column is absent."
pub fn own_columns_are_absent(pattern: &Pattern) -> bool {
    pattern.every_row(|i, row| row.iter().all(|&column| column as usize != i))
}

/// "Except for `blkcsr`, where it may stand": a valid pattern but for the last rule.
pub fn is_valid_with_own_columns(pattern: &Pattern) -> bool {
    starts_at_zero(pattern)
        && never_falls(pattern)
        && ends_at_the_count(pattern)
        && columns_are_below_n(pattern)
        && columns_stand_once(pattern)
}

pub fn is_valid(pattern: &Pattern) -> bool {
    is_valid_with_own_columns(pattern) && own_columns_are_absent(pattern)
}

/// "In a factor pattern rows rise strictly."
pub fn rows_rise(pattern: &Pattern) -> bool {
    pattern.every_row(|_, row| row.windows(2).all(|pair| pair[0] < pair[1]))
}

/// "The split of row i is the first place whose column exceeds i, or the row's end."
pub fn splits_are_right(pattern: &Pattern, splits: &[u32]) -> bool {
    let split = |i: usize, row: &[u32]| {
        let above = row.iter().position(|&column| column as usize > i);
        pattern.offsets[i] as usize + above.unwrap_or(row.len())
    };
    splits.len() == pattern.rows()
        && pattern.every_row(|i, row| splits[i] as usize == split(i, row))
}

/// "A valid factor pattern has an unsorted row or a wrong split."
pub fn is_wrongly_split(pattern: &Pattern, splits: &[u32]) -> bool {
    !rows_rise(pattern) || !splits_are_right(pattern, splits)
}

/// "Two patterns differ in n."
pub fn differ_in_n(a: &Pattern, factor: &Pattern) -> bool {
    a.rows() != factor.rows()
}

/// "`copy_value`: an entry of A is absent from the factor." A row that the factor does not have holds none.
pub fn lacks_a_place(a: &Pattern, factor: &Pattern) -> bool {
    !a.every_row(|i, row| {
        let places = if i < factor.rows() {
            factor.row(i)
        } else {
            &[]
        };
        row.iter().all(|column| places.contains(column))
    })
}

/// "The pattern to be written has more entries than room."
pub fn lacks_room(entries: u128, room: usize) -> bool {
    entries > room as u128
}

/// `initialize_full`: "all other columns", in each of n rows.
pub fn entries_of_full(n: u32) -> u128 {
    u128::from(n) * u128::from(n).saturating_sub(1)
}

/// "An element names a row or column at or above n."
pub fn names_a_node_beyond_n(pattern: &Pattern, nodes: &[u32]) -> bool {
    nodes.iter().any(|&node| node as usize >= pattern.rows())
}

/// "An element pair that goes to an entry finds none stored": the pairs are of row and column.
pub fn finds_no_entry(pattern: &Pattern, pairs: &[(u32, u32)]) -> bool {
    pairs.iter().any(|&(row, column)| {
        let row = row as usize;
        row >= pattern.rows() || !pattern.row(row).contains(&column)
    })
}

/// Every pair of an element's lists, with the places of both nodes, in the order row node, column node.
fn pairs(rows: &[u32], cols: &[u32]) -> Vec<((usize, u32), (usize, u32))> {
    let each = rows.iter().copied().enumerate();
    each.flat_map(|row| cols.iter().copied().enumerate().map(move |col| (row, col)))
        .collect()
}

/// `merge`: "same node place goes to the diagonal, other pairs to the entry."
pub fn entry_pairs_of_merge(nodes: &[u32]) -> Vec<(u32, u32)> {
    let pairs = pairs(nodes, nodes).into_iter();
    pairs
        .filter(|(row, col)| row.0 != col.0)
        .map(|(row, col)| (row.1, col.1))
        .collect()
}

/// `csrdia`: "here equal row and column numbers, not places, go to the diagonal."
pub fn entry_pairs_of_csrdia(rows: &[u32], cols: &[u32]) -> Vec<(u32, u32)> {
    let pairs = entry_pairs_of_blkcsr(rows, cols).into_iter();
    pairs.filter(|(row, col)| row != col).collect()
}

/// `blkcsr`: "every pair goes to an entry, own column included."
pub fn entry_pairs_of_blkcsr(rows: &[u32], cols: &[u32]) -> Vec<(u32, u32)> {
    let pairs = pairs(rows, cols).into_iter();
    pairs.map(|(row, col)| (row.1, col.1)).collect()
}

/// The verdicts of "Pan verdict", as the port's entry points number them.
pub const EMPTY: u32 = 1;
pub const SETTLED: u32 = 2;
pub const UNSETTLED: u32 = 3;

/// "Preconditioned: count 1 is Empty, limit + 2 is Unsettled, else Settled."
pub fn verdict_of_norms(count: usize, limit: u32) -> u32 {
    match count {
        1 => EMPTY,
        _ if count as u64 == u64::from(limit) + 2 => UNSETTLED,
        _ => SETTLED,
    }
}

/// "Plain: count 0 is Empty; else Settled if the last ratio is below the tolerance, else Unsettled."
pub fn verdict_of_ratios(ratios: &[f64], tolerance: f64) -> u32 {
    match ratios.last() {
        None => EMPTY,
        Some(&last) if last < tolerance => SETTLED,
        Some(_) => UNSETTLED,
    }
}

#[cfg(test)]
mod tests {
    use super::*;

    #[test]
    fn the_table_decides_and_not_the_order_given() {
        assert_eq!(first_refusal(&[(9, true), (4, true), (5, true)]), 5);
        assert_eq!(first_refusal(&[(2, true), (10, true)]), 10);
        assert_eq!(first_refusal(&[(2, false), (1, false)]), 0);
    }

    #[test]
    fn rows() {
        assert!(!rows_in_range(0) && rows_in_range(1));
        assert!(rows_in_range(4096) && !rows_in_range(4097));
    }

    /// Pattern P of 01's cases, k = 2, with the splits that 01 gives.
    const OFFSETS: [u32; 6] = [0, 2, 4, 8, 11, 14];
    const COLUMNS: [u32; 14] = [2, 3, 2, 4, 0, 1, 3, 4, 0, 2, 4, 1, 2, 3];
    const SPLITS: [u32; 5] = [0, 2, 6, 10, 14];

    fn pattern<'a>(offsets: &'a [u32], columns: &'a [u32]) -> Pattern<'a> {
        Pattern { offsets, columns }
    }

    #[test]
    fn the_case_of_01_is_a_factor() {
        let pattern = pattern(&OFFSETS, &COLUMNS);
        assert!(is_valid(&pattern) && !is_wrongly_split(&pattern, &SPLITS));
        assert!(is_wrongly_split(&pattern, &[0, 2, 6, 10, 13]));
    }

    #[test]
    fn each_rule_by_itself() {
        assert!(!starts_at_zero(&pattern(&[1, 1], &[0])));
        assert!(!never_falls(&pattern(&[0, 2, 1, 2], &[1, 2])));
        assert!(!ends_at_the_count(&pattern(&[0, 1], &[])));
        assert!(!columns_are_below_n(&pattern(&[0, 1], &[1])));
        assert!(!columns_stand_once(&pattern(&[0, 3, 3, 3], &[1, 2, 1])));
        assert!(columns_stand_once(&pattern(&[0, 1, 2], &[1, 1])));
        assert!(!own_columns_are_absent(&pattern(&[0, 0, 1], &[1])));
        assert!(is_valid_with_own_columns(&pattern(&[0, 0, 1], &[1])));
        assert!(!rows_rise(&pattern(&[0, 2, 2, 2], &[2, 1])));
        assert!(is_too_large(&pattern(&[0], &[])) && !is_too_large(&pattern(&[0, 0], &[])));
    }

    #[test]
    fn two_patterns() {
        let (less, more) = (pattern(&[0, 0, 1], &[0]), pattern(&[0, 1, 2], &[1, 0]));
        assert!(!lacks_a_place(&less, &more) && lacks_a_place(&more, &less));
        assert!(!lacks_a_place(&less, &less) && !differ_in_n(&less, &more));
        let longer = pattern(&[0, 1, 2, 2], &[1, 0]);
        assert!(differ_in_n(&longer, &more) && !lacks_a_place(&longer, &more));
    }

    #[test]
    fn room() {
        assert!(lacks_room(14, 13) && !lacks_room(14, 14));
        assert_eq!(
            [0, 1, 256, 257].map(entries_of_full),
            [0, 0, 65_280, 65_792]
        );
        let counts = |entries| Counts {
            dim: 1,
            entries,
            ..Counts::default()
        };
        assert!(Length::Room.allows(65_535, &counts(65_535)));
        assert!(!Length::Room.allows(65_536, &counts(65_536)));
    }

    #[test]
    fn histories() {
        let counts = |limit| Counts {
            dim: 1,
            limit,
            ..Counts::default()
        };
        assert!(Length::Ratios.allows(5, &counts(5)) && Length::Ratios.allows(6, &counts(5)));
        assert!(!Length::Norms.allows(6, &counts(5)) && Length::Norms.allows(7, &counts(5)));
        assert!(limit_in_range(4096) && !limit_in_range(4097));
        // 01's cases 10 and 11.
        assert_eq!(
            [2, 1].map(|count| verdict_of_norms(count, 5)),
            [SETTLED, EMPTY]
        );
        assert_eq!(verdict_of_norms(2, 0), UNSETTLED);
        assert_eq!(verdict_of_ratios(&[0.5], 0.5), UNSETTLED);
        assert_eq!(verdict_of_ratios(&[0.5, 0.25], 0.5), SETTLED);
        assert_eq!(verdict_of_ratios(&[f64::NAN], 0.5), UNSETTLED);
        assert_eq!(verdict_of_ratios(&[], f64::INFINITY), EMPTY);
    }

    #[test]
    fn pairs_of_an_element() {
        assert_eq!(entry_pairs_of_merge(&[5, 5]), [(5, 5), (5, 5)]);
        assert_eq!(entry_pairs_of_csrdia(&[5, 5], &[5, 6]), [(5, 6), (5, 6)]);
        let all = [(1, 1), (1, 2), (2, 1), (2, 2)];
        assert_eq!(entry_pairs_of_blkcsr(&[1, 2], &[1, 2]), all);
    }
}

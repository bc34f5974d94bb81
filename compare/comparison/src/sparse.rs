// Patterns of sparse matrices that comparisons are made on: all small ones, some kinds of larger ones,
// and what is wrong by one of document 01's rules.

use std::ops::Range;

use crate::random::Random;

#[derive(Clone, Debug, PartialEq, Eq)]
pub struct Sparse {
    pub offsets: Vec<u32>,
    pub columns: Vec<u32>,
}

impl Sparse {
    pub fn of_rows(rows: &[Vec<u32>]) -> Sparse {
        let mut offsets = vec![0];
        for row in rows {
            offsets.push(offsets[offsets.len() - 1] + row.len() as u32);
        }
        Sparse {
            offsets,
            columns: rows.concat(),
        }
    }

    /// How many rows; none if there are no offsets at all.
    pub fn n(&self) -> usize {
        self.offsets.len().saturating_sub(1)
    }

    pub fn entries(&self) -> usize {
        self.columns.len()
    }

    /// The places of row i.
    fn places(&self, i: usize) -> Range<usize> {
        self.offsets[i] as usize..self.offsets[i + 1] as usize
    }

    /// Every row rises.
    pub fn sorted(mut self) -> Sparse {
        for i in 0..self.n() {
            let places = self.places(i);
            self.columns[places].sort_unstable();
        }
        self
    }

    /// Every row in some order.
    pub fn shuffled(mut self, random: &mut Random) -> Sparse {
        for i in 0..self.n() {
            let places = self.places(i);
            shuffle(&mut self.columns[places], random);
        }
        self
    }

    /// The splits of sorted rows.
    pub fn splits(&self) -> Vec<u32> {
        let split = |i: usize| {
            let row = &self.columns[self.places(i)];
            self.offsets[i] + row.partition_point(|&column| column as usize <= i) as u32
        };
        (0..self.n()).map(split).collect()
    }

    /// With each row's own column at its end.
    pub fn with_own_columns(&self) -> Sparse {
        let row = |i: usize| [&self.columns[self.places(i)], &[i as u32]].concat();
        let rows: Vec<Vec<u32>> = (0..self.n()).map(row).collect();
        Sparse::of_rows(&rows)
    }

    /// With the entry (j, i) for each entry (i, j), in sorted rows.
    pub fn both_ways(&self) -> Sparse {
        let mut rows: Vec<Vec<u32>> = (0..self.n())
            .map(|i| self.columns[self.places(i)].to_vec())
            .collect();
        for i in 0..self.n() {
            for &j in &self.columns[self.places(i)] {
                if !rows[j as usize].contains(&(i as u32)) {
                    rows[j as usize].push(i as u32);
                }
            }
        }
        Sparse::of_rows(&rows).sorted()
    }

    /// Without the entry (row, column).
    pub fn without(&self, row: u32, column: u32) -> Sparse {
        let keep = |i: usize| {
            let columns = self.columns[self.places(i)].iter().copied();
            columns.filter(move |&other| (i as u32, other) != (row, column))
        };
        let rows: Vec<Vec<u32>> = (0..self.n()).map(|i| keep(i).collect()).collect();
        Sparse::of_rows(&rows)
    }

    /// Without one entry, if there is one.
    pub fn less_one(&self, random: &mut Random) -> Option<Sparse> {
        let (row, places) = self.some_row(1, random)?;
        let column = *random.pick(&self.columns[places]);
        Some(self.without(row as u32, column))
    }

    /// A row with at least so many entries, if there is one: its number and its places.
    fn some_row(&self, least: usize, random: &mut Random) -> Option<(usize, Range<usize>)> {
        let rows = (0..self.n()).filter(|&i| self.places(i).len() >= least);
        let rows: Vec<usize> = rows.collect();
        if rows.is_empty() {
            return None;
        }
        let row = *random.pick(&rows);
        Some((row, self.places(row)))
    }
}

pub fn shuffle<T>(list: &mut [T], random: &mut Random) {
    for end in (1..list.len()).rev() {
        list.swap(end, random.below(end + 1));
    }
}

/// Every list of distinct members, in every order, the empty one too.
fn every_order(members: &[u32]) -> Vec<Vec<u32>> {
    let mut lists = vec![Vec::new()];
    for (at, &first) in members.iter().enumerate() {
        let mut others = members.to_vec();
        others.remove(at);
        for mut rest in every_order(&others) {
            rest.insert(0, first);
            lists.push(rest);
        }
    }
    lists
}

/// Every valid pattern of n rows, each row in every order.
pub fn every_pattern(n: usize) -> Vec<Sparse> {
    let mut patterns: Vec<Vec<Vec<u32>>> = vec![Vec::new()];
    for i in 0..n {
        let others: Vec<u32> = (0..n as u32).filter(|&j| j as usize != i).collect();
        let rows = every_order(&others);
        let longer = |pattern: Vec<Vec<u32>>| {
            let each = rows.iter().cloned();
            each.map(move |row| [pattern.clone(), vec![row]].concat())
        };
        patterns = patterns.into_iter().flat_map(longer).collect();
    }
    patterns.iter().map(|rows| Sparse::of_rows(rows)).collect()
}

/// Every valid pattern of n rows that are sorted.
pub fn every_sorted_pattern(n: usize) -> Vec<Sparse> {
    let places = n * n.saturating_sub(1);
    let pattern = |set: usize| {
        let mut rest = set;
        where_stands(n, |i, j| {
            let stands = i != j && rest & 1 == 1;
            rest >>= usize::from(i != j);
            stands
        })
    };
    (0..1 << places).map(pattern).collect()
}

/// The entries (i, j) for which `stands` holds, in sorted rows.
pub fn where_stands(n: usize, mut stands: impl FnMut(usize, usize) -> bool) -> Sparse {
    let rows: Vec<Vec<u32>> = (0..n)
        .map(|i| {
            let columns = (0..n).filter(|&j| stands(i, j));
            columns.map(|j| j as u32).collect()
        })
        .collect();
    Sparse::of_rows(&rows)
}

pub fn empty(n: usize) -> Sparse {
    Sparse::of_rows(&vec![Vec::new(); n])
}

/// Each row with its neighbours.
pub fn chain(n: usize) -> Sparse {
    let rows: Vec<Vec<u32>> = (0..n as u32)
        .map(|i| {
            let near = [i.wrapping_sub(1), i + 1].into_iter();
            near.filter(|&j| (j as usize) < n).collect()
        })
        .collect();
    Sparse::of_rows(&rows)
}

pub fn dense(n: usize) -> Sparse {
    where_stands(n, |i, j| i != j)
}

/// Each row with all that are at most so far away.
pub fn band(n: usize, half: usize) -> Sparse {
    let rows: Vec<Vec<u32>> = (0..n)
        .map(|i| {
            let near = i.saturating_sub(half)..(i + half + 1).min(n);
            near.filter(|&j| j != i).map(|j| j as u32).collect()
        })
        .collect();
    Sparse::of_rows(&rows)
}

/// One dense row and its column.
pub fn arrow(n: usize, full: usize) -> Sparse {
    where_stands(n, |i, j| i != j && (i == full || j == full))
}

/// These entries of n rows, if they are valid ones, in sorted rows.
fn of_pairs(n: usize, pairs: &[(usize, usize)]) -> Sparse {
    where_stands(n, |i, j| i != j && pairs.contains(&(i, j)))
}

/// The steps of a walk, one way or both.
fn steps(walk: &[usize], both_ways: bool) -> Vec<(usize, usize)> {
    let mut pairs: Vec<(usize, usize)> = walk.windows(2).map(|step| (step[0], step[1])).collect();
    if both_ways {
        pairs.extend(walk.windows(2).map(|step| (step[1], step[0])));
    }
    pairs
}

/// A walk for which a row has to come again: from the highest row down one arm to row 0, up to a row that is
/// above both arms, back to row 0 and up the other arm. Without the turn the arms nest in each other.
fn turning_walk(n: usize, random: &mut Random) -> Vec<usize> {
    let mut arms = [vec![0], vec![0]];
    for row in 1..n - 3 {
        arms[usize::from(random.flip())].push(row);
    }
    let [down, up] = arms;
    let mut walk = vec![n - 1];
    walk.extend(down.iter().rev());
    walk.push(n - 3);
    walk.extend(up);
    walk.push(n - 2);
    walk
}

/// A sparse pattern of 5 to 14 rows in which walks are long: a walk through all rows in some order or with a
/// turn, any walk, a tree, or about as many entries as rows; perhaps with some entries more.
pub fn any_long(random: &mut Random) -> Sparse {
    let n = 5 + random.below(10);
    let mut order: Vec<usize> = (0..n).collect();
    shuffle(&mut order, random);
    let both_ways = random.flip();
    let mut pairs = match random.below(6) {
        0 | 1 => steps(&turning_walk(n, random), both_ways),
        2 => steps(&order, both_ways),
        3 => {
            let walk: Vec<usize> = (0..2 * n).map(|_| random.below(n)).collect();
            steps(&walk, both_ways)
        }
        4 => {
            let grow = |at: usize| steps(&[order[at], order[random.below(at)]], true);
            (1..n).flat_map(grow).collect()
        }
        _ => Vec::new(),
    };
    let more = if pairs.is_empty() {
        n + random.below(n)
    } else {
        random.below(2) * random.below(4)
    };
    pairs.extend((0..more).map(|_| (random.below(n), random.below(n))));
    let pattern = of_pairs(n, &pairs);
    if random.flip() {
        pattern.shuffled(random)
    } else {
        pattern
    }
}

/// Neighbours in each row, and so many entries at random columns in some rows, spread from the second to the last.
pub fn with_long_rows(n: usize, lengths: &[usize], random: &mut Random) -> Sparse {
    let mut rows: Vec<Vec<u32>> = (0..n).map(|_| Vec::new()).collect();
    for (at, &length) in lengths.iter().enumerate() {
        let i = (at + 1) * (n - 1) / lengths.len();
        let mut others: Vec<u32> = (0..n as u32).filter(|&j| j as usize != i).collect();
        shuffle(&mut others, random);
        others.truncate(length);
        rows[i] = others;
    }
    for (i, row) in rows.iter_mut().enumerate() {
        if row.is_empty() {
            let near = i.saturating_sub(2)..(i + 4).min(n);
            *row = near.filter(|&j| j != i).map(|j| j as u32).collect();
        }
    }
    Sparse::of_rows(&rows)
}

/// Some of the entries, each with a chance of `parts` in 16.
pub fn some_of(pattern: &Sparse, parts: usize, random: &mut Random) -> Sparse {
    let rows: Vec<Vec<u32>> = (0..pattern.n())
        .map(|i| {
            let row = pattern.columns[pattern.places(i)].iter().copied();
            row.filter(|_| random.below(16) < parts).collect()
        })
        .collect();
    Sparse::of_rows(&rows)
}

/// Each entry with a chance of `parts` in 16.
pub fn scattered(n: usize, parts: usize, random: &mut Random) -> Sparse {
    where_stands(n, |i, j| i != j && random.below(16) < parts)
}

/// Rows with so many entries at random columns each, for n that are too large to try every pair.
pub fn with_entries(n: usize, each: usize, random: &mut Random) -> Sparse {
    let rows: Vec<Vec<u32>> = (0..n as u32)
        .map(|i| {
            let mut columns = Vec::new();
            while columns.len() < each {
                let column = random.below(n) as u32;
                if column != i && !columns.contains(&column) {
                    columns.push(column);
                }
            }
            columns
        })
        .collect();
    Sparse::of_rows(&rows)
}

/// 65,536 entries, one more than there may be: 16 in each of 4,096 rows.
pub fn overfull(random: &mut Random) -> Sparse {
    with_entries(4096, 16, random)
}

/// 65,535 entries.
pub fn full(random: &mut Random) -> Sparse {
    let pattern = overfull(random);
    let last = pattern.columns[pattern.entries() - 1];
    pattern.without(4095, last)
}

/// No offset, no row, and the limits of rows and entries with what is next to them.
pub fn ends(random: &mut Random) -> Vec<Sparse> {
    let none = Sparse {
        offsets: Vec::new(),
        columns: Vec::new(),
    };
    let mut ends = vec![none];
    ends.extend([0, 1, 4095, 4096, 4097].map(empty));
    ends.extend([full(random), overfull(random)]);
    ends
}

/// A plate of side*side rows, each with its 8 neighbours or as many as it has, in sorted rows.
pub fn plate(side: usize) -> Sparse {
    let near = |a: usize, b: usize| a.abs_diff(b) <= 1;
    let rows: Vec<Vec<u32>> = (0..side * side)
        .map(|i| {
            let columns = (i.saturating_sub(side + 1)..=i + side + 1)
                .filter(|&j| j < side * side && j != i)
                .filter(|&j| near(i / side, j / side) && near(i % side, j % side));
            columns.map(|j| j as u32).collect()
        })
        .collect();
    Sparse::of_rows(&rows)
}

/// The four nodes of each cell of that plate.
pub fn cells(side: usize) -> Vec<[u32; 4]> {
    let corner = |row: usize, column: usize| (row * side + column) as u32;
    let cell = |row, column| {
        let (low, high) = (corner(row, column), corner(row + 1, column));
        [low, low + 1, high + 1, high]
    };
    let last = side - 1;
    (0..last * last)
        .map(|at| cell(at / last, at % last))
        .collect()
}

/// A valid pattern of at most 14 rows, of some kind, sorted or not.
pub fn any_small(random: &mut Random) -> Sparse {
    let n = match random.below(4) {
        0 => 1 + random.below(3),
        1 => 1 + random.below(14),
        _ => 2 + random.below(6),
    };
    let pattern = match random.below(8) {
        0 => empty(n),
        1 => chain(n),
        2 => dense(n),
        3 => {
            let full = random.below(n);
            arrow(n, full)
        }
        _ => {
            let parts = 1 + random.below(12);
            scattered(n, parts, random)
        }
    };
    if random.flip() {
        pattern.shuffled(random)
    } else {
        pattern
    }
}

/// What can be wrong with a pattern, one rule each.
#[derive(Clone, Copy, Debug)]
pub enum Damage {
    OwnColumn,
    TwiceAdjacent,
    TwiceApart,
    /// At both ends of a row.
    TwiceFarApart,
    TooLarge,
    FallingOffset,
    FirstOffset,
    LastOffset,
    ColumnMore,
    ColumnLess,
    /// No fault but in a factor.
    Unsorted,
}

pub const DAMAGES: [Damage; 11] = [
    Damage::OwnColumn,
    Damage::TwiceAdjacent,
    Damage::TwiceApart,
    Damage::TwiceFarApart,
    Damage::TooLarge,
    Damage::FallingOffset,
    Damage::FirstOffset,
    Damage::LastOffset,
    Damage::ColumnMore,
    Damage::ColumnLess,
    Damage::Unsorted,
];

/// Those for which a pattern of two rows or more always has a place.
pub const OFFSET_DAMAGES: [Damage; 4] = [
    Damage::FallingOffset,
    Damage::FirstOffset,
    Damage::LastOffset,
    Damage::ColumnMore,
];

/// The pattern with that fault; None if it has no place for it.
pub fn damaged(pattern: &Sparse, damage: Damage, random: &mut Random) -> Option<Sparse> {
    let mut pattern = pattern.clone();
    match damage {
        Damage::FallingOffset => fall(&mut pattern, random)?,
        Damage::FirstOffset => pattern.offsets[0] = *random.pick(&[1, 2, u32::MAX]),
        Damage::LastOffset => {
            let last = pattern.n();
            let step = *random.pick(&[1, u32::MAX]);
            pattern.offsets[last] = pattern.offsets[last].wrapping_add(step);
        }
        Damage::ColumnMore => pattern.columns.push(0),
        Damage::ColumnLess => {
            pattern.columns.pop()?;
        }
        _ => damage_row(&mut pattern, damage, random)?,
    }
    Some(pattern)
}

/// An offset in the middle that exceeds the next one, perhaps by far, or that is exceeded by the one before.
fn fall(pattern: &mut Sparse, random: &mut Random) -> Option<()> {
    let n = pattern.n();
    if n < 2 {
        return None;
    }
    let at = 1 + random.below(n - 1);
    if random.flip() && pattern.offsets[at - 1] > 0 {
        pattern.offsets[at] = pattern.offsets[at - 1] - 1;
    } else {
        let above = pattern.offsets[at + 1] + 1;
        pattern.offsets[at] = *random.pick(&[above, above, 1 << 31, u32::MAX]);
    }
    Some(())
}

/// A fault in one row's columns.
fn damage_row(pattern: &mut Sparse, damage: Damage, random: &mut Random) -> Option<()> {
    let least = match damage {
        Damage::TwiceApart | Damage::TwiceFarApart => 3,
        Damage::TwiceAdjacent | Damage::Unsorted => 2,
        _ => 1,
    };
    let n = pattern.n() as u32;
    let (i, places) = pattern.some_row(least, random)?;
    let row = &mut pattern.columns[places];
    let at = random.below(row.len() + 1 - least);
    match damage {
        Damage::TwiceAdjacent => row[at + 1] = row[at],
        Damage::TwiceApart => row[row.len() - 1] = row[at],
        Damage::TwiceFarApart => row[row.len() - 1] = row[0],
        Damage::Unsorted => row.swap(at, at + 1),
        Damage::TooLarge => row[at] = *random.pick(&[n, n + 1, n + 4096, 1 << 31, u32::MAX]),
        _ => row[at] = i as u32,
    }
    Some(())
}

#[cfg(test)]
mod tests {
    use super::*;

    #[test]
    fn small_patterns_are_all_there() {
        let counts = [1, 2, 3].map(|n| every_pattern(n).len());
        assert_eq!(counts, [1, 4, 125]);
        let counts = [1, 2, 3, 4].map(|n| every_sorted_pattern(n).len());
        assert_eq!(counts, [1, 4, 64, 4096]);
    }

    #[test]
    fn a_turning_walk_meets_row_0_twice() {
        let walk = turning_walk(8, &mut Random::new(1));
        assert_eq!(walk.len(), 9);
        assert_eq!(walk.iter().filter(|&&row| row == 0).count(), 2);
        assert!(walk.contains(&5) && walk[0] == 7 && walk[8] == 6);
    }

    #[test]
    fn a_plate_has_eight_neighbours() {
        let plate = plate(8);
        // 36 inside with 8, 24 at the edge with 5, 4 corners with 3.
        assert_eq!((plate.n(), plate.entries()), (64, 36 * 8 + 24 * 5 + 4 * 3));
        assert_eq!(plate.columns[..3], [1, 8, 9]);
        assert_eq!(cells(8).len(), 49);
        assert_eq!(cells(8)[48], [54, 55, 63, 62]);
    }
}

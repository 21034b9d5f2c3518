//! The number of maximal complementing sets, also where it is above what a
//! call lists: the check of the workloads. Rows are compared by the brute
//! force implementation's definitions.

use crate::generate::{Pair, Table, MARK};
use crate::naive::{complement, counted};
use crate::reference::Reference;
use crate::MAX_TABLE_WORDS;

/// For each row of T the positions of the rows that complement it.
pub struct Graph(pub Vec<u64>);

impl Graph {
    /// The graph of the T of an accepted pair.
    pub fn of(pair: &Pair) -> Graph {
        let mut table = vec![0; MAX_TABLE_WORDS];
        let answer = Reference::new().outer_union(&pair.first, &pair.second, &mut table);
        assert_eq!(answer.number, 0, "the pair is not accepted");
        let rows = Table::from_image(&table[..answer.words as usize]).rows;
        let heads = &table[1..=(table[0] & 31) as usize];
        let marks: Vec<bool> = heads.iter().map(|word| word & MARK != 0).collect();
        let counts = counted(&marks);
        let near = |row: &Vec<u32>| {
            let marks = rows
                .iter()
                .enumerate()
                .map(|(j, other)| u64::from(complement(row, other, &counts)) << j);
            marks.fold(0, |all, mark| all | mark)
        };
        Graph(rows.iter().map(near).collect())
    }

    /// The number of maximal sets; counting ends at `limit`.
    pub fn maximal_sets(&self, limit: usize) -> usize {
        let all = self
            .0
            .iter()
            .enumerate()
            .fold(0, |all, (i, _)| all | 1 << i);
        let mut count = 0;
        if all != 0 {
            self.search(all, 0, limit, &mut count);
        }
        count
    }

    /// Bron and Kerbosch's search: the pivot is the row, ahead or done, with
    /// the most rows ahead beside it.
    fn search(&self, mut ahead: u64, mut done: u64, limit: usize, count: &mut usize) {
        if *count == limit {
            return;
        }
        if ahead | done == 0 {
            *count += 1;
            return;
        }
        let pivot = rows(ahead | done)
            .max_by_key(|&row| (ahead & self.0[row]).count_ones())
            .unwrap();
        for row in rows(ahead & !self.0[pivot]) {
            let near = self.0[row];
            self.search(ahead & near, done & near, limit, count);
            ahead &= !(1 << row);
            done |= 1 << row;
        }
    }
}

/// The members of a set, ascending.
fn rows(set: u64) -> impl Iterator<Item = usize> {
    (0..64).filter(move |row| set >> row & 1 == 1)
}

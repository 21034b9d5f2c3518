//! Reference implementation of outer union, minimum union, complement union
//! and the reader of set lists, made for speed. A `Reference` holds the working memory; a call
//! allocates nothing.
//!
//! Method:
//! - A padded row is kept as eight 64-bit words of two cells each, the earlier
//!   column in the upper half, so that comparing rows is comparing arrays.
//!   Row indices are sorted, not rows.
//! - Relations between rows are found a column at a time, as 64-bit sets of
//!   positions: the rows of T with the same value in a column form a group, and
//!   a row's relations are intersections and unions of groups. Of shared
//!   values, the groups of the columns that count are taken: the marked ones,
//!   or all where none is marked.
//! - The maximal sets come from Bron and Kerbosch's search with a pivot, which
//!   stops at the 1,025th set, and are then sorted into set order.
//! - For joining, each cell is coded in 7 bits (0 empty, otherwise the rank of
//!   its value in the column). A joined row is then the bitwise or of its
//!   members' 112-bit codes, and codes are ordered as rows are.
//! - A set list is read with a set as one 64-bit word: one pass over the
//!   records for all checks and the number of words, one that writes.

use crate::{Answer, Call, Reader, Unions, MAX_COLUMNS, MAX_ROWS, MAX_SETS, MAX_SOURCE_ROWS};
use core::cmp::{Ordering, Reverse};

/// Cell pairs in a padded row.
const PAIRS: usize = MAX_COLUMNS / 2;
/// Bits of a cell code: 0 for empty, 1 to 64 for the numbers of a column and
/// none behind them.
const CODE_BITS: usize = 7;
/// Bits of a set's index, below the row code in the sort of joined rows.
const INDEX_BITS: u32 = 10;
/// Slots of the table in which equal values of a column are found.
const SLOTS: usize = 128;

const HEADER: u32 = 3 << 30;
const COLUMN: u32 = 2 << 30;
/// The mark of a column word.
const MARK: u32 = 1 << 29;
const MARKS: u32 = 2 << 30;
const FILLED: u32 = 1 << 30;

/// An image that has passed questions 1 to 7.
pub(crate) struct Source<'a> {
    pub(crate) columns: usize,
    /// Column id above the mark and four bits of the column's place, ascending.
    ids: [u32; MAX_COLUMNS],
    pub(crate) cells: &'a [u32],
}

/// A maximal complementing set.
#[derive(Clone, Copy)]
struct Found {
    /// Members, position 0 in the highest bit: set order is descending.
    members: u64,
    /// Code of the joined row.
    joined: u128,
}

/// The rows of T by their cell in one column. Group 0 holds the empty cells.
struct Groups {
    count: usize,
    of_row: [u8; MAX_ROWS],
    numbers: [u32; MAX_ROWS + 1],
    rows: [u64; MAX_ROWS + 1],
    slots: [u8; SLOTS],
}

/// Working memory of the calls.
pub struct Reference {
    columns: usize,
    /// The union's column words.
    heads: [u32; MAX_COLUMNS],
    /// Whether one of them is marked.
    marked: bool,
    /// Padded rows of both tables as they were read.
    rows: [[u64; PAIRS]; MAX_ROWS],
    /// Filled cells of each row in `rows`.
    filled: [u8; MAX_ROWS],
    /// T: indices into `rows`.
    order: [u8; MAX_ROWS],
    count: usize,
    groups: Groups,
    /// For each row of T the positions that complement it.
    complements: [u64; MAX_ROWS],
    codes: [u128; MAX_ROWS],
    /// For each column the cell word of each code.
    words: [[u32; MAX_ROWS + 1]; MAX_COLUMNS],
    /// The maximal sets.
    found: [Found; MAX_SETS],
    sets: usize,
    /// Codes of the joined rows, each above the index of its set.
    joined: [u128; MAX_SETS],
    /// Codes of the fused rows.
    fused: [u128; MAX_SETS],
    /// For each set the position of its joined row.
    fused_place: [u16; MAX_SETS],
}

impl Default for Reference {
    fn default() -> Reference {
        Reference::new()
    }
}

impl Reference {
    pub const fn new() -> Reference {
        Reference {
            columns: 0,
            heads: [0; MAX_COLUMNS],
            marked: false,
            rows: [[0; PAIRS]; MAX_ROWS],
            filled: [0; MAX_ROWS],
            order: [0; MAX_ROWS],
            count: 0,
            groups: Groups {
                count: 0,
                of_row: [0; MAX_ROWS],
                numbers: [0; MAX_ROWS + 1],
                rows: [0; MAX_ROWS + 1],
                slots: [0; SLOTS],
            },
            complements: [0; MAX_ROWS],
            codes: [0; MAX_ROWS],
            words: [[0; MAX_ROWS + 1]; MAX_COLUMNS],
            found: [Found {
                members: 0,
                joined: 0,
            }; MAX_SETS],
            sets: 0,
            joined: [0; MAX_SETS],
            fused: [0; MAX_SETS],
            fused_place: [0; MAX_SETS],
        }
    }

    pub fn outer_union(&mut self, first: &[u32], second: &[u32], table: &mut [u32]) -> Answer {
        if let Err(refusal) = self.unite(first, second) {
            return refusal;
        }
        self.write_rows(self.count, !0, 0, table)
    }

    pub fn minimum_union(&mut self, first: &[u32], second: &[u32], table: &mut [u32]) -> Answer {
        if let Err(refusal) = self.unite(first, second) {
            return refusal;
        }
        let covers = self.covers();
        let mut kept = 0u64;
        let mut pairs = 0;
        for (position, cover) in covers[..self.count].iter().enumerate() {
            let subsumers = cover & !(1 << position);
            if subsumers == 0 {
                kept |= 1 << position;
                pairs += self.count - 1;
            } else {
                let first = subsumers.trailing_zeros() as usize;
                pairs += first + usize::from(first < position);
            }
        }
        let rows = kept.count_ones() as usize;
        self.write_rows(rows, kept, pairs as u32, table)
    }

    pub fn complement_union(
        &mut self,
        first: &[u32],
        second: &[u32],
        table: &mut [u32],
        sets: &mut [u32],
    ) -> Answer {
        if let Err(refusal) = self.unite(first, second) {
            return refusal;
        }
        self.relate();
        self.sets = 0;
        if self.count > 0 {
            let all = !0 >> (MAX_ROWS - self.count);
            if !self.search(0, 0, all, 0) {
                return Answer::refused(9, 2);
            }
        }
        self.found[..self.sets].sort_unstable_by_key(|set| Reverse(set.members));
        let rows = self.fuse();
        self.write_fused(rows, table, sets)
    }

    /// The sets of the last complement union that was not refused with a number
    /// up to 9, each with the position of its joined row.
    pub fn sets_found(&self) -> impl Iterator<Item = (u64, u32)> + '_ {
        let sets = &self.found[..self.sets];
        let places = sets.iter().zip(&self.fused_place);
        places.map(|(set, &place)| (set.members.reverse_bits(), u32::from(place)))
    }

    /// Questions 1 to 8 and T.
    fn unite(&mut self, first: &[u32], second: &[u32]) -> Result<(), Answer> {
        let source = |image, table| {
            check(image, MAX_SOURCE_ROWS).map_err(|number| Answer::refused(number, table))
        };
        let (first, second) = (source(first, 0)?, source(second, 1)?);

        // Merge the ascending ids; note the union column of each column. A
        // column of both tables has the marks of both.
        let mut places = [[0u8; MAX_COLUMNS]; 2];
        let (mut i, mut j, mut columns) = (0, 0, 0);
        let mut marks = 0;
        while i < first.columns || j < second.columns {
            if columns == MAX_COLUMNS {
                return Err(Answer::refused(8, 2));
            }
            let left = first.ids[..first.columns].get(i).map_or(!0, |id| id >> 5);
            let right = second.ids[..second.columns].get(j).map_or(!0, |id| id >> 5);
            let mut mark = 0;
            if left <= right {
                places[0][(first.ids[i] & 15) as usize] = columns as u8;
                mark |= first.ids[i] << 25 & MARK;
                i += 1;
            }
            if right <= left {
                places[1][(second.ids[j] & 15) as usize] = columns as u8;
                mark |= second.ids[j] << 25 & MARK;
                j += 1;
            }
            self.heads[columns] = COLUMN | mark | left.min(right);
            marks |= mark;
            columns += 1;
        }
        self.columns = columns;
        self.marked = marks != 0;

        let mut count = 0;
        for (source, places) in [(&first, &places[0]), (&second, &places[1])] {
            for cells in source.cells.chunks_exact(source.columns) {
                let mut row = [0u64; PAIRS];
                let mut filled = 0;
                for (&word, &place) in cells.iter().zip(places) {
                    row[usize::from(place) / 2 % PAIRS] |=
                        u64::from(word) << (32 * (1 - place % 2));
                    filled += u8::from(word != 0);
                }
                self.rows[count] = row;
                self.filled[count] = filled;
                self.order[count] = count as u8;
                count += 1;
            }
        }

        let rows = &self.rows;
        let order = &mut self.order[..count];
        order.sort_unstable_by(|&a, &b| compare(&rows[usize::from(a)], &rows[usize::from(b)]));
        let mut kept = 0;
        for next in 0..count {
            let index = order[next];
            if kept == 0 || rows[usize::from(order[kept - 1])] != rows[usize::from(index)] {
                order[kept] = index;
                kept += 1;
            }
        }
        self.count = kept;
        Ok(())
    }

    /// Sorts the rows of T into groups of equal cells in a column.
    fn group(&mut self, column: usize) {
        let groups = &mut self.groups;
        groups.slots = [0; SLOTS];
        groups.count = 1;
        groups.numbers[0] = 0;
        groups.rows[0] = 0;
        let shift = 32 * (1 - column % 2);
        for (position, &index) in self.order[..self.count].iter().enumerate() {
            let word = (self.rows[usize::from(index)][column / 2] >> shift) as u32;
            let mut group = 0;
            if word != 0 {
                let mut slot = (word.wrapping_mul(0x9E37_79B1) >> 25) as usize;
                loop {
                    group = usize::from(groups.slots[slot]);
                    if group == 0 {
                        group = groups.count;
                        groups.count += 1;
                        groups.slots[slot] = group as u8;
                        groups.numbers[group] = word;
                        groups.rows[group] = 0;
                        break;
                    }
                    if groups.numbers[group] == word {
                        break;
                    }
                    slot = (slot + 1) % SLOTS;
                }
            }
            groups.of_row[position] = group as u8;
            groups.rows[group] |= 1 << position;
        }
    }

    /// For each row of T the positions that hold all its filled cells: the row
    /// itself and the rows that subsume it.
    fn covers(&mut self) -> [u64; MAX_ROWS] {
        let mut covers = [!0 >> (MAX_ROWS - self.count.max(1)); MAX_ROWS];
        for column in 0..self.columns {
            self.group(column);
            self.groups.rows[0] = !0;
            for (cover, &group) in covers[..self.count].iter_mut().zip(&self.groups.of_row) {
                *cover &= self.groups.rows[usize::from(group)];
            }
        }
        covers
    }

    /// The complementing rows of each row of T, and the rows' codes.
    fn relate(&mut self) {
        let count = self.count;
        // Rows that agree wherever both are filled; that share a value in a
        // column that counts; that hold all filled cells; that are empty
        // wherever the row is.
        let mut agree = [!0u64; MAX_ROWS];
        let mut share = [0u64; MAX_ROWS];
        let mut cover = [!0u64; MAX_ROWS];
        let mut within = [!0u64; MAX_ROWS];
        self.codes = [0; MAX_ROWS];
        for column in 0..self.columns {
            self.group(column);
            let codes = self.rank(column);
            let shift = CODE_BITS * (self.columns - 1 - column);
            let empty = self.groups.rows[0];
            let counts = !self.marked || self.heads[column] & MARK != 0;
            let counted = if counts { !0 } else { 0 };
            for position in 0..count {
                let group = usize::from(self.groups.of_row[position]);
                if group == 0 {
                    within[position] &= empty;
                } else {
                    let equal = self.groups.rows[group];
                    agree[position] &= equal | empty;
                    share[position] |= equal & counted;
                    cover[position] &= equal;
                    self.codes[position] |= u128::from(codes[group]) << shift;
                }
            }
        }
        for position in 0..count {
            self.complements[position] =
                agree[position] & share[position] & !cover[position] & !within[position];
        }
    }

    /// Codes of the column's groups, ascending with their numbers.
    fn rank(&mut self, column: usize) -> [u8; MAX_ROWS + 1] {
        let groups = &self.groups;
        let mut keys = [0u64; MAX_ROWS];
        let keys = &mut keys[..groups.count - 1];
        for (index, key) in keys.iter_mut().enumerate() {
            *key = u64::from(groups.numbers[index + 1]) << 8 | (index as u64 + 1);
        }
        keys.sort_unstable();
        let mut codes = [0; MAX_ROWS + 1];
        let words = &mut self.words[column];
        words[0] = 0;
        for (index, key) in keys.iter().enumerate() {
            codes[(key & 0xFF) as usize] = index as u8 + 1;
            words[index + 1] = (key >> 8) as u32;
        }
        codes
    }

    /// Bron and Kerbosch's search: lists the maximal sets that hold `taken`,
    /// further members from `open` and none of `done`. False at the 1,025th.
    fn search(&mut self, taken: u64, joined: u128, mut open: u64, mut done: u64) -> bool {
        if open == 0 {
            if done == 0 {
                if self.sets == MAX_SETS {
                    return false;
                }
                self.found[self.sets] = Found {
                    members: taken.reverse_bits(),
                    joined,
                };
                self.sets += 1;
            }
            return true;
        }
        // The pivot leaves the fewest rows to branch on.
        let mut branch = open;
        let mut fewest = u32::MAX;
        let mut rest = done;
        while rest != 0 {
            let left = open & !self.complements[rest.trailing_zeros() as usize];
            if left == 0 {
                return true;
            }
            let count = left.count_ones();
            if count < fewest {
                fewest = count;
                branch = left;
            }
            rest &= rest - 1;
        }
        rest = open;
        while rest != 0 && fewest > 1 {
            let left = open & !self.complements[rest.trailing_zeros() as usize];
            let count = left.count_ones();
            if count < fewest {
                fewest = count;
                branch = left;
            }
            rest &= rest - 1;
        }
        while branch != 0 {
            let row = branch.trailing_zeros() as usize;
            let bit = 1 << row;
            let near = self.complements[row];
            if !self.search(
                taken | bit,
                joined | self.codes[row],
                open & near,
                done & near,
            ) {
                return false;
            }
            open &= !bit;
            done |= bit;
            branch &= !bit;
        }
        true
    }

    /// Sorts the joined rows, gives each set its row's place and returns the
    /// number of distinct rows.
    fn fuse(&mut self) -> usize {
        let joined = &mut self.joined[..self.sets];
        for (index, (key, set)) in joined.iter_mut().zip(&self.found).enumerate() {
            *key = set.joined << INDEX_BITS | index as u128;
        }
        joined.sort_unstable();
        let mut rows = 0;
        for key in joined.iter() {
            let code = key >> INDEX_BITS;
            if rows == 0 || self.fused[rows - 1] != code {
                self.fused[rows] = code;
                rows += 1;
            }
            self.fused_place[(key & ((1 << INDEX_BITS) - 1)) as usize] = rows as u16 - 1;
        }
        rows
    }

    fn write_head(&self, rows: usize, table: &mut [u32]) {
        table[0] = HEADER | (rows as u32) << 18 | self.columns as u32;
        table[1..=self.columns].copy_from_slice(&self.heads[..self.columns]);
    }

    /// Question 10, then writes the rows of T whose positions are in `kept`.
    fn write_rows(&self, rows: usize, kept: u64, pairs: u32, table: &mut [u32]) -> Answer {
        let columns = self.columns;
        let words = 1 + columns + rows * columns;
        if table.len() < words {
            return Answer::refused(10, 2);
        }
        let table = &mut table[..words];
        self.write_head(rows, table);
        let mut filled = 0;
        let mut out = table[1 + columns..].chunks_exact_mut(columns);
        for (position, &index) in self.order[..self.count].iter().enumerate() {
            if kept >> position & 1 == 0 {
                continue;
            }
            let Some(cells) = out.next() else { break };
            let row = &self.rows[usize::from(index)];
            for (pair, cells) in row.iter().zip(cells.chunks_mut(2)) {
                cells[0] = (pair >> 32) as u32;
                if let Some(cell) = cells.get_mut(1) {
                    *cell = *pair as u32;
                }
            }
            filled += u32::from(self.filled[usize::from(index)]);
        }
        Answer {
            rows: rows as u32,
            words: words as u32,
            filled,
            pairs,
            ..Answer::default()
        }
    }

    /// Questions 10 and 11, then writes the fused table and the set list.
    fn write_fused(&self, rows: usize, table: &mut [u32], sets: &mut [u32]) -> Answer {
        let columns = self.columns;
        let words = 1 + columns + rows * columns;
        let set_words = 1 + 4 * self.sets;
        if table.len() < words {
            return Answer::refused(10, 2);
        }
        if sets.len() < set_words {
            return Answer::refused(11, 2);
        }
        let table = &mut table[..words];
        self.write_head(rows, table);
        let mut filled = 0;
        let out = table[1 + columns..].chunks_exact_mut(columns);
        for (cells, &code) in out.zip(&self.fused[..rows]) {
            let mut rest = code;
            for (cell, words) in cells.iter_mut().zip(&self.words[..columns]).rev() {
                *cell = words[(rest & ((1 << CODE_BITS) - 1)) as usize];
                filled += u32::from(*cell != 0);
                rest >>= CODE_BITS;
            }
        }
        sets[0] = HEADER | (self.sets as u32) << 18 | 4;
        let out = sets[1..set_words].chunks_exact_mut(4);
        for ((record, set), &place) in out.zip(&self.found).zip(&self.fused_place) {
            let members = set.members.reverse_bits();
            record[0] = MARKS | members as u32 & 0x3FFF_FFFF;
            record[1] = MARKS | (members >> 30) as u32 & 0x3FFF_FFFF;
            record[2] = MARKS | (members >> 60) as u32;
            record[3] = FILLED | u32::from(place);
        }
        Answer {
            rows: rows as u32,
            words: words as u32,
            filled,
            sets: self.sets as u32,
            set_words: set_words as u32,
            ..Answer::default()
        }
    }
}

impl Unions for Reference {
    fn run(
        &mut self,
        call: Call,
        first: &[u32],
        second: &[u32],
        table: &mut [u32],
        sets: &mut [u32],
        answer: &mut [u32],
    ) -> u32 {
        match call {
            Call::Outer => self.outer_union(first, second, table),
            Call::Minimum => self.minimum_union(first, second, table),
            Call::Complement => self.complement_union(first, second, table, sets),
        }
        .give(answer)
    }
}

impl Reader for Reference {
    fn read(&mut self, list: &[u32], rows: u32, words: &mut [u32], answer: &mut [u32]) -> u32 {
        read_set_list(list, rows, words).give(answer)
    }
}

/// Writes the members of each set of a list, for a T of `rows` rows.
pub fn read_set_list(list: &[u32], rows: u32, words: &mut [u32]) -> Answer {
    let Some((&header, records)) = list.split_first() else {
        return Answer::refused(12, 2);
    };
    let sets = (header >> 18 & 0xFFF) as usize;
    let form = header & !(0xFFF << 18) == HEADER | 4;
    if !form || rows as usize > MAX_ROWS || sets > MAX_SETS || records.len() != 4 * sets {
        return Answer::refused(12, 2);
    }
    let outside = u64::MAX.checked_shl(rows).unwrap_or(0);
    let mut needed = 0;
    let mut rising = true;
    // Position 0 in the highest bit: set order is descending.
    let mut last = u64::MAX;
    let mut first = true;
    for record in records.chunks_exact(4) {
        let set = members(record);
        let kinds = record[0] & record[1] & record[2] & !record[3] & MARKS == MARKS
            && (record[0] | record[1] | record[2]) & FILLED == 0
            && record[3] & FILLED != 0;
        // Bits 29 to 4 of the third word mark no position.
        let spare = record[2] & 0x3FFF_FFF0;
        let place = record[3] & 0x3FFF_FFFF;
        if !kinds || spare != 0 || set == 0 || set & outside != 0 || place as usize >= MAX_SETS {
            return Answer::refused(13, 2);
        }
        let turned = set.reverse_bits();
        rising &= first || turned < last;
        (last, first) = (turned, false);
        needed += 2 + set.count_ones() as usize;
    }
    if !rising {
        return Answer::refused(14, 2);
    }
    let Some(out) = words.get_mut(..needed) else {
        return Answer::refused(10, 2);
    };
    let mut at = 0;
    for record in records.chunks_exact(4) {
        let mut rest = members(record);
        out[at] = rest.count_ones();
        at += 1;
        while rest != 0 {
            out[at] = rest.trailing_zeros();
            at += 1;
            rest &= rest - 1;
        }
        out[at] = record[3] & 0x3FFF_FFFF;
        at += 1;
    }
    Answer {
        words: needed as u32,
        sets: sets as u32,
        ..Answer::default()
    }
}

/// The positions that a record marks, as bits from the lowest on.
fn members(record: &[u32]) -> u64 {
    let low = |word: u32| u64::from(word & 0x3FFF_FFFF);
    low(record[0]) | low(record[1]) << 30 | low(record[2]) << 60
}

fn compare(a: &[u64; PAIRS], b: &[u64; PAIRS]) -> Ordering {
    for (x, y) in a.iter().zip(b) {
        if x != y {
            return x.cmp(y);
        }
    }
    Ordering::Equal
}

/// Questions 1 to 7 with so many rows at most: the number of the first no, or
/// the source.
pub(crate) fn check(image: &[u32], most_rows: usize) -> Result<Source<'_>, u32> {
    let Some(&header) = image.first() else {
        return Err(1);
    };
    if header >> 30 != 3 || header & 0x0003_FFE0 != 0 {
        return Err(1);
    }
    let columns = (header & 0x1F) as usize;
    if !(1..=MAX_COLUMNS).contains(&columns) {
        return Err(2);
    }
    let rows = (header >> 18 & 0xFFF) as usize;
    if rows > most_rows {
        return Err(3);
    }
    if image.len() != 1 + columns + rows * columns {
        return Err(4);
    }
    let (heads, cells) = image[1..].split_at(columns);
    let mut ids = [0u32; MAX_COLUMNS];
    for (place, (id, &word)) in ids.iter_mut().zip(heads).enumerate() {
        if word & !(MARK | 0xFFFF) != COLUMN {
            return Err(5);
        }
        *id = (word & 0xFFFF) << 5 | (word & MARK) >> 25 | place as u32;
    }
    let sorted = &mut ids[..columns];
    sorted.sort_unstable();
    if sorted.windows(2).any(|pair| pair[0] >> 5 == pair[1] >> 5) {
        return Err(6);
    }
    // Kind 1 are the words from 2^30 to 2^31 - 1, and the next one is none
    // (request A4).
    let wrong = cells.iter().fold(false, |wrong, &word| {
        wrong | (word != 0 && word.wrapping_sub(FILLED) > FILLED)
    });
    if wrong {
        return Err(7);
    }
    Ok(Source {
        columns,
        ids,
        cells,
    })
}

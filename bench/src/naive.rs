//! Brute force straight from the definitions of document 01 and the requests
//! after it, with no care for speed. For T of up to `SUBSET_ROWS` rows the
//! maximal sets are found by looking at every subset; above that, `Naive` goes
//! through T row by row and keeps the sets that are maximal among the rows so
//! far. A set list is read bit by bit. For one page of a table all its pages
//! are written.

use crate::{Answer, Call, Pager, Reader, Unions};
use crate::{MAX_COLUMNS, MAX_ROWS, MAX_SETS, MAX_SOURCE_ROWS, MAX_STORED_ROWS};
use std::collections::{BTreeMap, BTreeSet};

/// Largest T for which every subset is looked at.
pub const SUBSET_ROWS: usize = 12;

/// A row: a word for each column, 0 for empty. Every other word is filled.
type Row = Vec<u32>;

/// A column: its id and whether it is marked.
type Column = (u32, bool);

struct Table {
    columns: Vec<Column>,
    rows: Vec<Row>,
}

/// The questions 1 to 7, one after the other, with so many rows at most.
fn read(image: &[u32], most_rows: usize) -> Result<Table, u32> {
    if image.is_empty() {
        return Err(1);
    }
    let kind = |word: u32| word / 0x4000_0000;
    let header = image[0];
    if kind(header) != 3 || (5..=17).any(|bit| header & (1 << bit) != 0) {
        return Err(1);
    }
    let columns = (header % 32) as usize;
    let rows = (header / (1 << 18) % (1 << 12)) as usize;
    if columns == 0 || columns > MAX_COLUMNS {
        return Err(2);
    }
    if rows > most_rows {
        return Err(3);
    }
    if image.len() != 1 + columns + rows * columns {
        return Err(4);
    }
    let mut heads: Vec<Column> = Vec::new();
    for &word in &image[1..=columns] {
        if kind(word) != 2 || (16..=28).any(|bit| word & (1 << bit) != 0) {
            return Err(5);
        }
        heads.push((word % (1 << 16), word / (1 << 29) % 2 == 1));
    }
    for i in 0..columns {
        for j in 0..i {
            if heads[i].0 == heads[j].0 {
                return Err(6);
            }
        }
    }
    for &word in &image[1 + columns..] {
        match kind(word) {
            0 if word == 0 => {}
            1 => {}
            // Known to be none (request A4).
            2 if zero_bits(word, 0, 29) => {}
            _ => return Err(7),
        }
    }
    let mut list = Vec::new();
    for row in 0..rows {
        let start = 1 + columns + row * columns;
        list.push(image[start..start + columns].to_vec());
    }
    Ok(Table {
        columns: heads,
        rows: list,
    })
}

/// Union columns, marked if either table marks them, and T.
fn outer(first: &[u32], second: &[u32]) -> Result<Table, Answer> {
    let first = read(first, MAX_SOURCE_ROWS).map_err(|number| Answer::refused(number, 0))?;
    let second = read(second, MAX_SOURCE_ROWS).map_err(|number| Answer::refused(number, 1))?;
    let both = || first.columns.iter().chain(&second.columns);
    let ids: BTreeSet<u32> = both().map(|&(id, _)| id).collect();
    if ids.len() > MAX_COLUMNS {
        return Err(Answer::refused(8, 2));
    }
    let mut rows = BTreeSet::new();
    for table in [&first, &second] {
        for row in &table.rows {
            let heads = table.columns.iter();
            let cells: BTreeMap<u32, u32> =
                heads.map(|&(id, _)| id).zip(row.iter().copied()).collect();
            let padded: Row = ids
                .iter()
                .map(|id| cells.get(id).copied().unwrap_or(0))
                .collect();
            rows.insert(padded);
        }
    }
    Ok(Table {
        columns: ids
            .into_iter()
            .map(|id| (id, both().any(|&column| column == (id, true))))
            .collect(),
        rows: rows.into_iter().collect(),
    })
}

pub fn empty_cells(row: &[u32]) -> usize {
    row.iter().filter(|&&word| word == 0).count()
}

/// Row s subsumes row t.
pub fn subsumes(s: &[u32], t: &[u32]) -> bool {
    empty_cells(t) > empty_cells(s) && s.iter().zip(t).all(|(a, b)| *b == 0 || a == b)
}

/// The columns that count in condition (3), from the marks of the union's
/// columns: the marked ones, or all if none is marked.
pub fn counted(marks: &[bool]) -> Vec<bool> {
    if marks.contains(&true) {
        marks.to_vec()
    } else {
        vec![true; marks.len()]
    }
}

/// Rows s and t complement each other. `counts` tells the columns that count
/// in condition (3).
pub fn complement(s: &[u32], t: &[u32], counts: &[bool]) -> bool {
    let agree = s.iter().zip(t).all(|(a, b)| a == b || *a == 0 || *b == 0);
    let apart = s != t && !subsumes(s, t) && !subsumes(t, s);
    let shared = (0..s.len()).any(|c| counts[c] && s[c] != 0 && s[c] == t[c]);
    agree && apart && shared
}

/// For every two different positions: do they complement each other?
fn relation(rows: &[Row], counts: &[bool]) -> Vec<Vec<bool>> {
    let n = rows.len();
    (0..n)
        .map(|i| {
            (0..n)
                .map(|j| i != j && complement(&rows[i], &rows[j], counts))
                .collect()
        })
        .collect()
}

fn holds(set: u64, position: usize) -> bool {
    set >> position & 1 == 1
}

fn complementing(set: u64, n: usize, related: &[Vec<bool>]) -> bool {
    set != 0 && (0..n).all(|i| !holds(set, i) || (0..i).all(|j| !holds(set, j) || related[i][j]))
}

/// No position below `n` outside the set complements all its members.
fn maximal(set: u64, n: usize, related: &[Vec<bool>]) -> bool {
    (0..n).all(|i| holds(set, i) || (0..n).any(|j| holds(set, j) && !related[i][j]))
}

/// The maximal sets among all subsets.
fn sets_by_subsets(related: &[Vec<bool>]) -> Vec<u64> {
    let n = related.len();
    (1..1u64 << n)
        .filter(|&set| complementing(set, n, related) && maximal(set, n, related))
        .collect()
}

/// The maximal sets, row by row: the sets that are maximal among the rows up
/// to i are the earlier ones that row i does not extend, and those made of row
/// i and the members of an earlier set that complement it, if maximal. A part
/// of T never has more maximal sets than T, so more than 1,024 stay more.
fn sets_by_rows(related: &[Vec<bool>]) -> Option<Vec<u64>> {
    let mut sets: BTreeSet<u64> = BTreeSet::new();
    for i in 0..related.len() {
        let mut next = BTreeSet::new();
        if i == 0 {
            next.insert(1);
        }
        for &set in &sets {
            let near = (0..i)
                .filter(|&j| holds(set, j) && related[i][j])
                .fold(0u64, |near, j| near | 1 << j);
            if near != set {
                next.insert(set);
            }
            let taken = near | 1 << i;
            if maximal(taken, i + 1, related) {
                next.insert(taken);
            }
        }
        sets = next;
        if sets.len() > MAX_SETS {
            return None;
        }
    }
    Some(sets.into_iter().collect())
}

/// Set a comes before set b: a holds the smallest position that only one holds.
fn before(a: u64, b: u64) -> bool {
    (0..64)
        .find(|&i| holds(a, i) != holds(b, i))
        .is_some_and(|i| holds(a, i))
}

fn join(set: u64, rows: &[Row], columns: usize) -> Row {
    (0..columns)
        .map(|column| {
            rows.iter()
                .enumerate()
                .filter(|(i, row)| holds(set, *i) && row[column] != 0)
                .map(|(_, row)| row[column])
                .next()
                .unwrap_or(0)
        })
        .collect()
}

fn image(columns: &[Column], rows: &[Row]) -> Vec<u32> {
    let mut words = vec![3 * 0x4000_0000 + rows.len() as u32 * (1 << 18) + columns.len() as u32];
    for &(id, marked) in columns {
        words.push(2 * 0x4000_0000 + u32::from(marked) * (1 << 29) + id);
    }
    for row in rows {
        words.extend(row);
    }
    words
}

fn filled(rows: &[Row]) -> u32 {
    rows.iter()
        .map(|row| row.len() - empty_cells(row))
        .sum::<usize>() as u32
}

fn done(columns: &[Column], rows: &[Row]) -> (Answer, Vec<u32>) {
    let words = image(columns, rows);
    let answer = Answer {
        rows: rows.len() as u32,
        words: words.len() as u32,
        filled: filled(rows),
        ..Answer::default()
    };
    (answer, words)
}

/// The brute force implementation.
pub struct Naive {
    /// Largest T for which every subset is looked at.
    pub subset_rows: usize,
}

impl Default for Naive {
    fn default() -> Naive {
        Naive {
            subset_rows: SUBSET_ROWS,
        }
    }
}

impl Naive {
    fn union(
        &self,
        call: Call,
        first: &[u32],
        second: &[u32],
        table: &mut [u32],
        sets: &mut [u32],
    ) -> Result<Answer, Answer> {
        let Table { columns, rows } = outer(first, second)?;
        let (answer, words, list) = match call {
            Call::Outer => {
                let (answer, words) = done(&columns, &rows);
                (answer, words, Vec::new())
            }
            Call::Minimum => {
                let mut kept = Vec::new();
                let mut pairs = 0;
                for (i, row) in rows.iter().enumerate() {
                    let mut subsumed = false;
                    for (j, other) in rows.iter().enumerate() {
                        if i == j {
                            continue;
                        }
                        pairs += 1;
                        if subsumes(other, row) {
                            subsumed = true;
                            break;
                        }
                    }
                    if !subsumed {
                        kept.push(row.clone());
                    }
                }
                let (mut answer, words) = done(&columns, &kept);
                answer.pairs = pairs;
                (answer, words, Vec::new())
            }
            Call::Complement => {
                let marks: Vec<bool> = columns.iter().map(|&(_, marked)| marked).collect();
                let related = relation(&rows, &counted(&marks));
                let mut found = if rows.len() <= self.subset_rows {
                    sets_by_subsets(&related)
                } else {
                    sets_by_rows(&related).ok_or(Answer::refused(9, 2))?
                };
                if found.len() > MAX_SETS {
                    return Err(Answer::refused(9, 2));
                }
                found.sort_by(|&a, &b| {
                    if before(a, b) {
                        std::cmp::Ordering::Less
                    } else {
                        std::cmp::Ordering::Greater
                    }
                });
                let joined: Vec<Row> = found
                    .iter()
                    .map(|&set| join(set, &rows, columns.len()))
                    .collect();
                let fused: Vec<Row> = joined
                    .iter()
                    .cloned()
                    .collect::<BTreeSet<Row>>()
                    .into_iter()
                    .collect();
                let mut list = vec![3 * 0x4000_0000 + found.len() as u32 * (1 << 18) + 4];
                for (set, row) in found.iter().zip(&joined) {
                    for bits in [0..30, 30..60, 60..64] {
                        let start = bits.start;
                        let marks: u32 = bits
                            .filter(|&i| holds(*set, i))
                            .map(|i| 1 << (i - start))
                            .sum();
                        list.push(2 * 0x4000_0000 + marks);
                    }
                    let place = fused.iter().position(|other| other == row).unwrap();
                    list.push(0x4000_0000 + place as u32);
                }
                let (mut answer, words) = done(&columns, &fused);
                answer.sets = found.len() as u32;
                answer.set_words = list.len() as u32;
                (answer, words, list)
            }
        };
        if table.len() < words.len() {
            return Err(Answer::refused(10, 2));
        }
        if sets.len() < list.len() {
            return Err(Answer::refused(11, 2));
        }
        table[..words.len()].copy_from_slice(&words);
        sets[..list.len()].copy_from_slice(&list);
        Ok(answer)
    }
}

impl Unions for Naive {
    fn run(
        &mut self,
        call: Call,
        first: &[u32],
        second: &[u32],
        table: &mut [u32],
        sets: &mut [u32],
        answer: &mut [u32],
    ) -> u32 {
        let (Ok(given) | Err(given)) = self.union(call, first, second, table, sets);
        given.give(answer)
    }
}

/// Whether bits `from` to `to` of a word are zero.
fn zero_bits(word: u32, from: u32, to: u32) -> bool {
    (from..=to).all(|bit| word & (1 << bit) == 0)
}

/// Check 12: the number of sets.
fn list_header(list: &[u32], rows: u32) -> Result<usize, u32> {
    if rows > MAX_ROWS as u32 || list.is_empty() {
        return Err(12);
    }
    let header = list[0];
    let sets = (header / (1 << 18) % (1 << 12)) as usize;
    let form = header / (1 << 30) == 3 && zero_bits(header, 5, 17) && header % 32 == 4;
    if !form || sets > MAX_SETS || list.len() != 1 + 4 * sets {
        return Err(12);
    }
    Ok(sets)
}

/// Check 13: the positions of a record's set and that of its joined row.
fn read_record(record: &[u32], rows: u32) -> Result<(BTreeSet<u32>, u32), u32> {
    let mut positions = BTreeSet::new();
    for (&word, start) in record[..3].iter().zip([0, 30, 60]) {
        if word / (1 << 30) != 2 {
            return Err(13);
        }
        for bit in 0..30 {
            if word / (1 << bit) % 2 == 1 {
                positions.insert(start + bit);
            }
        }
    }
    let (kind, place) = (record[3] / (1 << 30), record[3] % (1 << 30));
    // An unused bit is a position from 64 on.
    if kind != 1
        || positions.is_empty()
        || positions.iter().any(|&p| p >= 64 || p >= rows)
        || place > 1023
    {
        return Err(13);
    }
    Ok((positions, place))
}

/// The smallest position that only one set holds is in `a`.
fn comes_first(a: &BTreeSet<u32>, b: &BTreeSet<u32>) -> bool {
    a.symmetric_difference(b)
        .next()
        .is_some_and(|position| a.contains(position))
}

fn read_list(list: &[u32], rows: u32, words: &mut [u32]) -> Result<Answer, u32> {
    let sets = list_header(list, rows)?;
    let mut entries = Vec::new();
    for k in 0..sets {
        entries.push(read_record(&list[1 + 4 * k..5 + 4 * k], rows)?);
    }
    for k in 1..sets {
        if !comes_first(&entries[k - 1].0, &entries[k].0) {
            return Err(14);
        }
    }
    let mut result = Vec::new();
    for (positions, place) in entries {
        result.push(positions.len() as u32);
        result.extend(positions);
        result.push(place);
    }
    if words.len() < result.len() {
        return Err(10);
    }
    words[..result.len()].copy_from_slice(&result);
    Ok(Answer {
        words: result.len() as u32,
        sets: sets as u32,
        ..Answer::default()
    })
}

impl Reader for Naive {
    fn read(&mut self, list: &[u32], rows: u32, words: &mut [u32], answer: &mut [u32]) -> u32 {
        read_list(list, rows, words)
            .unwrap_or_else(|number| Answer::refused(number, 2))
            .give(answer)
    }
}

/// A line of a page: a position, or none, and cells.
fn line(position: &str, cells: &[String]) -> String {
    let mut text = format!("{position:>4}");
    for cell in cells {
        text += &format!("{cell:>12}");
    }
    format!("{text:<80}\n")
}

/// Every page of a table.
fn pages(table: &Table) -> Vec<String> {
    let shown = |word: u32| match word / (1 << 30) {
        0 => "-".to_string(),
        1 => (word % (1 << 30)).to_string(),
        _ => "none".to_string(),
    };
    let mut pages = Vec::new();
    let mut left = 0;
    while left < table.columns.len() {
        let right = table.columns.len().min(left + 6);
        let mut next = 0;
        loop {
            let ids: Vec<String> = table.columns[left..right]
                .iter()
                .map(|(id, _)| id.to_string())
                .collect();
            let mut page = line("", &ids);
            for _ in 2..=60 {
                if next < table.rows.len() {
                    let cells: Vec<String> = table.rows[next][left..right]
                        .iter()
                        .map(|&word| shown(word))
                        .collect();
                    page += &line(&next.to_string(), &cells);
                    next += 1;
                } else {
                    page += &line("", &[]);
                }
            }
            pages.push(page);
            if next == table.rows.len() {
                break;
            }
        }
        left = right;
    }
    pages
}

fn put_page(image: &[u32], page: u32, bytes: &mut [u8]) -> Result<Answer, Answer> {
    let table = read(image, MAX_STORED_ROWS).map_err(|number| Answer::refused(number, 0))?;
    let pages = pages(&table);
    let text = pages
        .get(page as usize)
        .ok_or(Answer::refused(15, 2))?
        .as_bytes();
    if bytes.len() < text.len() {
        return Err(Answer::refused(16, 2));
    }
    bytes[..text.len()].copy_from_slice(text);
    Ok(Answer {
        pages: pages.len() as u32,
        ..Answer::default()
    })
}

impl Pager for Naive {
    fn page(&mut self, image: &[u32], page: u32, bytes: &mut [u8], answer: &mut [u32]) -> u32 {
        let (Ok(given) | Err(given)) = put_page(image, page, bytes);
        given.give(answer)
    }
}

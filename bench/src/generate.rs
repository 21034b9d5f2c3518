//! Seeded generator of inputs: pairs of images, three images, and buffers.

use crate::{MAX_COLUMNS, MAX_SOURCE_ROWS};
use std::collections::{BTreeMap, BTreeSet};

const HEADER: u32 = 3 << 30;
const COLUMN: u32 = 2 << 30;
const FILLED: u32 = 1 << 30;
const NUMBERS: u32 = FILLED - 1;
const IDS: u32 = 0xFFFF;

/// The mark of a column word.
pub const MARK: u32 = 1 << 29;

/// The cell of what is known to be none (request A4).
pub const NONE: u32 = 2 << 30;

/// Words beside it that no cell may be.
const NOT_NONE: [u32; 4] = [NONE | 1, NONE | 1 << 16, NONE | 1 << 29, 3 << 30];

/// Row counts that no source table has, the first one over the limit.
const OVER: [u32; 9] = [33, 33, 34, 63, 64, 65, 1024, 2048, 4095];

/// Splitmix64.
#[derive(Clone)]
pub struct Rng(u64);

impl Rng {
    pub fn new(seed: u64) -> Rng {
        Rng(seed)
    }

    /// The generator of one case, so that a case can be repeated alone.
    pub fn for_case(seed: u64, case: u64) -> Rng {
        let mut rng = Rng(seed);
        let high = rng.next();
        let mut rng = Rng(high ^ case.wrapping_mul(0xD134_2543_DE82_EF95));
        rng.next();
        rng
    }

    #[allow(clippy::should_implement_trait)]
    pub fn next(&mut self) -> u64 {
        self.0 = self.0.wrapping_add(0x9E37_79B9_7F4A_7C15);
        let mut z = self.0;
        z = (z ^ (z >> 30)).wrapping_mul(0xBF58_476D_1CE4_E5B9);
        z = (z ^ (z >> 27)).wrapping_mul(0x94D0_49BB_1331_11EB);
        z ^ (z >> 31)
    }

    /// A number from 0 to `n` - 1.
    pub fn below(&mut self, n: usize) -> usize {
        ((u128::from(self.next()) * n as u128) >> 64) as usize
    }

    /// A number from `low` to `high`, both included.
    pub fn between(&mut self, low: usize, high: usize) -> usize {
        low + self.below(high - low + 1)
    }

    /// True in `part` of `whole` cases.
    pub fn chance(&mut self, part: usize, whole: usize) -> bool {
        self.below(whole) < part
    }

    pub fn word(&mut self) -> u32 {
        (self.next() >> 32) as u32
    }

    pub fn pick<'a, T>(&mut self, list: &'a [T]) -> &'a T {
        &list[self.below(list.len())]
    }

    pub fn shuffle<T>(&mut self, list: &mut [T]) {
        for i in (1..list.len()).rev() {
            list.swap(i, self.below(i + 1));
        }
    }
}

/// A table without marks before it is written as an image. Cells are words, 0
/// is empty.
#[derive(Clone, Debug, PartialEq, Eq)]
pub struct Table {
    pub ids: Vec<u32>,
    pub rows: Vec<Vec<u32>>,
}

impl Table {
    pub fn image(&self) -> Vec<u32> {
        let mut words = vec![HEADER | (self.rows.len() as u32) << 18 | self.ids.len() as u32];
        words.extend(self.ids.iter().map(|id| COLUMN | id));
        for row in &self.rows {
            words.extend(row);
        }
        words
    }

    /// The table of a well-formed image, without its marks.
    pub fn from_image(image: &[u32]) -> Table {
        let columns = (image[0] & 31) as usize;
        Table {
            ids: image[1..=columns].iter().map(|word| word & IDS).collect(),
            rows: image[1 + columns..]
                .chunks_exact(columns)
                .map(<[u32]>::to_vec)
                .collect(),
        }
    }
}

/// The cell of a number.
pub fn cell(number: u32) -> u32 {
    FILLED | number
}

/// Two images and the kind of input they were made as.
#[derive(Clone)]
pub struct Pair {
    pub kind: &'static str,
    pub first: Vec<u32>,
    pub second: Vec<u32>,
}

pub(crate) fn pair(kind: &'static str, (first, second): (Table, Table)) -> Pair {
    Pair {
        kind,
        first: first.image(),
        second: second.image(),
    }
}

/// The column words of a well-formed image.
fn heads(image: &mut [u32]) -> &mut [u32] {
    let columns = (image[0] & 31) as usize;
    &mut image[1..=columns]
}

/// Whether a well-formed image has a marked column.
pub fn is_marked(image: &[u32]) -> bool {
    image[1..=(image[0] & 31) as usize]
        .iter()
        .any(|word| word & MARK != 0)
}

/// A pair of well-formed images without its marks.
pub fn unmarked(pair: &Pair) -> Pair {
    let mut pair = pair.clone();
    for image in [&mut pair.first, &mut pair.second] {
        for word in heads(image) {
            *word &= !MARK;
        }
    }
    pair
}

/// The cells of a well-formed image, each with the id of its column.
fn cells(image: &mut [u32]) -> impl Iterator<Item = (&mut u32, u32)> {
    let columns = (image[0] & 31) as usize;
    let (heads, cells) = image[1..].split_at_mut(columns);
    let ids = heads.iter().map(|head| head & IDS);
    cells.iter_mut().zip(ids.cycle())
}

/// Whether a well-formed image has a cell that is none.
pub fn has_none(image: &[u32]) -> bool {
    image[1 + (image[0] & 31) as usize..].contains(&NONE)
}

/// A pair of well-formed images with this word in place of none.
pub fn without_none(pair: &Pair, word: u32) -> Pair {
    let mut pair = pair.clone();
    for image in [&mut pair.first, &mut pair.second] {
        let nones = cells(image).filter(|(cell, _)| **cell == NONE);
        nones.for_each(|(cell, _)| *cell = word);
    }
    pair
}

/// Makes cells of well-formed images none, if any is filled. Unless `freely`,
/// none takes the place of a number in a whole column, or in all, of every
/// image: rows that were equal, or complemented, or subsumed, still do.
pub(crate) fn put_none(rng: &mut Rng, images: &mut [&mut [u32]], freely: bool) {
    let mut filled = Vec::new();
    for image in images.iter_mut() {
        let list = cells(image).map(|(cell, id)| (*cell, id));
        filled.extend(list.filter(|&(cell, _)| cell != 0));
    }
    if filled.is_empty() {
        return;
    }
    let (word, column) = *rng.pick(&filled);
    let style = rng.below(if freely { 8 } else { 3 });
    let part = *rng.pick(&[1, 2, 4, 7]);
    for image in images {
        for (cell, id) in cells(image) {
            let taken = match style {
                0 | 1 => *cell == word,
                2 => *cell == word && id == column,
                3 | 4 => *cell == word && rng.chance(part, 8),
                // Any cell, be it empty.
                _ => rng.chance(part, 8),
            };
            if taken {
                *cell = NONE;
            }
        }
    }
}

/// Marks the column with this id, if the image has it.
fn mark_id(image: &mut [u32], id: u32) -> bool {
    let head = heads(image).iter_mut().find(|word| **word & IDS == id);
    match head {
        Some(word) => {
            *word |= MARK;
            true
        }
        None => false,
    }
}

/// Marks each column word of an image in `part` of 8 cases.
pub(crate) fn mark_some(rng: &mut Rng, image: &mut [u32], part: usize) {
    for word in heads(image) {
        if rng.chance(part, 8) {
            *word |= MARK;
        }
    }
}

/// Empties the column with this id, if the image has it.
fn empty_column(image: &mut [u32], id: u32) {
    let columns = (image[0] & 31) as usize;
    if let Some(place) = heads(image).iter().position(|word| word & IDS == id) {
        for row in image[1 + columns..].chunks_exact_mut(columns) {
            row[place] = 0;
        }
    }
}

/// Puts marks on columns of two well-formed images. Column words are marked
/// each by itself, so that of a column in both tables often only one is.
fn mark(rng: &mut Rng, pair: &mut Pair) {
    let mut images = [&mut pair.first, &mut pair.second];
    if rng.chance(1, 2) {
        images.swap(0, 1);
    }
    let [one, other] = images;
    let id = *rng.pick(heads(one)) & IDS;
    match rng.below(8) {
        0..=3 => {
            let part = *rng.pick(&[1, 2, 4, 7]);
            mark_some(rng, one, part);
            mark_some(rng, other, part);
        }
        // By one table alone.
        4 => {
            let part = *rng.pick(&[1, 4, 8]);
            mark_some(rng, one, part);
        }
        // One column alone, by one table or both.
        5 | 6 => {
            mark_id(one, id);
            if rng.chance(1, 2) {
                mark_id(other, id);
            }
        }
        // A column that is empty in every row, alone or not.
        _ => {
            empty_column(one, id);
            empty_column(other, id);
            mark_id(one, id);
            if rng.chance(1, 2) {
                mark_some(rng, other, 1);
            }
        }
    }
}

/// Distinct column ids, ascending: a dense range, or with the extremes.
pub(crate) fn distinct_ids(rng: &mut Rng, count: usize) -> Vec<u32> {
    let mut ids = Vec::new();
    if rng.chance(1, 2) {
        let start = rng.below(65_536 - count) as u32;
        ids.extend(start..start + count as u32);
    } else {
        if count > 0 && rng.chance(1, 4) {
            ids.push(0);
        }
        if count > ids.len() && rng.chance(1, 4) {
            ids.push(65_535);
        }
        while ids.len() < count {
            let id = rng.below(65_536) as u32;
            if !ids.contains(&id) {
                ids.push(id);
            }
        }
        ids.sort_unstable();
    }
    ids
}

/// A few distinct numbers to fill cells with, with the extremes at times.
pub(crate) fn distinct_numbers(rng: &mut Rng, count: usize) -> Vec<u32> {
    let mut numbers = Vec::new();
    match rng.below(4) {
        0 => numbers.extend(0..count as u32),
        1 => numbers.extend((0..count as u32).map(|i| NUMBERS - i)),
        2 => numbers.extend((0..count as u32).map(|i| match i % 2 {
            0 => i / 2,
            _ => NUMBERS - i / 2,
        })),
        _ => {}
    }
    while numbers.len() < count {
        let number = rng.word() & NUMBERS;
        if !numbers.contains(&number) {
            numbers.push(number);
        }
    }
    rng.shuffle(&mut numbers);
    numbers
}

/// Spreads rows over two tables whose union has the given columns and rows, in
/// a random way: columns in both or in one, in any order, rows in any order,
/// some of them twice. At most 64 rows and 16 columns; columns ascending.
pub fn spread(rng: &mut Rng, ids: &[u32], rows: &[Vec<u32>]) -> (Table, Table) {
    for attempt in 0.. {
        let mut columns: [Vec<usize>; 2] = [Vec::new(), Vec::new()];
        let style = if attempt < 4 { rng.below(4) } else { 0 };
        for place in 0..ids.len() {
            let side = match style {
                0 => 2,
                1 => *rng.pick(&[0, 2]),
                2 => *rng.pick(&[1, 2]),
                _ => *rng.pick(&[0, 1, 2, 2, 2, 2, 2]),
            };
            if side != 1 {
                columns[0].push(place);
            }
            if side != 0 {
                columns[1].push(place);
            }
        }
        if columns[0].is_empty() || columns[1].is_empty() {
            continue;
        }
        let mut sides: [Vec<usize>; 2] = [Vec::new(), Vec::new()];
        let mut order: Vec<usize> = (0..rows.len()).collect();
        rng.shuffle(&mut order);
        let bias = rng.between(0, 8);
        let mut either = Vec::new();
        let mut possible = true;
        for &row in &order {
            let fits = |side: usize| {
                (0..ids.len()).all(|place| rows[row][place] == 0 || columns[side].contains(&place))
            };
            match (fits(0), fits(1)) {
                (true, true) => either.push(row),
                (true, false) => sides[0].push(row),
                (false, true) => sides[1].push(row),
                (false, false) => possible = false,
            }
        }
        for &row in &either {
            let side = usize::from(rng.below(8) >= bias);
            let side = if sides[side].len() < MAX_SOURCE_ROWS {
                side
            } else {
                1 - side
            };
            sides[side].push(row);
        }
        if !possible || sides.iter().any(|side| side.len() > MAX_SOURCE_ROWS) {
            continue;
        }
        // Repeat some rows, in either table.
        while !either.is_empty() && rng.chance(1, 3) {
            let side = rng.below(2);
            if sides[side].len() < MAX_SOURCE_ROWS {
                sides[side].push(*rng.pick(&either));
            }
        }
        let mut tables = Vec::new();
        for side in 0..2 {
            rng.shuffle(&mut columns[side]);
            rng.shuffle(&mut sides[side]);
            tables.push(Table {
                ids: columns[side].iter().map(|&place| ids[place]).collect(),
                rows: sides[side]
                    .iter()
                    .map(|&row| {
                        columns[side]
                            .iter()
                            .map(|&place| rows[row][place])
                            .collect()
                    })
                    .collect(),
            });
        }
        let second = tables.pop().unwrap();
        return (tables.pop().unwrap(), second);
    }
    unreachable!()
}

/// Another accepted pair with the union columns, their marks and the T of an
/// outer union.
pub fn twin(rng: &mut Rng, union: &[u32]) -> Pair {
    let table = Table::from_image(union);
    let mut made = pair("twin", spread(rng, &table.ids, &table.rows));
    for (id, word) in table.ids.iter().zip(&union[1..]) {
        if word & MARK != 0 {
            // By the first table, the second or both; if that one has no such
            // column, by the other.
            let by = rng.between(1, 3);
            let first = by & 1 != 0 && mark_id(&mut made.first, *id);
            let second = by & 2 != 0 && mark_id(&mut made.second, *id);
            if !first && !second {
                mark_id(&mut made.first, *id);
                mark_id(&mut made.second, *id);
            }
        }
    }
    made
}

/// Random rows with few numbers; a cell is filled in `part` of 8 cases.
pub(crate) fn random_table(
    rng: &mut Rng,
    pool: &[u32],
    columns: usize,
    rows: usize,
    numbers: &[u32],
    part: usize,
) -> Table {
    let mut ids = pool.to_vec();
    rng.shuffle(&mut ids);
    ids.truncate(columns);
    let rows = (0..rows)
        .map(|_| {
            (0..ids.len())
                .map(|_| {
                    if rng.chance(part, 8) {
                        cell(*rng.pick(numbers))
                    } else {
                        0
                    }
                })
                .collect()
        })
        .collect();
    Table { ids, rows }
}

/// Small tables with few numbers.
fn small(rng: &mut Rng) -> (Table, Table) {
    let count = rng.between(1, 6);
    let pool = distinct_ids(rng, count);
    let count = rng.between(1, 3);
    let numbers = distinct_numbers(rng, count);
    let part = rng.between(1, 7);
    let mut table = || {
        let columns = rng.between(1, pool.len());
        let rows = rng.below(8);
        random_table(rng, &pool, columns, rows, &numbers, part)
    };
    (table(), table())
}

/// Tables of any size up to the limits.
fn any_size(rng: &mut Rng) -> (Table, Table) {
    let count = rng.between(1, MAX_COLUMNS);
    let pool = distinct_ids(rng, count);
    let count = *rng.pick(&[1, 2, 2, 3, 3, 4, 8, 64]);
    let numbers = distinct_numbers(rng, count);
    let part = rng.between(1, 8);
    let full = rng.chance(1, 4);
    let mut table = || {
        let columns = if full || rng.chance(1, 4) {
            pool.len()
        } else {
            rng.between(1, pool.len())
        };
        let rows = if full || rng.chance(1, 8) {
            MAX_SOURCE_ROWS
        } else {
            rng.below(MAX_SOURCE_ROWS + 1)
        };
        random_table(rng, &pool, columns, rows, &numbers, part)
    };
    (table(), table())
}

/// Parts of a few full rows: many rows agree, few contain each other.
fn parts(rng: &mut Rng) -> (Table, Table) {
    let columns = rng.between(1, MAX_COLUMNS);
    let ids = distinct_ids(rng, columns);
    let count = rng.between(1, 3);
    let numbers = distinct_numbers(rng, count);
    let whole: Vec<Vec<u32>> = (0..rng.between(1, 6))
        .map(|_| (0..columns).map(|_| cell(*rng.pick(&numbers))).collect())
        .collect();
    let limit = *rng.pick(&[6, 12, 12, 24, 64]);
    let count = rng.below(limit + 1);
    let part = rng.between(1, 7);
    let rows: Vec<Vec<u32>> = (0..count)
        .map(|_| {
            rng.pick(&whole)
                .clone()
                .into_iter()
                .map(|word| if rng.chance(part, 8) { word } else { 0 })
                .collect()
        })
        .collect();
    spread(rng, &ids, &rows)
}

/// Neighbouring cells of a ring: P7 and its relatives of other lengths.
fn ring(rng: &mut Rng) -> (Table, Table) {
    let columns = rng.between(3, MAX_COLUMNS);
    let ids = distinct_ids(rng, columns);
    let width = rng.between(2, (columns - 1).min(5));
    let count = rng.between(1, 4);
    let numbers = distinct_numbers(rng, count);
    let mut rows = Vec::new();
    for number in numbers {
        for start in 0..columns {
            if rng.chance(7, 8) && rows.len() < 64 {
                let mut row = vec![0; columns];
                for step in 0..width {
                    row[(start + step) % columns] = cell(number);
                }
                rows.push(row);
            }
        }
    }
    spread(rng, &ids, &rows)
}

/// Rows that share a number in the key column and each fill one further
/// column: `sizes[k]` rows in the k-th further column. The rows have as many
/// maximal sets as the product of the sizes. A key without sizes is one row.
pub(crate) fn grid(numbers: &[u32], columns: usize, key: usize, sizes: &[usize]) -> Vec<Vec<u32>> {
    let mut rows = Vec::new();
    if sizes.is_empty() {
        let mut row = vec![0; columns];
        row[0] = cell(numbers[key]);
        rows.push(row);
    }
    for (place, &size) in sizes.iter().enumerate() {
        for number in &numbers[..size] {
            let mut row = vec![0; columns];
            row[0] = cell(numbers[key]);
            row[1 + place] = cell(*number);
            rows.push(row);
        }
    }
    rows
}

/// Moves column 0 and the others to random places, and some to no use.
pub(crate) fn scatter(rng: &mut Rng, rows: &[Vec<u32>], columns: usize) -> (Table, Table) {
    let wide = if rng.chance(1, 4) {
        rng.between(columns, MAX_COLUMNS)
    } else {
        columns
    };
    let mut places: Vec<usize> = (0..wide).collect();
    if rng.chance(3, 4) {
        rng.shuffle(&mut places);
    }
    let rows: Vec<Vec<u32>> = rows
        .iter()
        .map(|row| {
            let mut moved = vec![0; wide];
            for (place, &word) in row.iter().enumerate() {
                moved[places[place]] = word;
            }
            moved
        })
        .collect();
    let ids = distinct_ids(rng, wide);
    spread(rng, &ids, &rows)
}

/// Document 01's 1,024 sets, with `extra` rows that are a set each.
pub fn document_sets(rng: &mut Rng, extra: usize) -> (Table, Table) {
    let numbers = distinct_numbers(rng, 2 + extra);
    let mut rows = grid(&numbers, 11, 0, &[2; 10]);
    for key in 0..extra {
        rows.extend(grid(&numbers, 11, key + 1, &[]));
    }
    scatter(rng, &rows, 11)
}

/// About 1,024 sets, in one or more grids.
fn about_limit(rng: &mut Rng) -> (Table, Table) {
    let numbers = distinct_numbers(rng, 64);
    let columns = rng.between(3, MAX_COLUMNS);
    let mut wanted = rng.between(1016, 1030);
    let mut rows = Vec::new();
    let mut key = 0;
    while wanted > 0 && rows.len() < 64 {
        let mut sizes = Vec::new();
        let mut product = 1;
        let mut room = 64 - rows.len();
        while sizes.len() + 1 < columns {
            let most = (wanted / product).min(room);
            if most < 2 {
                break;
            }
            let most = most.min(*rng.pick(&[2, 3, 4, 6, 40]));
            let size = rng.between(2, most);
            product *= size;
            room -= size;
            sizes.push(size);
        }
        rows.extend(grid(&numbers, columns, key, &sizes));
        key += 1;
        wanted -= product;
    }
    scatter(rng, &rows, columns)
}

/// Far more than 1,024 sets: the search has to stop.
pub fn far_over_limit(rng: &mut Rng) -> (Table, Table) {
    let numbers = distinct_numbers(rng, 64);
    let columns = rng.between(9, MAX_COLUMNS);
    let most = 64 / (columns - 1);
    let sizes: Vec<usize> = (1..columns)
        .map(|_| rng.between(3.min(most), most))
        .collect();
    let rows = grid(&numbers, columns, 0, &sizes);
    scatter(rng, &rows, columns)
}

/// Distinct patterns with `ones` of `width` columns each: an antichain.
fn antichain(rng: &mut Rng, width: usize, ones: usize, count: usize) -> Vec<Vec<bool>> {
    let mut patterns: Vec<Vec<bool>> = Vec::new();
    let mut tries = 0;
    while patterns.len() < count && tries < 64 * count {
        let mut pattern: Vec<bool> = (0..width).map(|place| place < ones).collect();
        rng.shuffle(&mut pattern);
        if !patterns.contains(&pattern) {
            patterns.push(pattern);
        }
        tries += 1;
    }
    patterns
}

/// The rows of a grid, `apart` rows that complement nothing, and `beside` rows
/// that complement all but those: they fill half of the columns that the grid
/// leaves, the same number in each column, in ways that form an antichain, so
/// that none subsumes another. There are as many maximal sets as the product
/// of the sizes, and one for each row apart.
pub(crate) fn grid_beside(
    rng: &mut Rng,
    sizes: &[usize],
    apart: usize,
    beside: usize,
) -> Vec<Vec<u32>> {
    let mut numbers = distinct_numbers(rng, 64);
    // Ascending, so that rows apart stand behind those with the grid's key.
    numbers.sort_unstable();
    let mut rows = grid(&numbers, MAX_COLUMNS, 0, sizes);
    for key in 1..=apart {
        rows.extend(grid(&numbers, MAX_COLUMNS, key, &[]));
    }
    let start = 1 + sizes.len();
    let width = MAX_COLUMNS - start;
    for pattern in antichain(rng, width, width / 2, beside) {
        let mut row = vec![0; MAX_COLUMNS];
        row[0] = cell(numbers[0]);
        for column in (0..width).filter(|&column| pattern[column]) {
            row[start + column] = cell(numbers[column]);
        }
        rows.push(row);
    }
    rows
}

/// Such rows in any numbers, with the columns in any order.
fn beside(rng: &mut Rng) -> (Table, Table) {
    let sizes: Vec<usize> = (0..rng.between(1, 8)).map(|_| rng.between(1, 5)).collect();
    let apart = rng.below(3);
    let room = 64 - apart - sizes.iter().sum::<usize>();
    let count = rng.between(0, room);
    let rows = grid_beside(rng, &sizes, apart, count);
    scatter(rng, &rows, MAX_COLUMNS)
}

/// Hostile lists: for each device a board row (-, 1, pattern) and a plant row
/// (j, 1, pattern), the patterns an antichain. There are only one more maximal
/// sets than devices, but a search that takes or leaves rows in the order of
/// positions has to look at about 2^devices nodes.
pub fn hostile(devices: usize, width: usize, rng: &mut Rng) -> (Table, Table) {
    let patterns = antichain(rng, width, width / 2, devices);
    let ids: Vec<u32> = (10..12 + width as u32).collect();
    let row = |pattern: &[bool], device: u32| {
        let mut row = vec![device, cell(1)];
        row.extend(pattern.iter().map(|&one| if one { cell(1) } else { 0 }));
        row
    };
    let board = patterns.iter().map(|pattern| row(pattern, 0)).collect();
    let plant = patterns
        .iter()
        .zip(1..)
        .map(|(pattern, device)| row(pattern, cell(device)))
        .collect();
    (
        Table {
            ids: ids.clone(),
            rows: board,
        },
        Table { ids, rows: plant },
    )
}

/// Hostile lists of any size, with changed cells and moved columns at times.
fn hostile_like(rng: &mut Rng) -> (Table, Table) {
    let width = rng.between(2, MAX_COLUMNS - 2);
    let devices = rng.between(1, MAX_SOURCE_ROWS);
    let (mut first, mut second) = hostile(devices, width, rng);
    if rng.chance(1, 2) {
        for table in [&mut first, &mut second] {
            for _ in 0..rng.below(6) {
                if table.rows.is_empty() {
                    break;
                }
                let row = rng.below(table.rows.len());
                if rng.chance(1, 3) {
                    table.rows.remove(row);
                } else {
                    let place = rng.below(width + 2);
                    table.rows[row][place] = *rng.pick(&[0, cell(1), cell(2)]);
                }
            }
        }
    }
    if rng.chance(1, 2) {
        let rows: Vec<Vec<u32>> = first.rows.into_iter().chain(second.rows).collect();
        scatter(rng, &rows, width + 2)
    } else {
        (first, second)
    }
}

/// Rows that all complement each other: a shared number and an antichain.
pub fn all_complement(rows: usize, rng: &mut Rng) -> (Table, Table) {
    let width = MAX_COLUMNS - 1;
    let list: Vec<Vec<u32>> = antichain(rng, width, 7, rows)
        .iter()
        .map(|pattern| {
            let mut row = vec![cell(1)];
            row.extend(
                pattern
                    .iter()
                    .zip(2..)
                    .map(|(&one, number)| if one { cell(number) } else { 0 }),
            );
            row
        })
        .collect();
    let ids: Vec<u32> = (10..26).collect();
    let (first, second) = list.split_at(rows / 2);
    (
        Table {
            ids: ids.clone(),
            rows: first.to_vec(),
        },
        Table {
            ids,
            rows: second.to_vec(),
        },
    )
}

/// A union of exactly 16 columns, or of 17 to 32.
fn wide(rng: &mut Rng) -> (Table, Table) {
    let (left, right) = (rng.between(1, MAX_COLUMNS), rng.between(1, MAX_COLUMNS));
    let least = left.max(right);
    let union = if left + right >= 16 && rng.chance(1, 3) {
        16
    } else if left + right >= 17 && rng.chance(1, 2) {
        17
    } else {
        rng.between(least, left + right)
    };
    let mut pool = distinct_ids(rng, union);
    rng.shuffle(&mut pool);
    let count = rng.between(1, 3);
    let numbers = distinct_numbers(rng, count);
    let part = rng.between(2, 7);
    let rows = rng.below(MAX_SOURCE_ROWS + 1);
    let first = random_table(rng, &pool[..left], left, rows, &numbers, part);
    let rows = rng.below(MAX_SOURCE_ROWS + 1);
    let second = random_table(rng, &pool[union - right..], right, rows, &numbers, part);
    (first, second)
}

/// A pair that passes questions 1 to 7, in half of the cases with marks.
fn sound(rng: &mut Rng) -> Pair {
    let mut made = plain(rng);
    if rng.chance(1, 2) {
        mark(rng, &mut made);
    }
    made
}

/// A pair without marks that passes questions 1 to 7, in a third of the cases
/// with cells that are none.
fn plain(rng: &mut Rng) -> Pair {
    let choice = rng.below(33);
    let mut made = match choice {
        0..=9 => pair("small", small(rng)),
        10..=13 => pair("any size", any_size(rng)),
        14..=20 => pair("parts", parts(rng)),
        21..=23 => pair("ring", ring(rng)),
        24 => {
            let extra = rng.below(3);
            pair("1,024 sets and up", document_sets(rng, extra))
        }
        25 => pair("about 1,024 sets", about_limit(rng)),
        26 => pair("far over 1,024 sets", far_over_limit(rng)),
        27 | 28 => pair("hostile", hostile_like(rng)),
        29 => {
            let rows = rng.between(0, 64);
            pair("all complement", all_complement(rows, rng))
        }
        30 => pair("groups and rows beside", beside(rng)),
        _ => pair("wide", wide(rng)),
    };
    if rng.chance(1, 3) {
        // Where sets are counted beforehand, their number stays.
        let freely = !matches!(choice, 24..=26 | 29 | 30);
        put_none(rng, &mut [&mut made.first, &mut made.second], freely);
    }
    made
}

/// Makes the image fail the question with the given number (1 to 7), if it
/// can; earlier questions may fail with it. `over` holds row counts that the
/// table can't have, the first one over the limit.
pub(crate) fn damage(rng: &mut Rng, image: &mut Vec<u32>, number: usize, over: &[u32]) {
    if image.is_empty() {
        return;
    }
    let columns = (image[0] & 31) as usize;
    let rows = (image[0] >> 18 & 0xFFF) as usize;
    match number {
        1 => match rng.below(4) {
            0 => image.clear(),
            1 => image[0] = image[0] & NUMBERS | (rng.below(3) as u32) << 30,
            2 => image[0] |= 1 << rng.between(5, 17),
            _ => image[0] |= (rng.between(1, 8191) as u32) << 5,
        },
        2 => {
            let wrong = *rng.pick(&[0, 0, 17, 17, 18, 24, 31]);
            image[0] = image[0] & !31 | wrong;
            if rng.chance(1, 2) {
                image.resize(1 + wrong as usize * (1 + rows), COLUMN);
            }
        }
        3 => {
            let wrong = *rng.pick(over);
            image[0] = image[0] & !(0xFFF << 18) | wrong << 18;
            if wrong < over[0] + 64 && rng.chance(1, 2) {
                image.resize(1 + columns * (1 + wrong as usize), cell(5));
            }
        }
        4 => match rng.below(5) {
            0 => image.push(0),
            1 => image.truncate(image.len() - 1),
            2 => image.truncate(rng.below(image.len())),
            3 => image.extend(vec![0; columns.max(1)]),
            _ => {
                let more = rng.between(1, 40);
                image.extend((0..more).map(|i| cell(i as u32)));
            }
        },
        5 => {
            let place = rng.between(1, columns.max(1));
            if let Some(word) = image.get_mut(place) {
                match rng.below(3) {
                    0 => *word = *word & NUMBERS | (*rng.pick(&[0, 1, 3])) << 30,
                    1 => *word |= 1 << rng.between(16, 28),
                    _ => *word |= (rng.between(1, 0x1FFF) as u32) << 16,
                }
                if rng.chance(1, 4) {
                    *word ^= MARK;
                }
            }
        }
        6 => {
            if columns >= 2 && image.len() > columns {
                let mut places: Vec<usize> = (1..=columns).collect();
                rng.shuffle(&mut places);
                image[places[0]] = image[places[1]];
                // Equal ids, whatever their marks.
                if rng.chance(1, 2) {
                    image[places[0]] ^= MARK;
                }
            }
        }
        _ => {
            if image.len() > 1 + columns {
                let place = match rng.below(4) {
                    0 => 1 + columns,
                    1 => image.len() - 1,
                    _ => rng.between(1 + columns, image.len() - 1),
                };
                let low = match rng.below(4) {
                    0 => 0,
                    1 => 1,
                    2 => 1 << rng.below(30),
                    _ => rng.word() & NUMBERS,
                };
                image[place] = match rng.below(4) {
                    0 => low.max(1),
                    1 => NONE | low.max(1),
                    2 => 3 << 30 | low,
                    _ => *rng.pick(&NOT_NONE),
                };
            }
        }
    }
}

/// One question to fail, or two. Later questions come first, as the damages of
/// the earlier ones may change the length.
pub(crate) fn damages(rng: &mut Rng, twice: bool) -> Vec<usize> {
    let mut numbers: Vec<usize> = (0..1 + usize::from(twice))
        .map(|_| rng.between(1, 7))
        .collect();
    numbers.sort_unstable_by(|a, b| b.cmp(a));
    numbers
}

/// Random words, some of them near to an image.
pub(crate) fn garbage(rng: &mut Rng) -> Vec<u32> {
    let length = match rng.below(4) {
        0 => rng.below(4),
        1 => rng.below(40),
        2 => rng.below(600),
        _ => rng.below(1200),
    };
    let style = rng.below(4);
    let mut image: Vec<u32> = (0..length)
        .map(|_| match style {
            0 => rng.word(),
            1 => rng.word() & (3 << 30),
            2 => 1 << rng.below(32),
            _ => rng.word() & 0xC000_0003,
        })
        .collect();
    if let Some(header) = image.first_mut() {
        if rng.chance(3, 4) {
            *header = HEADER | (rng.below(34) as u32) << 18 | rng.below(18) as u32;
        }
    }
    image
}

/// A pair of images of any kind, sound or not.
pub fn any_pair(rng: &mut Rng) -> Pair {
    let choice = rng.below(64);
    if choice == 0 {
        let mut images = [garbage(rng), garbage(rng)];
        if rng.chance(1, 2) {
            images[0] = sound(rng).first;
        }
        let [first, second] = images;
        return Pair {
            kind: "garbage",
            first,
            second,
        };
    }
    let mut made = sound(rng);
    if choice < 12 {
        // One question of one table, or two questions of either.
        let twice = choice < 6;
        made.kind = if twice { "two damages" } else { "one damage" };
        for number in damages(rng, twice) {
            let image = if rng.chance(1, 2) {
                &mut made.first
            } else {
                &mut made.second
            };
            damage(rng, image, number, &OVER);
        }
    }
    made
}

/// Three images and the kind of input they were made as.
#[derive(Clone)]
pub struct Triple {
    pub kind: &'static str,
    pub images: [Vec<u32>; 3],
}

/// A third table for a sound pair. Its rows are rows of the pair with cells
/// left out, and with cells of their columns' other rows: they often equal a
/// row of the pair, or one of the two subsumes the other.
fn third(rng: &mut Rng, pair: &Pair) -> Vec<u32> {
    let mut rows: Vec<BTreeMap<u32, u32>> = Vec::new();
    let mut ids = BTreeSet::new();
    for image in [&pair.first, &pair.second] {
        let table = Table::from_image(image);
        ids.extend(&table.ids);
        let by_id = |row: Vec<u32>| table.ids.iter().copied().zip(row).collect();
        rows.extend(table.rows.into_iter().map(by_id));
    }
    // At times a column that neither has.
    if rng.chance(1, 4) {
        let id = rng.word() & IDS;
        if ids.insert(id) {
            for row in &mut rows {
                row.insert(id, *rng.pick(&[0, cell(1)]));
            }
        }
    }
    let mut ids: Vec<u32> = ids.into_iter().collect();
    rng.shuffle(&mut ids);
    ids.truncate(rng.between(1, ids.len().min(MAX_COLUMNS)));

    let limit = *rng.pick(&[2, 8, 16, MAX_SOURCE_ROWS]);
    let count = if rows.is_empty() {
        0
    } else {
        rng.below(limit + 1)
    };
    let (kept, foreign) = (rng.between(4, 8), rng.below(4));
    let mut row = || {
        let row = rng.pick(&rows);
        let word = |id| {
            let from = if rng.chance(foreign, 16) {
                rng.pick(&rows)
            } else {
                row
            };
            match from.get(id) {
                Some(&word) if rng.chance(kept, 8) => word,
                _ => 0,
            }
        };
        ids.iter().map(word).collect()
    };
    let rows = (0..count).map(|_| row()).collect();
    let mut image = Table { ids, rows }.image();
    if rng.chance(1, 3) {
        let part = *rng.pick(&[1, 4, 8]);
        mark_some(rng, &mut image, part);
    }
    image
}

/// Three images in any order, two of them a sound pair and the third made of
/// it; in an eighth of the cases one is damaged.
pub fn any_triple(rng: &mut Rng) -> Triple {
    let pair = sound(rng);
    let third = third(rng, &pair);
    let mut made = Triple {
        kind: pair.kind,
        images: [pair.first, pair.second, third],
    };
    rng.shuffle(&mut made.images);
    if rng.chance(1, 8) {
        let (place, number) = (rng.below(3), rng.between(1, 7));
        made.kind = "three, one damage";
        damage(rng, &mut made.images[place], number, &OVER);
    }
    made
}

/// Length of a lent buffer for a result of `needed` words (0 if refused).
pub fn buffer_length(rng: &mut Rng, needed: usize) -> usize {
    match rng.below(16) {
        0 => 0,
        1 => rng.below(needed + 1),
        2 | 3 => needed.saturating_sub(1),
        4..=8 => needed,
        9 | 10 => needed + 1,
        _ => needed + rng.below(40),
    }
}

/// Length of an answer buffer: mostly nine.
pub fn answer_length(rng: &mut Rng) -> usize {
    if rng.chance(3, 4) {
        crate::ANSWER_WORDS
    } else {
        rng.below(12)
    }
}

/// Words that stand in a buffer before the call.
pub fn fill(rng: &mut Rng, words: &mut [u32]) {
    match rng.below(6) {
        0 => words.fill(0),
        1 => words.fill(!0),
        2 => words.fill(0xA5A5_A5A5),
        3 => words.fill(FILLED),
        4 => {
            let start = rng.word();
            for (word, place) in words.iter_mut().zip(0..) {
                *word = start.wrapping_add(place);
            }
        }
        _ => words.fill_with(|| rng.word()),
    }
}

/// Bytes that stand in a buffer before the call.
pub fn fill_bytes(rng: &mut Rng, bytes: &mut [u8]) {
    match rng.below(8) {
        0 => bytes.fill(0),
        1 => bytes.fill(b' '),
        2 => bytes.fill(b'\n'),
        3 => bytes.fill(0xA5),
        _ => {
            for bytes in bytes.chunks_mut(8) {
                bytes.copy_from_slice(&rng.next().to_le_bytes()[..bytes.len()]);
            }
        }
    }
}

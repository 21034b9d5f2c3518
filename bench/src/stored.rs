//! Seeded generator of pages that are asked for: images of stored tables,
//! sound or damaged, page numbers and lengths of the lent bytes.

use crate::generate::{cell, damage, damages, distinct_ids, garbage, mark_some, put_none};
use crate::generate::{Rng, Table};
use crate::pages;
use crate::{MAX_COLUMNS, MAX_STORED_ROWS, PAGE_BYTES};

const NUMBERS: u32 = (1 << 30) - 1;

/// Column counts at the edges of the bands.
const COLUMNS: [usize; 9] = [1, 5, 6, 6, 7, 12, 13, 16, 16];
/// Row counts at the edges of the pages.
const ROWS: [usize; 8] = [0, 1, 58, 59, 60, 117, 118, 119];
/// Row counts that no stored table has, the first one over the limit.
const OVER: [u32; 7] = [1025, 1025, 1026, 1062, 1063, 2048, 4095];

/// An image, the page of it that is asked for, and the kind of input that it
/// was made as.
#[derive(Clone)]
pub struct Stored {
    pub kind: &'static str,
    pub image: Vec<u32>,
    pub page: u32,
}

/// A number up to `most`: of any length, an extreme, or where digits change.
fn any_number(rng: &mut Rng, most: u32) -> u32 {
    let number = match rng.below(8) {
        0 => 0,
        1 => most,
        2 => 10u32.pow(rng.below(10) as u32),
        3 => 10u32.pow(rng.below(10) as u32) - 1,
        _ => rng.word() >> rng.below(32),
    };
    number & most
}

/// Distinct column ids in any order.
fn any_ids(rng: &mut Rng, count: usize) -> Vec<u32> {
    let mut ids = Vec::new();
    if rng.chance(1, 2) {
        ids = distinct_ids(rng, count);
    }
    while ids.len() < count {
        let id = any_number(rng, 0xFFFF);
        if !ids.contains(&id) {
            ids.push(id);
        }
    }
    if rng.chance(3, 4) {
        rng.shuffle(&mut ids);
    }
    ids
}

/// A table of so many columns and rows; a cell is filled in `part` of 8 cases,
/// with a number that is made for it.
pub fn table(
    rng: &mut Rng,
    (columns, rows): (usize, usize),
    part: usize,
    number: impl Fn(&mut Rng) -> u32,
) -> Table {
    let ids = any_ids(rng, columns);
    let mut word = || {
        if rng.chance(part, 8) {
            cell(number(rng))
        } else {
            0
        }
    };
    let mut row = || (0..columns).map(|_| word()).collect();
    let rows = (0..rows).map(|_| row()).collect();
    Table { ids, rows }
}

/// Numbers of columns and rows, with weight on the edges.
fn any_size(rng: &mut Rng) -> (usize, usize) {
    let columns = if rng.chance(1, 2) {
        *rng.pick(&COLUMNS)
    } else {
        rng.between(1, MAX_COLUMNS)
    };
    let rows = match rng.below(32) {
        0 => MAX_STORED_ROWS - 1,
        1 => MAX_STORED_ROWS,
        2 => rng.below(MAX_STORED_ROWS + 1),
        3..=9 => rng.below(180),
        // About an edge further down.
        10 => pages::PAGE_ROWS * rng.between(3, 17) + rng.below(3) - 1,
        _ => *rng.pick(&ROWS),
    };
    (columns, rows)
}

/// The image of a table that is accepted, in half of the cases with marks and
/// in a third with cells that are none.
pub fn sound(rng: &mut Rng) -> Vec<u32> {
    let size = any_size(rng);
    let part = *rng.pick(&[0, 1, 4, 7, 8]);
    let made = match rng.below(4) {
        0 => table(rng, size, part, |rng| rng.below(100) as u32),
        1 => table(rng, size, part, |rng| NUMBERS - rng.below(100) as u32),
        _ => table(rng, size, part, |rng| any_number(rng, NUMBERS)),
    };
    let mut image = made.image();
    if rng.chance(1, 3) {
        put_none(rng, &mut [&mut image], true);
    }
    if rng.chance(1, 2) {
        let part = *rng.pick(&[1, 4, 8]);
        mark_some(rng, &mut image, part);
    }
    image
}

/// A page of an image whose header counts the pages, or one that it hasn't.
fn any_page(rng: &mut Rng, image: &[u32]) -> u32 {
    let header = image.first().map_or(1, |&word| word as usize);
    let pages = pages::count((header & 31).max(1), header >> 18 & 0xFFF) as u32;
    let page = rng.below(pages as usize) as u32;
    match rng.below(16) {
        0 => 0,
        1 | 2 => pages - 1,
        3 => pages,
        4 => match rng.below(5) {
            0 => u32::MAX,
            1 => pages + 1,
            2 => pages + rng.below(100) as u32,
            // A page that it has, with a bit that must not be lost.
            3 => page | 1 << rng.between(8, 31),
            _ => rng.word(),
        },
        _ => page,
    }
}

/// A page of an image of any kind: `base` or a new one, in a fourth of the
/// cases damaged in one way or in two.
pub fn any_stored(rng: &mut Rng, base: Option<Vec<u32>>) -> Stored {
    let choice = rng.below(64);
    let (mut kind, mut image) = match base {
        _ if choice == 0 => ("garbage", garbage(rng)),
        Some(base) if rng.chance(1, 3) => ("made by complement union", base),
        _ => ("stored", sound(rng)),
    };
    if (1..=16).contains(&choice) {
        let twice = choice > 10;
        kind = if twice { "two damages" } else { "one damage" };
        for number in damages(rng, twice) {
            damage(rng, &mut image, number, &OVER);
        }
    }
    let page = any_page(rng, &image);
    Stored { kind, image, page }
}

/// Length of the lent bytes.
pub fn byte_length(rng: &mut Rng) -> usize {
    match rng.below(16) {
        0 => 0,
        1 | 2 => PAGE_BYTES - 1,
        3 => rng.below(PAGE_BYTES),
        4..=9 => PAGE_BYTES,
        10 => PAGE_BYTES + 1,
        11 => 2 * PAGE_BYTES,
        _ => PAGE_BYTES + rng.below(200),
    }
}

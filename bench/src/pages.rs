//! Reference implementation of the page, made for speed, and the way back from
//! pages to a table.
//!
//! Method: the lines start as blank ones. Then the digits are put over the
//! blanks from the last on, two at a time.

use crate::generate::{cell, Table, NONE};
use crate::reference::{check, Reference};
use crate::{Answer, Pager, LINE_BYTES, MAX_STORED_ROWS, PAGE_BYTES, PAGE_LINES};

/// Rows of a page.
pub const PAGE_ROWS: usize = PAGE_LINES - 1;
/// Columns of a band.
pub const BAND: usize = 6;
/// Characters of a row position.
const POSITION: usize = 4;
/// Characters of an id and of a cell.
const CELL: usize = 12;

const BLANK: [u8; LINE_BYTES] = {
    let mut line = [b' '; LINE_BYTES];
    line[LINE_BYTES - 1] = b'\n';
    line
};

/// The numbers below 100 as two digits.
const TWO_DIGITS: [[u8; 2]; 100] = {
    let mut digits = [[0; 2]; 100];
    let mut number = 0;
    while number < 100 {
        digits[number] = [b'0' + number as u8 / 10, b'0' + number as u8 % 10];
        number += 1;
    }
    digits
};

/// Pages of a band of so many rows. Without rows it has one too.
pub fn parts(rows: usize) -> usize {
    rows.div_ceil(PAGE_ROWS).max(1)
}

/// Pages of a table.
pub fn count(columns: usize, rows: usize) -> usize {
    columns.div_ceil(BAND) * parts(rows)
}

/// Puts a number into a line, its last digit before place `end`.
#[inline(always)]
fn put_number(line: &mut [u8], end: usize, mut number: u32) {
    let mut at = end;
    while number >= 10 {
        at -= 2;
        line[at..at + 2].copy_from_slice(&TWO_DIGITS[(number % 100) as usize]);
        number /= 100;
    }
    if number > 0 || at == end {
        line[at - 1] = b'0' + number as u8;
    }
}

/// The place behind a cell of a line.
fn end_of(cell: usize) -> usize {
    POSITION + CELL * (cell + 1)
}

/// Writes a page of a stored table.
pub fn write_page(image: &[u32], page: u32, bytes: &mut [u8]) -> Answer {
    let table = match check(image, MAX_STORED_ROWS) {
        Ok(table) => table,
        Err(number) => return Answer::refused(number, 0),
    };
    let (columns, page) = (table.columns, page as usize);
    let rows = table.cells.len() / columns;
    let pages = count(columns, rows);
    if page >= pages {
        return Answer::refused(15, 2);
    }
    let Some(bytes) = bytes.get_mut(..PAGE_BYTES) else {
        return Answer::refused(16, 2);
    };
    for line in bytes.chunks_exact_mut(LINE_BYTES) {
        line.copy_from_slice(&BLANK);
    }
    let (head, lines) = bytes.split_at_mut(LINE_BYTES);

    let left = page / parts(rows) * BAND;
    let right = columns.min(left + BAND);
    for (place, word) in image[1 + left..1 + right].iter().enumerate() {
        put_number(head, end_of(place), word & 0xFFFF);
    }
    let top = page % parts(rows) * PAGE_ROWS;
    let shown = table.cells.chunks_exact(columns).enumerate().skip(top);
    for (line, (position, row)) in lines.chunks_exact_mut(LINE_BYTES).zip(shown) {
        put_number(line, POSITION, position as u32);
        for (place, &word) in row[left..right].iter().enumerate() {
            let end = end_of(place);
            match word {
                0 => line[end - 1] = b'-',
                NONE => line[end - 4..end].copy_from_slice(b"none"),
                _ => put_number(line, end, word & 0x3FFF_FFFF),
            }
        }
    }
    Answer {
        pages: pages as u32,
        ..Answer::default()
    }
}

impl Pager for Reference {
    fn page(&mut self, image: &[u32], page: u32, bytes: &mut [u8], answer: &mut [u32]) -> u32 {
        write_page(image, page, bytes).give(answer)
    }
}

/// What a line shows: the row position and the six cells, "" where blank.
type Fields = (String, Vec<String>);

/// The fields of each line of a page. None unless it is 60 lines of 80
/// characters and a byte 10, each field flushed right and nothing behind them.
pub fn fields(page: &[u8]) -> Option<Vec<Fields>> {
    let field = |bytes: &[u8]| {
        let text = std::str::from_utf8(bytes).ok()?;
        let shown = text.trim_start_matches(' ');
        (!shown.contains([' ', '\n'])).then(|| shown.to_string())
    };
    let line = |bytes: &[u8]| {
        let (position, rest) = bytes.split_at(POSITION);
        let (cells, rest) = rest.split_at(BAND * CELL);
        let cells: Option<Vec<String>> = cells.chunks(CELL).map(field).collect();
        (rest == b"    \n").then_some((field(position)?, cells?))
    };
    let lines = page.chunks(LINE_BYTES);
    (page.len() == PAGE_BYTES).then(|| lines.map(line).collect())?
}

/// The fields that aren't blank. None if one stands behind a blank one.
fn used(cells: &[String]) -> Option<&[String]> {
    let count = cells.iter().take_while(|text| !text.is_empty()).count();
    let (used, blank) = cells.split_at(count);
    blank.iter().all(String::is_empty).then_some(used)
}

/// A number as it has to be written: without zeros in front.
fn number(text: &str) -> Option<u32> {
    let number: u32 = text.parse().ok()?;
    (number.to_string() == text).then_some(number)
}

/// The table that all its pages show. None where they show none, or not in the
/// order that the request wants.
pub fn read_back(pages: &[Vec<u8>]) -> Option<Table> {
    let mut table = Table {
        ids: Vec::new(),
        rows: Vec::new(),
    };
    // The ids of the band, and its rows so far.
    let mut band = Vec::new();
    let mut rows = 0;
    for page in pages {
        let lines = fields(page)?;
        let (head, lines) = lines.split_first()?;
        let ids: Option<Vec<u32>> = used(&head.1)?.iter().map(|text| number(text)).collect();
        let ids = ids?;
        let count = lines.iter().take_while(|line| !line.0.is_empty()).count();
        let (shown, blank) = lines.split_at(count);
        let free = |(position, cells): &Fields| position.is_empty() && used(cells) == Some(&[]);
        if ids.is_empty() || !head.0.is_empty() || !blank.iter().all(free) {
            return None;
        }
        if count == 0 || shown[0].0 == "0" {
            // A band is full, and shows all rows, before the next begins.
            let first = table.ids.is_empty();
            if !first && (band.len() != BAND || rows != table.rows.len()) {
                return None;
            }
            table.ids.extend(&ids);
            (band, rows) = (ids, 0);
        } else if band != ids || rows % PAGE_ROWS != 0 {
            return None;
        }
        for (position, cells) in shown {
            let cells = used(cells)?;
            if number(position)? as usize != rows || cells.len() != band.len() {
                return None;
            }
            if table.ids.len() == band.len() {
                table.rows.push(Vec::new());
            }
            let row = table.rows.get_mut(rows)?;
            for text in cells {
                row.push(match text.as_str() {
                    "-" => 0,
                    "none" => NONE,
                    _ => cell(number(text)?),
                });
            }
            rows += 1;
        }
    }
    (!pages.is_empty() && rows == table.rows.len()).then_some(table)
}

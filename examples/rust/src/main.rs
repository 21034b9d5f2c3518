//! Fuses the example lists of document 01, prints the fused rows, and the lines
//! in use of the page that shows them. Then makes the minimum union of these
//! lists and a third one, in either grouping, and prints its rows.

use fusion::{complement_union, minimum_union, page, Refusal};
use fusion::{FUSED_WORDS, LINE_BYTES, NONE, PAGE_BYTES, SET_WORDS, UNION_WORDS};
use std::process::ExitCode;

/// An image: header, columns and cells.
fn image(ids: &[u32], rows: &[&[Option<u32>]]) -> Vec<u32> {
    let mut words = vec![3 << 30 | (rows.len() as u32) << 18 | ids.len() as u32];
    words.extend(ids.iter().map(|id| 2 << 30 | id));
    for row in rows {
        words.extend(
            row.iter()
                .map(|cell| cell.map_or(0, |number| 1 << 30 | number)),
        );
    }
    words
}

fn print_rows(table: &[u32]) {
    let columns = (table[0] & 31) as usize;
    for row in table[1 + columns..].chunks_exact(columns) {
        let cells: Vec<String> = row
            .iter()
            .map(|&cell| match cell {
                0 => "-".to_string(),
                NONE => "none".to_string(),
                _ => (cell & 0x3FFF_FFFF).to_string(),
            })
            .collect();
        println!("{}", cells.join(" "));
    }
}

/// The words of a minimum union, and how many cells are filled.
fn minimum(first: &[u32], second: &[u32]) -> Result<(Vec<u32>, usize), Refusal> {
    let mut table = vec![0; UNION_WORDS];
    let (written, _) = minimum_union(first, second, &mut table)?;
    table.truncate(written.words);
    Ok((table, written.filled))
}

fn example() -> Result<(), Refusal> {
    let board = image(
        &[10, 11, 12],
        &[
            &[Some(7), Some(3), None],
            &[Some(7), None, Some(40)],
            &[Some(9), Some(5), Some(41)],
        ],
    );
    let plant = image(
        &[10, 13, 11],
        &[&[Some(7), Some(2), Some(3)], &[Some(9), Some(1), None]],
    );
    // Of an extra cabinet.
    let cabinet = image(
        &[12, 10, 11],
        &[&[Some(40), Some(7), Some(3)], &[None, Some(8), Some(6)]],
    );
    let mut table = vec![0; FUSED_WORDS];
    let mut sets = vec![0; SET_WORDS];
    let fused = complement_union(&board, &plant, &mut table, &mut sets)?.table;
    println!("fused {} {}", fused.rows, fused.filled);
    let table = &table[..fused.words];
    print_rows(table);
    let mut bytes = [0; PAGE_BYTES];
    let pages = page(table, 0, &mut bytes)?;
    println!("page 0 of {pages}");
    let text = String::from_utf8_lossy(&bytes[..LINE_BYTES * (1 + fused.rows)]);
    print!("{text}");

    // The words written by one call go into the next. A result of more than 32
    // rows would be refused there.
    let (three, filled) = minimum(&minimum(&board, &plant)?.0, &cabinet)?;
    println!("three lists {} {filled}", three[0] >> 18 & 0xFFF);
    print_rows(&three);
    let (other, _) = minimum(&board, &minimum(&plant, &cabinet)?.0)?;
    if other == three {
        println!("the same words in the other grouping");
    } else {
        println!("other words");
    }
    Ok(())
}

fn main() -> ExitCode {
    match example() {
        Ok(()) => ExitCode::SUCCESS,
        Err(refusal) => {
            println!("refused {} table {}", refusal.number, refusal.table);
            ExitCode::FAILURE
        }
    }
}

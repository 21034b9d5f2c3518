//! Three lists in either grouping (request A5), run by every implementation.

mod common;

use common::{column, image, marked, refused, run, table, NONE};
use fusion_bench::generate::{any_triple, has_none, is_marked, Rng, Table};
use fusion_bench::reference::Reference;
use fusion_bench::{Call, ANSWER_WORDS, MAX_SOURCE_ROWS};
use std::collections::BTreeSet;

/// Answer and table words of a union that is done.
type Done = ([u32; ANSWER_WORDS], Vec<u32>);

fn unite(call: Call, first: &[u32], second: &[u32]) -> Option<Done> {
    let (answer, words, _) = run(call, first, second);
    (answer[0] == 0).then_some((answer, words))
}

/// xy, yz, (xy)z and x(yz) of three images, if all four unions are done. The
/// words that an inner union wrote go into the outer one.
fn groupings(call: Call, [x, y, z]: [&[u32]; 3]) -> Option<[Done; 4]> {
    let (xy, yz) = (unite(call, x, y)?, unite(call, y, z)?);
    let left = unite(call, &xy.1, z)?;
    let right = unite(call, x, &yz.1)?;
    Some([xy, yz, left, right])
}

/// The minimum union of a result with itself is that result, or it has too many
/// rows for an input. Tells which.
fn stays((answer, words): &Done) -> bool {
    if answer[2] > MAX_SOURCE_ROWS as u32 {
        assert_eq!(refused(words, words), (3, 0));
        return false;
    }
    let (again, same) = unite(Call::Minimum, words, words).unwrap();
    assert_eq!((&again[..5], &same), (&answer[..5], words));
    true
}

#[test]
fn random_triples() {
    let (mut accepted, mut dropped, mut other_pairs) = (0, 0, 0);
    let (mut other_columns, mut marks, mut nones) = (0, 0, 0);
    let (mut stay, mut too_many) = (0, 0);
    for seed in 0..3000 {
        let images = any_triple(&mut Rng::new(seed)).images;
        let [x, y, z] = images.each_ref().map(Vec::as_slice);
        let Some([xy, _, left, right]) = groupings(Call::Minimum, [x, y, z]) else {
            continue;
        };
        // The same rows, words and filled cells; other pairs may be tried.
        assert_eq!(left.1, right.1);
        assert_eq!(left.0[..5], right.0[..5]);
        accepted += 1;
        dropped += u32::from(xy.0[2] < run(Call::Outer, x, y).0[2]);
        other_pairs += u32::from(left.0[5] != right.0[5]);
        let ids = images.each_ref().map(|image| Table::from_image(image).ids);
        let sets = ids.map(BTreeSet::from_iter);
        other_columns += u32::from(BTreeSet::from(sets).len() == 3);
        marks += u32::from(is_marked(&left.1));
        nones += u32::from(has_none(&left.1));
        if stays(&left) {
            stay += 1;
        } else {
            too_many += 1;
        }
    }
    // Else the equal words would say little.
    assert!(accepted > 2000 && dropped > 1500 && other_pairs > 1000);
    assert!(other_columns > 1000 && marks > 1000 && nones > 500);
    assert!(stay > 2000 && too_many > 50);
}

#[test]
fn a_row_left_out_early() {
    // The first two leave out x's (7,-), the last two z's (8,-).
    let x = image(&[column(10), marked(11)], &[&[7, -1]]);
    let y = image(&[column(11), column(10)], &[&[NONE, 7], &[3, 8]]);
    let z = image(&[marked(12), column(10)], &[&[0, 7], &[-1, 8]]);
    let [xy, yz, left, right] = groupings(Call::Minimum, [&x, &y, &z]).unwrap();
    let rows: [&[i64]; 3] = [&[7, -1, 0], &[7, NONE, -1], &[8, 3, -1]];
    assert_eq!(
        xy.1,
        image(&[column(10), marked(11)], &[&[7, NONE], &[8, 3]])
    );
    assert_eq!(yz.1, image(&[column(10), column(11), marked(12)], &rows));
    for (done, pairs) in [(left, 12), (right, 10)] {
        let columns = [column(10), marked(11), marked(12)];
        assert_eq!(done.1, image(&columns, &rows));
        assert_eq!(done.0, [0, 0, 3, 13, 6, pairs, 0, 0, 0]);
        assert!(stays(&done));
    }
}

#[test]
fn too_many_rows_for_an_input() {
    let rows: Vec<[i64; 2]> = (0..33).map(|number| [number, NONE]).collect();
    let rows: Vec<&[i64]> = rows.iter().map(|row| &row[..]).collect();
    let list = |rows: &[&[i64]]| table(&[10, 11], rows);
    let (x, y, z) = (list(&rows[..32]), list(&rows[32..]), list(&rows[..1]));
    let minimum = |first: &[u32], second: &[u32]| unite(Call::Minimum, first, second).unwrap();
    // One of the groupings is refused, the other isn't.
    let all = minimum(&x, &y);
    assert_eq!(all.1, list(&rows));
    assert_eq!(refused(&all.1, &z), (3, 0));
    assert_eq!(minimum(&x, &minimum(&y, &z).1), all);
    assert!(!stays(&all));
    assert!(stays(&minimum(&x, &z)));
}

#[test]
fn complement_union_goes_by_grouping() {
    let x = table(&[10, 11], &[&[1, 2]]);
    let y = table(&[10, 12], &[&[1, 3]]);
    let z = table(&[11, 12], &[&[2, 3]]);
    let [xy, yz, left, right] = groupings(Call::Complement, [&x, &y, &z]).unwrap();
    let list = |rows: &[&[i64]]| table(&[10, 11, 12], rows);
    // The row that two of them give subsumes the third, so it isn't joined to it.
    assert_eq!(xy.1, list(&[&[1, 2, 3]]));
    assert_eq!(yz.1, list(&[&[1, 2, 3]]));
    assert_eq!(left.1, list(&[&[-1, 2, 3], &[1, 2, 3]]));
    assert_eq!(right.1, list(&[&[1, 2, -1], &[1, 2, 3]]));
}

#[test]
fn complement_union_goes_by_marks_of_the_third() {
    // Beside its mark the shared 10 doesn't count.
    let x = table(&[10, 11], &[&[1, 2]]);
    let y = table(&[10, 12], &[&[1, 3]]);
    let z = image(&[marked(11)], &[]);
    let columns = [column(10), marked(11), column(12)];
    let [.., left, right] = groupings(Call::Complement, [&x, &y, &z]).unwrap();
    assert_eq!(left.1, image(&columns, &[&[1, 2, 3]]));
    assert_eq!(right.1, image(&columns, &[&[1, -1, 3], &[1, 2, -1]]));
}

/// A column of three tables: for each table 0 if it lacks the column, 1 if it
/// has it, 2 if it marks it; and for each row of the three a cell, -1 if empty.
struct Column {
    by: [usize; 3],
    cells: Vec<i64>,
}

impl Column {
    fn tables(&self) -> usize {
        self.by.iter().filter(|&&by| by > 0).count()
    }

    fn filled(&self) -> usize {
        self.cells.iter().filter(|&&cell| cell >= 0).count()
    }
}

/// The columns that three tables can have, up to the names of their numbers:
/// these are 0, 1, .. in the order of their first use. `places` holds the table
/// of each row; no table marks a column if there are only two `states`.
fn columns(places: &[usize], states: usize) -> Vec<Column> {
    let mut columns = Vec::new();
    for code in 1..states.pow(3) {
        let by = [0, 1, 2].map(|table| code / states.pow(table) % states);
        let mut lists = vec![Vec::new()];
        for &table in places {
            let longer = |cells: Vec<i64>| {
                let new = 1 + cells.iter().max().unwrap_or(&-1);
                let last = if by[table] > 0 { new } else { -1 };
                (-1..=last).map(move |cell| [&cells[..], &[cell]].concat())
            };
            lists = lists.into_iter().flat_map(longer).collect();
        }
        columns.extend(lists.into_iter().map(|cells| Column { by, cells }));
    }
    columns
}

/// Visits every choice of columns, of which the tables have up to `room` in all.
fn choices<'a>(
    columns: &'a [Column],
    room: usize,
    chosen: &mut Vec<&'a Column>,
    visit: &mut impl FnMut(&[&Column]),
) {
    visit(chosen);
    for (place, column) in columns.iter().enumerate() {
        if column.tables() <= room {
            chosen.push(column);
            choices(&columns[place..], room - column.tables(), chosen, visit);
            chosen.pop();
        }
    }
}

/// The images of three tables with these columns.
fn images(chosen: &[&Column], places: &[usize]) -> [Vec<u32>; 3] {
    [0, 1, 2].map(|table| {
        let all = chosen.iter().zip(10..);
        let columns = all.filter(|(column, _)| column.by[table] > 0);
        let word = |(c, id): (&&Column, u32)| [column(id), marked(id)][c.by[table] - 1];
        let words: Vec<u32> = columns.clone().map(word).collect();
        let rows = (0..places.len()).filter(|&row| places[row] == table);
        let cells = |row: usize| columns.clone().map(move |(column, _)| column.cells[row]);
        let rows: Vec<Vec<i64>> = rows.map(|row| cells(row).collect()).collect();
        let rows: Vec<&[i64]> = rows.iter().map(Vec::as_slice).collect();
        image(&words, &rows)
    })
}

/// Whether complement union has other words in the other grouping. A table
/// without columns is refused in both.
fn breaks(reference: &mut Reference, [x, y, z]: &[Vec<u32>; 3]) -> bool {
    let mut unite = |first: &[u32], second: &[u32]| {
        let (mut table, mut sets) = (vec![0; 64], [0; 64]);
        let answer = reference.complement_union(first, second, &mut table, &mut sets);
        table.truncate(answer.words as usize);
        table
    };
    let (xy, yz) = (unite(x, y), unite(y, z));
    unite(&xy, z) != unite(x, &yz)
}

/// The columns and the filled cells of the smallest triple with so many rows
/// that breaks, among those of up to `room` columns.
fn smallest(rows: usize, room: usize, states: usize) -> Option<(usize, usize)> {
    let mut reference = Reference::new();
    let mut found = None;
    for x in 0..=rows {
        for y in 0..=rows - x {
            let places = [vec![0; x], vec![1; y], vec![2; rows - x - y]].concat();
            let columns = columns(&places, states);
            choices(&columns, room, &mut Vec::new(), &mut |chosen| {
                let sum = |count: fn(&Column) -> usize| chosen.iter().map(|c| count(c)).sum();
                let size = (sum(Column::tables), sum(Column::filled));
                if found.is_none_or(|found| size < found)
                    && breaks(&mut reference, &images(chosen, &places))
                {
                    found = Some(size);
                }
            });
        }
    }
    found
}

/// The two examples of complement union are smallest ones, without marks and
/// with them: no triple breaks that has fewer rows in all three tables, or as
/// many and fewer columns in all three, or as many of both and fewer filled
/// cells.
///
/// All triples of so many rows and columns are tried, up to what plays no part:
/// with other ids, with other numbers in a column, or with rows in another
/// order, the rows of both groupings change alike.
///
/// With fewer rows more columns would not help either. One row is the result of
/// every union. Two rows without marks are kept apart or joined by the first
/// union that has both, and so they stay: the third table adds columns that are
/// empty in both, and these play no part.
#[test]
fn no_smaller_example() {
    for rows in 0..3 {
        assert_eq!(smallest(rows, 6, 2), None);
    }
    assert_eq!(smallest(3, 6, 2), Some((6, 6)));
    // With marks.
    for rows in 0..2 {
        assert_eq!(smallest(rows, 5, 3), None);
    }
    assert_eq!(smallest(2, 5, 3), Some((5, 4)));
}

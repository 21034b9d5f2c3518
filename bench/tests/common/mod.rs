//! What the test files share. Each of them uses a part.
#![allow(dead_code)]

#[cfg(feature = "product")]
use fusion_bench::ffi::Product;
use fusion_bench::naive::Naive;
use fusion_bench::reference::Reference;
use fusion_bench::{Call, Library, ANSWER_WORDS, MAX_SET_WORDS, MAX_TABLE_WORDS};
use std::fmt::Debug;

/// What stands in a lent buffer before a call.
pub const FILL: u32 = 0x5A5A_5A5A;

/// The word of a column.
pub fn column(id: u32) -> u32 {
    0x8000_0000 | id
}

/// The word of a marked column.
pub fn marked(id: u32) -> u32 {
    0xA000_0000 | id
}

/// A cell of the images below that is known to be none.
pub const NONE: i64 = -2;

/// An image with these column words; -1 is empty.
pub fn image(columns: &[u32], rows: &[&[i64]]) -> Vec<u32> {
    let mut words = vec![0xC000_0000 | (rows.len() as u32) << 18 | columns.len() as u32];
    words.extend(columns);
    for row in rows {
        assert_eq!(row.len(), columns.len());
        words.extend(row.iter().map(|&number| match number {
            -1 => 0,
            NONE => 0x8000_0000,
            _ => 0x4000_0000 | number as u32,
        }));
    }
    words
}

/// An image of unmarked columns with these ids.
pub fn table(ids: &[u32], rows: &[&[i64]]) -> Vec<u32> {
    let columns: Vec<u32> = ids.iter().map(|&id| column(id)).collect();
    image(&columns, rows)
}

/// Board and plant of the program's example.
pub fn example() -> (Vec<u32>, Vec<u32>) {
    (
        table(&[10, 11, 12], &[&[7, 3, -1], &[7, -1, 40], &[9, 5, 41]]),
        table(&[10, 13, 11], &[&[7, 2, 3], &[9, 1, -1]]),
    )
}

pub fn implementations() -> Vec<Box<dyn Library>> {
    vec![
        Box::new(Reference::new()),
        Box::new(Naive::default()),
        #[cfg(feature = "product")]
        Box::new(Product),
    ]
}

/// What every implementation gave, which has to be the same.
pub fn agreed<T: PartialEq + Debug>(mut results: Vec<T>) -> T {
    for result in &results[1..] {
        assert_eq!(result, &results[0]);
    }
    results.swap_remove(0)
}

/// A union by every implementation: answer, table words, set words.
pub type United = ([u32; ANSWER_WORDS], Vec<u32>, Vec<u32>);

pub fn run(call: Call, first: &[u32], second: &[u32]) -> United {
    let mut results = Vec::new();
    for mut unions in implementations() {
        let mut table = vec![FILL; MAX_TABLE_WORDS + 1];
        let mut sets = vec![FILL; MAX_SET_WORDS + 1];
        let mut answer = [FILL; ANSWER_WORDS];
        unions.run(call, first, second, &mut table, &mut sets, &mut answer);
        let (words, set_words) = (answer[3] as usize, answer[7] as usize);
        assert!(table[words..].iter().all(|&word| word == FILL));
        assert!(sets[set_words..].iter().all(|&word| word == FILL));
        table.truncate(words);
        sets.truncate(set_words);
        results.push((answer, table, sets));
    }
    agreed(results)
}

/// The sets of a set list, as positions.
pub fn positions(list: &[u32]) -> Vec<Vec<usize>> {
    list[1..]
        .chunks_exact(4)
        .map(|record| {
            (0..90)
                .filter(|i| record[i / 30] >> (i % 30) & 1 == 1)
                .collect()
        })
        .collect()
}

/// The number and the table of the refusals of the three unions, which have to
/// be the same.
pub fn refused(first: &[u32], second: &[u32]) -> (u32, u32) {
    let answers = Call::ALL.map(|call| run(call, first, second).0);
    assert!(answers.iter().all(|answer| answer == &answers[0]));
    assert_eq!(answers[0][2..], [0; ANSWER_WORDS - 2]);
    (answers[0][0], answers[0][1])
}

//! The benchmark's workloads, each with the number of maximal sets or of pages
//! that it has and with its bar.

use crate::count::Graph;
use crate::generate::{
    all_complement, cell, distinct_ids, distinct_numbers, document_sets, far_over_limit, grid,
    grid_beside, hostile, pair, random_table, scatter, spread, Pair, Rng, Table,
};
use crate::lists::{largest_sets, layout, sets, List};
use crate::pages::write_page;
use crate::reference::{read_set_list, Reference};
use crate::stored::{self, Stored};
use crate::{Call, MAX_COLUMNS, MAX_ROWS, MAX_SETS, MAX_SOURCE_ROWS, MAX_STORED_ROWS};
use crate::{MAX_READ_WORDS, MAX_SET_WORDS, MAX_TABLE_WORDS, PAGE_BYTES};
use std::collections::BTreeSet;

/// What is known beforehand of the number of maximal sets of every input.
#[derive(Clone, Copy, Debug)]
pub enum Sets {
    Exactly(usize),
    MoreThan(usize),
    /// As chance has it.
    Any,
}

/// Inputs of one benchmark line; the calls go through them in turn.
pub struct Workload {
    pub name: String,
    pub pairs: Vec<Pair>,
    pub sets: Sets,
    /// The most that complement union may take, reference = 1. None where
    /// growth is looked at.
    pub complement_bar: Option<f64>,
}

/// The most that outer and minimum union may take, reference = 1.
const UNION_BAR: f64 = 1.1;

/// The most that the reader may take, reference = 1.
const READ_BAR: f64 = 1.3;

/// The most that the page may take, reference = 1. A page is printed when a
/// machine is handed over and not made at boot: its text goes through the
/// functions of the listing, a digit at a time.
const PAGE_BAR: f64 = 6.0;

/// Sets are counted up to here.
const COUNT_LIMIT: usize = 4096;

/// Different inputs in each workload.
const VARIANTS: u64 = 8;

impl Workload {
    fn new(name: &str, sets: Sets, make: impl Fn(&mut Rng) -> (Table, Table)) -> Workload {
        let pairs = (0..VARIANTS)
            .map(|variant| pair("workload", make(&mut Rng::for_case(2026, variant))))
            .collect();
        Workload {
            name: name.to_string(),
            pairs,
            sets,
            complement_bar: None,
        }
    }

    fn bar(mut self, bar: f64) -> Workload {
        self.complement_bar = Some(bar);
        self
    }

    /// The most that a call may take, reference = 1.
    pub fn bar_of(&self, call: Call) -> Option<f64> {
        match call {
            Call::Complement => self.complement_bar,
            Call::Outer | Call::Minimum => self.complement_bar.map(|_| UNION_BAR),
        }
    }

    /// Stops the program unless every input has as many maximal sets as the
    /// workload says, and the reference finds them or refuses.
    pub fn check(&self) {
        let mut reference = Reference::new();
        let (mut table, mut sets) = (vec![0; MAX_TABLE_WORDS], vec![0; MAX_SET_WORDS]);
        for pair in &self.pairs {
            let answer =
                reference.complement_union(&pair.first, &pair.second, &mut table, &mut sets);
            let count = Graph::of(pair).maximal_sets(COUNT_LIMIT);
            match self.sets {
                Sets::Exactly(said) => assert_eq!(count, said, "sets of '{}'", self.name),
                Sets::MoreThan(said) => assert!(count > said, "sets of '{}'", self.name),
                Sets::Any => {}
            }
            if count > MAX_SETS {
                assert_eq!(answer.number, 9, "'{}' has to be refused", self.name);
            } else {
                assert_eq!(answer.number, 0, "'{}' has to be done", self.name);
                assert_eq!(answer.sets as usize, count, "sets of '{}'", self.name);
            }
        }
    }
}
/// Two lists of the same devices. Every device has a whole row; each list
/// holds a part of it. `columns` ids, half of them in both lists if `narrow`.
fn lists(rng: &mut Rng, rows: usize, columns: usize, narrow: bool) -> (Table, Table) {
    let ids: Vec<u32> = (10..10 + columns as u32).collect();
    let whole: Vec<Vec<u32>> = (0..rows as u32)
        .map(|device| {
            let mut row = vec![cell(device)];
            row.extend((1..columns).map(|_| cell(rng.below(6) as u32)));
            row
        })
        .collect();
    let mut table = |places: &[usize]| {
        let mut rows: Vec<Vec<u32>> = whole
            .iter()
            .map(|row| {
                places
                    .iter()
                    .map(|&place| {
                        let keep = if place == 0 { 7 } else { 5 };
                        if rng.chance(keep, 8) {
                            row[place]
                        } else {
                            0
                        }
                    })
                    .collect()
            })
            .collect();
        rng.shuffle(&mut rows);
        Table {
            ids: places.iter().map(|&place| ids[place]).collect(),
            rows,
        }
    };
    let all: Vec<usize> = (0..columns).collect();
    if narrow {
        let cut = columns / 4;
        (table(&all[..columns - cut]), {
            let mut places = all[cut..].to_vec();
            places.insert(0, 0);
            table(&places)
        })
    } else {
        (table(&all), table(&all))
    }
}

/// Two full lists with few numbers and half of the cells empty.
fn full_lists(rng: &mut Rng) -> (Table, Table) {
    let ids: Vec<u32> = (10..10 + MAX_COLUMNS as u32).collect();
    let numbers = [0, 1, 2];
    let first = random_table(rng, &ids, MAX_COLUMNS, MAX_SOURCE_ROWS, &numbers, 3);
    let second = random_table(rng, &ids, MAX_COLUMNS, MAX_SOURCE_ROWS, &numbers, 3);
    (first, second)
}

/// 2^parts sets from 2 * parts rows.
fn power_of_two_sets(rng: &mut Rng, parts: usize) -> (Table, Table) {
    let numbers = distinct_numbers(rng, 2);
    let rows = grid(&numbers, 1 + parts, 0, &vec![2; parts]);
    scatter(rng, &rows, 1 + parts)
}

/// Two full tables without an empty cell, all rows different: two rows agree
/// in every column only if they are equal, so that none complements another.
fn filled_lists(rng: &mut Rng) -> (Table, Table) {
    let ids = distinct_ids(rng, MAX_COLUMNS);
    let count = *rng.pick(&[2, 4, 8, 64]);
    let numbers = distinct_numbers(rng, count);
    let mut rows = BTreeSet::new();
    while rows.len() < MAX_ROWS {
        rows.insert(
            ids.iter()
                .map(|_| cell(*rng.pick(&numbers)))
                .collect::<Vec<u32>>(),
        );
    }
    spread(rng, &ids, &rows.into_iter().collect::<Vec<_>>())
}

/// Where the rows that complement all others stand in T.
#[derive(Clone, Copy)]
pub enum Place {
    First,
    Last,
}

/// 64 rows: five groups of four, `apart` rows that complement nothing, and
/// rows that complement all but these. There are 1,024 + `apart` maximal sets.
///
/// The rows that complement all leave the columns of the groups empty: they
/// stand first in T if these columns come before their own, otherwise last.
pub fn groups_of_four(rng: &mut Rng, apart: usize, place: Place) -> (Table, Table) {
    let mut rows = grid_beside(rng, &[4; 5], apart, MAX_ROWS - 20 - apart);
    if let Place::Last = place {
        rows.iter_mut().for_each(|row| row.reverse());
    }
    let ids = distinct_ids(rng, MAX_COLUMNS);
    spread(rng, &ids, &rows)
}

/// Two groups of 32 rows: a row complements exactly the rows of the other
/// group, and the maximal sets are the 1,024 pairs.
fn two_groups(rng: &mut Rng) -> (Table, Table) {
    let numbers = distinct_numbers(rng, MAX_SOURCE_ROWS);
    let rows = grid(&numbers, 3, 0, &[MAX_SOURCE_ROWS; 2]);
    scatter(rng, &rows, 3)
}

/// Two full tables of 16 columns; a cell is filled in `part` of 8 cases, with
/// one of `values` numbers.
fn random_lists(rng: &mut Rng, part: usize, values: usize) -> (Table, Table) {
    let ids = distinct_ids(rng, MAX_COLUMNS);
    let numbers = distinct_numbers(rng, values);
    let mut table = || random_table(rng, &ids, MAX_COLUMNS, MAX_SOURCE_ROWS, &numbers, part);
    (table(), table())
}

/// Workloads with about as many sets as a call lists.
fn limit_workloads() -> Vec<Workload> {
    let exactly = |count, name: &str, make: &dyn Fn(&mut Rng) -> (Table, Table)| {
        Workload::new(name, Sets::Exactly(count), make)
    };
    let beside = |apart, place| move |rng: &mut Rng| groups_of_four(rng, apart, place);
    vec![
        exactly(1024, "1,024 sets", &|rng| document_sets(rng, 0)).bar(1.3),
        exactly(1025, "1,025 sets (refused)", &|rng| document_sets(rng, 1)).bar(1.3),
        exactly(
            1024,
            "1,024 sets, 44 rows that complement all others first",
            &beside(0, Place::First),
        )
        .bar(1.3),
        exactly(
            1024,
            "1,024 sets, 44 rows that complement all others last",
            &beside(0, Place::Last),
        )
        .bar(1.3),
        exactly(
            1025,
            "1,025 sets (refused), 43 such rows first",
            &beside(1, Place::First),
        )
        .bar(1.3),
        exactly(
            1025,
            "1,025 sets (refused), 43 such rows last",
            &beside(1, Place::Last),
        )
        .bar(1.3),
        exactly(1024, "1,024 sets, two groups of 32 rows", &two_groups).bar(8.0),
        Workload::new(
            "far over 1,024 sets (refused)",
            Sets::MoreThan(2048),
            far_over_limit,
        )
        .bar(3.0),
    ]
}

/// Random tables, by how many cells are filled and with how many numbers.
fn random_workloads() -> Vec<Workload> {
    let mut list = Vec::new();
    for (part, share) in [(2, "a quarter"), (4, "half")] {
        for (values, bar) in [(1, 8.0), (2, 1.1), (4, 1.1)] {
            let plural = if values == 1 { "" } else { "s" };
            let name = format!("random, {share} of the cells filled, {values} value{plural}");
            let make = |rng: &mut Rng| random_lists(rng, part, values);
            list.push(Workload::new(&name, Sets::Any, make).bar(bar));
        }
    }
    list
}

/// The named workloads.
pub fn workloads() -> Vec<Workload> {
    let mut list = vec![
        Workload::new("typical lists, 2 x 20 rows, 8 columns", Sets::Any, |rng| {
            lists(rng, 20, 8, true)
        })
        .bar(1.1),
        Workload::new("full lists, 2 x 32 rows, 16 columns", Sets::Any, full_lists).bar(1.1),
        Workload::new(
            "64 full rows that complement nothing",
            Sets::Exactly(64),
            filled_lists,
        )
        .bar(1.1),
        Workload::new(
            "64 rows that all complement each other",
            Sets::Exactly(1),
            |rng| all_complement(64, rng),
        )
        .bar(1.1),
        Workload::new("hostile lists, 64 rows", Sets::Exactly(33), |rng| {
            hostile(32, MAX_COLUMNS - 2, rng)
        })
        .bar(1.1),
    ];
    list.extend(limit_workloads());
    list.extend(random_workloads());
    list
}

/// Growth with the number of rows.
pub fn growth_with_rows() -> Vec<Workload> {
    [4, 8, 12, 16, 20, 24, 28, 32]
        .into_iter()
        .map(|rows| {
            let name = format!("2 x {rows} rows, 8 columns");
            Workload::new(&name, Sets::Any, |rng| lists(rng, rows, 8, true))
        })
        .collect()
}

/// Growth with the number of sets: 2, 4, ..., 1,024.
pub fn growth_with_sets() -> Vec<Workload> {
    (1..=10)
        .map(|parts| {
            let name = format!("{} sets", 1u32 << parts);
            Workload::new(&name, Sets::Exactly(1 << parts), |rng| {
                power_of_two_sets(rng, parts)
            })
        })
        .collect()
}

/// Inputs of one benchmark line of the reader.
pub struct Reading {
    pub name: String,
    pub lists: Vec<List>,
    /// The most that the reader may take, reference = 1.
    pub bar: f64,
}

impl Reading {
    fn new(name: &str, make: impl Fn(&mut Rng) -> (Vec<u32>, u32)) -> Reading {
        let lists = (0..VARIANTS)
            .map(|variant| {
                let (words, rows) = make(&mut Rng::for_case(2026, variant));
                List {
                    kind: "workload",
                    words,
                    rows,
                }
            })
            .collect();
        Reading {
            name: name.to_string(),
            lists,
            bar: READ_BAR,
        }
    }

    /// The sets of each list, and the words that they take. Stops the program
    /// unless all lists are accepted and have as many sets.
    pub fn check(&self) -> (u32, u32) {
        let mut words = vec![0; MAX_READ_WORDS];
        let mut found = (0, 0);
        for (list, k) in self.lists.iter().zip(0..) {
            let answer = read_set_list(&list.words, list.rows, &mut words);
            assert_eq!(answer.number, 0, "'{}' has to be done", self.name);
            assert!(k == 0 || found.0 == answer.sets, "sets of '{}'", self.name);
            found = (answer.sets, found.1.max(answer.words));
        }
        found
    }
}

/// The list of document 01's 1,024 sets.
fn document_list(rng: &mut Rng) -> (Vec<u32>, u32) {
    let (first, second) = document_sets(rng, 0);
    let (mut table, mut sets) = (vec![0; MAX_TABLE_WORDS], vec![0; MAX_SET_WORDS]);
    let (first, second) = (first.image(), second.image());
    let answer = Reference::new().complement_union(&first, &second, &mut table, &mut sets);
    sets.truncate(answer.set_words as usize);
    (sets, 20)
}

/// So many sets of 40 rows.
fn small_list(rng: &mut Rng, count: usize) -> (Vec<u32>, u32) {
    loop {
        let entries = sets(rng, 40, count);
        if entries.len() == count {
            return (layout(&entries), 40);
        }
    }
}

/// The workloads of the reader.
pub fn readings() -> Vec<Reading> {
    let largest = layout(&largest_sets(MAX_SETS));
    vec![
        Reading::new("40 sets of 40 rows", |rng| small_list(rng, 40)),
        Reading::new("1,024 sets of 20 rows", document_list),
        Reading::new("the 1,024 largest sets of 64 rows", |_| {
            (largest.clone(), MAX_ROWS as u32)
        }),
    ]
}

/// Inputs of one benchmark line of the page.
pub struct Paging {
    pub name: String,
    pub tables: Vec<Stored>,
    /// The most that the page may take, reference = 1.
    pub bar: f64,
}

impl Paging {
    /// Tables of a size, most cells filled with numbers from `least` to `most`.
    fn new(name: &str, size: (usize, usize), (least, most): (usize, usize), page: u32) -> Paging {
        let number = |rng: &mut Rng| rng.between(least, most) as u32;
        let tables = (0..VARIANTS)
            .map(|variant| {
                let mut rng = Rng::for_case(2026, variant);
                Stored {
                    kind: "workload",
                    image: stored::table(&mut rng, size, 7, number).image(),
                    page,
                }
            })
            .collect();
        Paging {
            name: name.to_string(),
            tables,
            bar: PAGE_BAR,
        }
    }

    /// The pages of each table. Stops the program unless all are accepted and
    /// have as many.
    pub fn check(&self) -> u32 {
        let mut bytes = vec![0; PAGE_BYTES];
        let mut pages = 0;
        for (table, k) in self.tables.iter().zip(0..) {
            let answer = write_page(&table.image, table.page, &mut bytes);
            assert_eq!(answer.number, 0, "'{}' has to be done", self.name);
            assert!(k == 0 || pages == answer.pages, "pages of '{}'", self.name);
            pages = answer.pages;
        }
        pages
    }
}

/// The workloads of the page.
pub fn pagings() -> Vec<Paging> {
    let full = (6, 59);
    let largest = (MAX_COLUMNS, MAX_STORED_ROWS);
    let (short, long) = ((0, 99), (1_000_000_000, 1_073_741_823));
    vec![
        Paging::new("3 rows, 4 columns", (4, 3), short, 0),
        Paging::new("59 rows, 6 columns, short numbers", full, short, 0),
        Paging::new("59 rows, 6 columns, long numbers", full, long, 0),
        Paging::new("1,024 rows, 16 columns, first page", largest, long, 0),
        Paging::new("1,024 rows, 16 columns, last page", largest, long, 53),
    ]
}

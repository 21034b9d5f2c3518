//! Cells that are known to be none (request A4), run by every implementation.

mod common;

use common::{agreed, column, image, implementations, marked, positions, refused, run, table};
use common::{FILL, NONE};
use fusion_bench::count::Graph;
use fusion_bench::generate::{any_pair, has_none, is_marked, Rng, Table};
use fusion_bench::pages::read_back;
use fusion_bench::reference::Reference;
use fusion_bench::{stored, Call, ANSWER_WORDS, MAX_TABLE_WORDS, PAGE_BYTES};

/// The word of a cell that is none.
const WORD: u32 = 0x8000_0000;

/// The largest number.
const MOST: i64 = 1_073_741_823;

/// Words of kind 2 and 3 beside none, and of kind 0 beside empty.
fn wrong_words() -> Vec<u32> {
    let mut words = vec![1, 0x3FFF_FFFF, 0x8000_0001, 0xBFFF_FFFF, 0xC000_0000, !0];
    words.extend((0..31).map(|bit| WORD | 1 << bit));
    words
}

/// A page of a table by every implementation: its bytes, or the number of the
/// refusal.
fn page(image: &[u32], page: u32) -> Result<Vec<u8>, u32> {
    let mut results = Vec::new();
    for mut library in implementations() {
        let mut bytes = vec![0xA5; PAGE_BYTES];
        let mut answer = [FILL; ANSWER_WORDS];
        let number = library.page(image, page, &mut bytes, &mut answer);
        assert_eq!(answer[..2], [number, 0]);
        results.push(if number == 0 {
            Ok(bytes)
        } else {
            assert!(bytes.iter().all(|&byte| byte == 0xA5));
            Err(number)
        });
    }
    agreed(results)
}

/// The lines in use of a page, without blanks behind them.
fn lines(page: &[u8]) -> Vec<String> {
    let text = String::from_utf8_lossy(page);
    let lines = text.lines().map(|line| line.trim_end().to_string());
    lines.take_while(|line| !line.is_empty()).collect()
}

/// The sets and the fused table of rows in the columns 7, 8 and 9: each row
/// stands in a table of its own.
fn fused(columns: &[u32; 3], first: &[i64], second: &[i64]) -> (Vec<Vec<usize>>, Vec<u32>) {
    let images = [image(columns, &[first]), image(columns, &[second])];
    let (answer, table, list) = run(Call::Complement, &images[0], &images[1]);
    assert_eq!(answer[0], 0);
    (positions(&list), table)
}

const PLAIN: [u32; 3] = [0x8000_0007, 0x8000_0008, 0x8000_0009];

#[test]
fn none_is_accepted() {
    let good = table(&[10, 11], &[&[3, 4], &[5, 6]]);
    for place in 3..7 {
        let mut none = good.clone();
        none[place] = WORD;
        for call in Call::ALL {
            assert_eq!(run(call, &none, &good).0[..2], [0, 0]);
            assert_eq!(run(call, &good, &none).0[..2], [0, 0]);
        }
        assert!(page(&none, 0).is_ok());
    }
    // It is filled.
    let all = table(&[10, 11], &[&[NONE, NONE]]);
    for call in Call::ALL {
        let (answer, words, _) = run(call, &all, &all);
        assert_eq!((answer[2], answer[4]), (1, 2));
        assert_eq!(words, all);
    }
}

#[test]
fn number_7() {
    let good = table(&[10, 11], &[&[3, NONE], &[-1, 6]]);
    for place in 3..7 {
        for word in wrong_words() {
            let mut wrong = good.clone();
            wrong[place] = word;
            assert_eq!(refused(&wrong, &good), (7, 0));
            assert_eq!(refused(&good, &wrong), (7, 1));
            assert_eq!(refused(&wrong, &wrong), (7, 0));
            assert_eq!(page(&wrong, 0), Err(7));
        }
    }
}

#[test]
fn none_is_no_header_and_no_column_more() {
    // The word says what it says only as a cell.
    let good = table(&[10, 11], &[&[NONE, 4]]);
    let with = |place: usize, word: u32| {
        let mut image = good.clone();
        image[place] = word;
        image
    };
    assert_eq!(refused(&with(0, WORD), &good), (1, 0));
    assert_eq!(refused(&with(2, WORD | 10), &good), (6, 0));
    // As a column it has the id 0.
    let (_, words, _) = run(Call::Outer, &with(2, WORD), &good);
    assert_eq!(words[1..4], [column(0), column(10), column(11)]);
}

#[test]
fn sorts_after_every_number() {
    let ascending: [&[i64]; 8] = [
        &[-1, NONE],
        &[0, -1],
        &[0, MOST],
        &[0, NONE],
        &[MOST, NONE],
        &[NONE, -1],
        &[NONE, MOST],
        &[NONE, NONE],
    ];
    let mut rows = ascending;
    rows.reverse();
    let (first, second) = (table(&[10, 11], &rows[..3]), table(&[10, 11], &rows[3..]));
    let (answer, words, _) = run(Call::Outer, &first, &second);
    assert_eq!(answer, [0, 0, 8, 19, 13, 0, 0, 0, 0]);
    assert_eq!(words, table(&[10, 11], &ascending));
    // So are the rows that are kept, and the fused ones.
    let ascending: [&[i64]; 4] = [&[-1, 5], &[0, -1], &[MOST, -1], &[NONE, -1]];
    let (first, second) = (
        table(&[10, 11], &[ascending[3], ascending[0]]),
        table(&[11, 10], &[&[-1, MOST], &[-1, 0]]),
    );
    for call in [Call::Minimum, Call::Complement] {
        let (_, words, _) = run(call, &first, &second);
        assert_eq!(words, table(&[10, 11], &ascending));
    }
}

#[test]
fn joins_as_a_shared_number() {
    let (sets, table) = fused(&PLAIN, &[NONE, 2, -1], &[NONE, -1, 3]);
    assert_eq!(sets, [[0, 1]]);
    assert_eq!(table, image(&PLAIN, &[&[NONE, 2, 3]]));
}

#[test]
fn equals_only_itself() {
    // Not number 0, not the largest and not an empty cell.
    for other in [0, 1, MOST] {
        let (sets, table) = fused(&PLAIN, &[NONE, 2, -1], &[other, -1, 3]);
        assert_eq!(sets, [[0], [1]]);
        assert_eq!(table, image(&PLAIN, &[&[other, -1, 3], &[NONE, 2, -1]]));
    }
    let (sets, _) = fused(&PLAIN, &[NONE, 2, -1], &[-1, -1, 3]);
    assert_eq!(sets, [[0], [1]]);
}

#[test]
fn is_taken_from_a_member() {
    // Wherever it stands among the members; the shared cell is a number.
    let (sets, table) = fused(&PLAIN, &[7, NONE, -1], &[7, -1, NONE]);
    assert_eq!(sets, [[0, 1]]);
    assert_eq!(table, image(&PLAIN, &[&[7, NONE, NONE]]));
    // Three rows, none in another column of each.
    let rows: [&[i64]; 3] = [&[NONE, NONE, -1], &[-1, NONE, 0], &[NONE, -1, 0]];
    let (answer, table, list) = run(
        Call::Complement,
        &image(&PLAIN, &rows[..1]),
        &image(&PLAIN, &rows[1..]),
    );
    assert_eq!((answer[2], answer[4]), (1, 3));
    assert_eq!(positions(&list), [[0, 1, 2]]);
    assert_eq!(table, image(&PLAIN, &[&[NONE, NONE, 0]]));
}

#[test]
fn subsumes_as_a_number() {
    let minimum = |rows: &[&[i64]]| {
        let (first, second) = (table(&[10, 11], &rows[..1]), table(&[10, 11], &rows[1..]));
        run(Call::Minimum, &first, &second).1
    };
    let (empty, zero, none): (&[i64], &[i64], &[i64]) = (&[-1, -1], &[0, -1], &[NONE, -1]);
    assert_eq!(minimum(&[empty, none]), table(&[10, 11], &[none]));
    assert_eq!(minimum(&[none, zero]), table(&[10, 11], &[zero, none]));
    let (wide, other): (&[i64], &[i64]) = (&[NONE, 5], &[0, NONE]);
    assert_eq!(minimum(&[none, wide]), table(&[10, 11], &[wide]));
    assert_eq!(minimum(&[zero, wide]), table(&[10, 11], &[zero, wide]));
    assert_eq!(minimum(&[zero, other]), table(&[10, 11], &[other]));
    // Rows of which one subsumes the other don't complement.
    let (sets, _) = fused(&PLAIN, &[NONE, NONE, -1], &[NONE, -1, -1]);
    assert_eq!(sets, [[0], [1]]);
}

#[test]
fn counts_in_a_marked_column() {
    let by_first = [marked(7), column(8), column(9)];
    let (sets, table) = fused(&by_first, &[NONE, 2, -1], &[NONE, -1, 3]);
    assert_eq!(sets, [[0, 1]]);
    assert_eq!(table, image(&by_first, &[&[NONE, 2, 3]]));
    // Shared beside the marked column.
    for (first, second) in [
        ([4, NONE, -1], [-1, NONE, 3]),
        ([NONE, NONE, -1], [-1, NONE, 3]),
    ] {
        assert_eq!(fused(&by_first, &first, &second).0, [[0], [1]]);
        assert_eq!(fused(&PLAIN, &first, &second).0, [[0, 1]]);
    }
    // Shared in the marked column, while another column differs by it.
    assert_eq!(
        fused(&by_first, &[NONE, 2, 0], &[NONE, -1, NONE]).0,
        [[0], [1]]
    );
}

#[test]
fn a_page_shows_it() {
    let rows: [&[i64]; 3] = [
        &[NONE, 0, -1, 7, 8, NONE, NONE],
        &[NONE; 7],
        &[-1, MOST, NONE, -1, 0, 1, -1],
    ];
    let shown = table(&[10, 11, 12, 13, 14, 15, 16], &rows);
    let pages = [page(&shown, 0).unwrap(), page(&shown, 1).unwrap()];
    assert_eq!(
        lines(&pages[0]),
        [
            "              10          11          12          13          14          15",
            "   0        none           0           -           7           8        none",
            "   1        none        none        none        none        none        none",
            "   2           -  1073741823        none           -           0           1",
        ]
    );
    assert_eq!(
        lines(&pages[1]),
        [
            "              16",
            "   0        none",
            "   1        none",
            "   2           -",
        ]
    );
    assert_eq!(read_back(&pages), Some(Table::from_image(&shown)));
    // No other text is read as none.
    let text = String::from_utf8(pages[1].clone()).unwrap();
    for other in ["None", "no ne", "nonee", "none0", "2147483648"] {
        let wide = text.replacen("        none", &format!("{other:>12}"), 1);
        let found = read_back(&[pages[0].clone(), wide.into_bytes()]);
        assert_ne!(found, Some(Table::from_image(&shown)));
    }
}

#[test]
fn every_cell_of_the_largest_table() {
    let ids: Vec<u32> = (0..16).collect();
    let row: &[i64] = &[NONE; 16];
    let none = table(&ids, &[row; 1024]);
    let pages: Vec<Vec<u8>> = (0..54).map(|k| page(&none, k).unwrap()).collect();
    assert_eq!(read_back(&pages), Some(Table::from_image(&none)));
    let texts = pages.concat();
    let shown = texts.windows(12).filter(|text| text == b"        none");
    assert_eq!(shown.count(), 16 * 1024);
}

/// An image of up to six rows, in it 0, 1, 2, empty cells and the number that
/// stands for none.
fn any_image(rng: &mut Rng, none: i64) -> Vec<u32> {
    let mut columns: Vec<u32> = (7..11).map(column).collect();
    columns.truncate(rng.between(2, 4));
    for word in &mut columns {
        if rng.chance(1, 6) {
            *word = marked(*word & 0xFFFF);
        }
    }
    let mut row = || -> Vec<i64> {
        let cell = |_: &u32| *rng.pick(&[-1, -1, -1, 0, 1, 2, none, none]);
        columns.iter().map(cell).collect()
    };
    let rows: Vec<Vec<i64>> = (0..6).map(|_| row()).collect();
    let rows: Vec<&[i64]> = rows.iter().map(Vec::as_slice).collect();
    image(&columns, &rows[..rng.below(7)])
}

#[test]
fn random_tables() {
    let mut joined = 0;
    for seed in 0..2000 {
        // With a number above all others in its place nothing else changes.
        let [with, without] = [NONE, 1000].map(|none| {
            let mut rng = Rng::new(seed);
            [any_image(&mut rng, none), any_image(&mut rng, none)]
        });
        for call in Call::ALL {
            let (answer, mut table, list) = run(call, &with[0], &with[1]);
            joined += u32::from(call == Call::Complement && answer[2] < answer[6]);
            let columns = (table[0] & 31) as usize;
            for cell in &mut table[1 + columns..] {
                if *cell == WORD {
                    *cell = 0x4000_0000 | 1000;
                }
            }
            assert_eq!((answer, table, list), run(call, &without[0], &without[1]));
        }
    }
    assert!(joined > 0);
}

#[test]
fn generated_inputs_hold_none() {
    let (mut accepted, mut found, mut in_marked, mut counted) = (0, 0, 0, 0);
    for case in 0..4000 {
        let pair = any_pair(&mut Rng::new(case));
        let mut union = vec![0; MAX_TABLE_WORDS];
        let answer = Reference::new().outer_union(&pair.first, &pair.second, &mut union);
        if answer.number != 0 {
            continue;
        }
        union.truncate(answer.words as usize);
        let none = has_none(&union);
        accepted += 1;
        found += u32::from(none);
        in_marked += u32::from(none && is_marked(&union));
        // Where sets are counted beforehand, there are as many with none. With
        // marks a column may have been emptied.
        if none && pair.kind == "1,024 sets and up" && !is_marked(&union) {
            counted += 1;
            let sets = Graph::of(&pair).maximal_sets(2000);
            assert!((1024..1027).contains(&sets));
        }
    }
    assert!(5 * found > accepted && 10 * in_marked > accepted && counted > 10);
    let tables = (0..500).filter(|&seed| has_none(&stored::sound(&mut Rng::new(seed))));
    assert!(tables.count() > 100);
}

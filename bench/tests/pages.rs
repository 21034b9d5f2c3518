//! The table on a page (request A3), run by every implementation.

mod common;

use common::{agreed, column, example, image, implementations, marked, table, FILL};
use fusion_bench::generate::{Rng, Table};
use fusion_bench::pages::{fields, read_back};
use fusion_bench::stored;
use fusion_bench::{Call, ANSWER_WORDS, MAX_SET_WORDS, MAX_TABLE_WORDS, PAGE_BYTES};

/// A page with `room` bytes lent, by every implementation: how many pages there
/// are and the page's bytes, or the number and the table of the refusal. Every
/// byte that isn't the page's has to be as it was.
fn page_in(image: &[u32], page: u32, room: usize) -> Result<(u32, Vec<u8>), (u32, u32)> {
    let before: Vec<u8> = (0..room).map(|place| (place % 251) as u8 ^ 0xA5).collect();
    let mut results = Vec::new();
    for mut library in implementations() {
        let mut bytes = before.clone();
        let mut answer = [FILL; ANSWER_WORDS + 1];
        let number = library.page(image, page, &mut bytes, &mut answer);
        assert_eq!((number, answer[ANSWER_WORDS]), (answer[0], FILL));
        assert_eq!(answer[2..8], [0; 6]);
        let (table, pages) = (answer[1], answer[8]);
        results.push(if number == 0 {
            assert_eq!(table, 0);
            assert_eq!(bytes[PAGE_BYTES..], before[PAGE_BYTES..]);
            bytes.truncate(PAGE_BYTES);
            Ok((pages, bytes))
        } else {
            assert_eq!(pages, 0);
            assert_eq!(bytes, before);
            Err((number, table))
        });
    }
    agreed(results)
}

fn page(image: &[u32], page: u32) -> Result<(u32, Vec<u8>), (u32, u32)> {
    page_in(image, page, PAGE_BYTES + 100)
}

/// All pages of a table that is accepted.
fn all_pages(image: &[u32]) -> Vec<Vec<u8>> {
    let pages = page(image, 0).unwrap().0;
    let bytes = |k| {
        let (count, bytes) = page(image, k).unwrap();
        assert_eq!(count, pages);
        bytes
    };
    let all = (0..pages).map(bytes).collect();
    assert_eq!(page(image, pages), Err((15, 2)));
    all
}

/// A page of these lines, with blanks and blank lines behind them.
fn text(lines: &[&str]) -> Vec<u8> {
    let all = lines.iter().chain(&[""; 60]).take(60);
    let text: String = all.map(|line| format!("{line:<80}\n")).collect();
    assert_eq!(text.len(), 4860);
    text.into_bytes()
}

/// A table whose cell in row r and column c, from 0, is 100 * r + c.
fn numbered(columns: usize, rows: usize) -> Vec<u32> {
    let ids: Vec<u32> = (500..500 + columns as u32).collect();
    let rows: Vec<Vec<i64>> = (0..rows as i64)
        .map(|row| (0..columns as i64).map(|c| 100 * row + c).collect())
        .collect();
    let rows: Vec<&[i64]> = rows.iter().map(Vec::as_slice).collect();
    table(&ids, &rows)
}

/// Pages of a table of so many columns and rows.
fn count(columns: usize, rows: usize) -> u32 {
    page(&numbered(columns, rows), 0).unwrap().0
}

/// The text of a page of the numbered table that shows these columns and rows.
fn numbered_text(columns: std::ops::Range<usize>, rows: std::ops::Range<usize>) -> Vec<u8> {
    let cells = |position: String, cell: &dyn Fn(usize) -> usize| {
        let cells: String = columns
            .clone()
            .map(|c| format!("{:>12}", cell(c)))
            .collect();
        format!("{position:>4}{cells}")
    };
    let mut lines = vec![cells(String::new(), &|c| 500 + c)];
    lines.extend(rows.map(|row| cells(row.to_string(), &|c| 100 * row + c)));
    let lines: Vec<&str> = lines.iter().map(String::as_str).collect();
    text(&lines)
}

const FUSED: [&str; 4] = [
    "              10          11          12          13",
    "   0           7           3          40           -",
    "   1           7           3          40           2",
    "   2           9           5          41           1",
];

#[test]
fn fused_table() {
    let rows: [&[i64]; 3] = [&[7, 3, 40, -1], &[7, 3, 40, 2], &[9, 5, 41, 1]];
    let fused = table(&[10, 11, 12, 13], &rows);
    assert_eq!(page(&fused, 0), Ok((1, text(&FUSED))));
    assert_eq!(page(&fused, 1), Err((15, 2)));
}

#[test]
fn made_by_complement_union() {
    let (board, plant) = example();
    for mut library in implementations() {
        let (mut made, mut sets) = (vec![0; MAX_TABLE_WORDS], vec![0; MAX_SET_WORDS]);
        let mut answer = [FILL; ANSWER_WORDS];
        let call = Call::Complement;
        library.run(call, &board, &plant, &mut made, &mut sets, &mut answer);
        assert_eq!((answer[0], answer[8]), (0, 0));
        let mut bytes = vec![0; PAGE_BYTES];
        let made = &made[..answer[3] as usize];
        library.page(made, 0, &mut bytes, &mut answer);
        assert_eq!(answer, [0, 0, 0, 0, 0, 0, 0, 0, 1]);
        assert_eq!(bytes, text(&FUSED));
    }
}

#[test]
fn rows_and_columns_of_each_page() {
    // Of 118 rows and 7 columns.
    assert_eq!(
        all_pages(&numbered(7, 118)),
        [
            numbered_text(0..6, 0..59),
            numbered_text(0..6, 59..118),
            numbered_text(6..7, 0..59),
            numbered_text(6..7, 59..118),
        ]
    );
    assert_eq!(
        all_pages(&numbered(13, 60)),
        [
            numbered_text(0..6, 0..59),
            numbered_text(0..6, 59..60),
            numbered_text(6..12, 0..59),
            numbered_text(6..12, 59..60),
            numbered_text(12..13, 0..59),
            numbered_text(12..13, 59..60),
        ]
    );
}

#[test]
fn no_rows() {
    let pages = all_pages(&numbered(16, 0));
    assert_eq!(
        pages,
        [
            numbered_text(0..6, 0..0),
            numbered_text(6..12, 0..0),
            numbered_text(12..16, 0..0),
        ]
    );
    let ids = "             512         513         514         515";
    assert_eq!(pages[2], text(&[ids]));
    for columns in 1..=16 {
        assert_eq!(count(columns, 0), (columns as u32 - 1) / 6 + 1);
    }
}

#[test]
fn counts() {
    for (columns, bands) in [(1, 1), (5, 1), (6, 1), (7, 2), (12, 2), (13, 3), (16, 3)] {
        for (rows, parts) in [
            (0, 1),
            (1, 1),
            (58, 1),
            (59, 1),
            (60, 2),
            (117, 2),
            (118, 2),
            (119, 3),
            (1003, 17),
            (1004, 18),
            (1023, 18),
            (1024, 18),
        ] {
            assert_eq!(count(columns, rows), bands * parts);
        }
    }
}

#[test]
fn largest() {
    let largest = numbered(16, 1024);
    let pages = all_pages(&largest);
    assert_eq!(pages.len(), 54);
    assert_eq!(pages[17], numbered_text(0..6, 1003..1024));
    assert_eq!(pages[18], numbered_text(6..12, 0..59));
    assert_eq!(pages[53], numbered_text(12..16, 1003..1024));
    assert_eq!(read_back(&pages), Some(Table::from_image(&largest)));
}

#[test]
fn widest() {
    // Six cells of ten digits, and a position of four.
    let most = 1_073_741_823;
    let row: &[i64] = &[most, -1, 0, most, most, most];
    let ids = [0, 65_535, 9, 10, 9_999, 10_000];
    let all = table(&ids, &[row; 1024]);
    let head = "               0       65535           9          10        9999       10000    \n";
    let tail = "  1073741823           -           0  1073741823  1073741823  1073741823    \n";
    let (_, bytes) = page(&all, 17).unwrap();
    let lines: Vec<&[u8]> = bytes.chunks(81).collect();
    assert_eq!(lines[0], head.as_bytes());
    for (line, position) in lines[1..22].iter().zip(1003..) {
        assert_eq!(line, &format!("{position}{tail}").as_bytes());
    }
    for line in &lines[22..] {
        assert_eq!(line, &format!("{:80}\n", "").as_bytes());
    }
}

#[test]
fn order_of_the_image() {
    // Ids fall, rows fall and one of them is there twice.
    let rows: [&[i64]; 4] = [&[9, 1], &[-1, 3], &[-1, 3], &[1, -1]];
    let wanted = text(&[
        "              20          10",
        "   0           9           1",
        "   1           -           3",
        "   2           -           3",
        "   3           1           -",
    ]);
    // Marks are not shown.
    for columns in [[column(20), column(10)], [marked(20), marked(10)]] {
        assert_eq!(page(&image(&columns, &rows), 0), Ok((1, wanted.clone())));
    }
}

#[test]
fn number_15() {
    for (columns, rows, pages) in [(1, 0, 1), (6, 59, 1), (7, 118, 4), (16, 1024, 54)] {
        let image = numbered(columns, rows);
        assert!(page(&image, pages - 1).is_ok());
        for beyond in [pages, pages + 1, pages + 256, 1 << 16, 1 << 31, u32::MAX] {
            assert_eq!(page(&image, beyond), Err((15, 2)));
            // It comes before 16.
            for room in [0, PAGE_BYTES - 1] {
                assert_eq!(page_in(&image, beyond, room), Err((15, 2)));
            }
        }
    }
}

#[test]
fn number_16() {
    let image = numbered(7, 118);
    for room in [0, 1, 80, 81, 4800, PAGE_BYTES - 1] {
        for k in 0..4 {
            assert_eq!(page_in(&image, k, room), Err((16, 2)));
        }
    }
    let whole = page(&image, 2);
    for room in [PAGE_BYTES, PAGE_BYTES + 1, 2 * PAGE_BYTES] {
        assert_eq!(page_in(&image, 2, room), whole);
    }
}

#[test]
fn row_limit() {
    for rows in [32, 33, 64, 65, 1024] {
        assert!(page(&numbered(2, rows), 0).is_ok());
    }
    assert_eq!(page(&numbered(2, 1025), 0), Err((3, 0)));
    assert_eq!(page(&numbered(1, 4095), 0), Err((3, 0)));
}

/// Refused with this number, whatever page and buffer are given with the image.
fn refused(image: &[u32], number: u32) {
    for (k, room) in [(0, PAGE_BYTES), (0, 0), (u32::MAX, PAGE_BYTES), (99, 7)] {
        assert_eq!(page_in(image, k, room), Err((number, 0)));
    }
}

#[test]
fn numbers_1_to_7() {
    let good = numbered(3, 60);
    assert_eq!(good.len(), 184);
    let with = |place: usize, word: u32| {
        let mut image = good.clone();
        image[place] = word;
        image
    };
    refused(&[], 1);
    for kind in 0..3 {
        refused(&with(0, good[0] & 0x3FFF_FFFF | kind << 30), 1);
    }
    for bit in 5..18 {
        refused(&with(0, good[0] | 1 << bit), 1);
    }
    for columns in [0, 17, 31] {
        refused(&with(0, good[0] & !31 | columns), 2);
    }
    for rows in [1025, 4095] {
        refused(&with(0, good[0] & !(0xFFF << 18) | rows << 18), 3);
    }
    for rows in [0, 59, 61, 1024] {
        refused(&with(0, good[0] & !(0xFFF << 18) | rows << 18), 4);
    }
    for length in [1, 3, 4, 183] {
        refused(&good[..length], 4);
    }
    refused(&[&good[..], &[0]].concat(), 4);
    for place in 1..4 {
        for kind in [0, 1, 3] {
            refused(&with(place, good[place] & 0x3FFF_FFFF | kind << 30), 5);
        }
        for bit in 16..29 {
            refused(&with(place, good[place] | 1 << bit), 5);
        }
        for other in (1..4).filter(|&other| other != place) {
            refused(&with(place, good[other]), 6);
            refused(&with(place, good[other] | 1 << 29), 6);
        }
    }
    for place in [4, 5, 99, 182, 183] {
        for word in [1, 0x3FFF_FFFF, 0x8000_0001, 0xBFFF_FFFF, 0xC000_0000, !0] {
            refused(&with(place, word), 7);
        }
        for word in [0, 0x4000_0000, 0x7FFF_FFFF, 0x8000_0000] {
            assert!(page(&with(place, word), 1).is_ok());
        }
    }
}

#[test]
fn first_number_counts() {
    // Each fault with all faults behind it.
    let mut image = numbered(3, 60);
    let whole = image.clone();
    image[10] = 1;
    refused(&image, 7);
    image[2] = image[1];
    refused(&image, 6);
    image[3] = 0;
    refused(&image, 5);
    image.push(0);
    refused(&image, 4);
    image[0] = whole[0] | 1025 << 18;
    refused(&image, 3);
    image[0] &= !31;
    refused(&image, 2);
    image[0] |= 1 << 5;
    refused(&image, 1);
}

#[test]
fn short_answers() {
    let image = numbered(7, 118);
    for mut library in implementations() {
        for length in 0..12 {
            let mut bytes = vec![0; PAGE_BYTES];
            let mut answer = vec![FILL; length];
            let fits = length.min(ANSWER_WORDS);
            assert_eq!(library.page(&image, 3, &mut bytes, &mut answer), 0);
            assert_eq!(bytes, numbered_text(6..7, 59..118));
            assert_eq!(answer[..fits], [0, 0, 0, 0, 0, 0, 0, 0, 4][..fits]);
            assert!(answer[fits..].iter().all(|&word| word == FILL));

            let mut answer = vec![FILL; length];
            assert_eq!(library.page(&image, 4, &mut bytes, &mut answer), 15);
            assert_eq!(answer[..fits], [15, 2, 0, 0, 0, 0, 0, 0, 0][..fits]);
            assert!(answer[fits..].iter().all(|&word| word == FILL));
        }
    }
}

#[test]
fn random_tables_are_found_back() {
    for seed in 0..100 {
        let image = stored::sound(&mut Rng::new(seed));
        let pages = all_pages(&image);
        assert_eq!(read_back(&pages), Some(Table::from_image(&image)));
    }
}

#[test]
fn other_pages_are_not_found_back() {
    let image = numbered(7, 118);
    let pages = all_pages(&image);
    let table = Some(Table::from_image(&image));
    assert_eq!(read_back(&pages), table);
    for k in 0..4 {
        let mut fewer = pages.clone();
        fewer.remove(k);
        assert_ne!(read_back(&fewer), table);
        for other in 0..k {
            let mut swapped = pages.clone();
            swapped.swap(k, other);
            assert_eq!(read_back(&swapped), None);
        }
    }
    assert_eq!(read_back(&[]), None);
    assert_eq!(fields(&pages[0][1..]), None);
}

#[test]
fn other_bytes_are_not_found_back() {
    let image = numbered(7, 3);
    let mut pages = all_pages(&image);
    let table = Some(Table::from_image(&image));
    for k in 0..2 {
        for place in 0..PAGE_BYTES {
            let byte = pages[k][place];
            pages[k][place] = if byte == b' ' { b'1' } else { b' ' };
            assert_ne!(read_back(&pages), table);
            pages[k][place] = byte;
        }
    }
}

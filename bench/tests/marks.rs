//! Marked columns (request A2), run by every implementation.

mod common;

use common::{column, image, implementations, marked, positions, refused, run, FILL};
use fusion_bench::Call;

/// Two devices of one guest, and the guest's address.
const DEVICES: [&[i64]; 2] = [&[7, -1, 2], &[8, -1, 2]];
const ADDRESS: [&[i64]; 1] = [&[41, 2]];
/// Their T, in the columns 10 to 13.
const DEVICES_T: [&[i64]; 3] = [&[-1, -1, 41, 2], &[7, -1, -1, 2], &[8, -1, -1, 2]];

#[test]
fn unmarked_guest_joins() {
    let first = image(&[column(10), column(11), column(13)], &DEVICES);
    let second = image(&[column(12), column(13)], &ADDRESS);
    let (answer, table, list) = run(Call::Complement, &first, &second);
    assert_eq!(answer, [0, 0, 2, 13, 6, 0, 2, 9, 0]);
    let columns = [0x8000_000A, 0x8000_000B, 0x8000_000C, 0x8000_000D];
    assert_eq!(table, image(&columns, &[&[7, -1, 41, 2], &[8, -1, 41, 2]]));
    assert_eq!(positions(&list), [[0, 1], [0, 2]]);
}

#[test]
fn marked_device_keeps_apart() {
    let first = image(&[marked(10), column(11), column(13)], &DEVICES);
    let second = image(&[column(12), column(13)], &ADDRESS);
    let columns = [0xA000_000A, 0x8000_000B, 0x8000_000C, 0x8000_000D];
    let whole = image(&columns, &DEVICES_T);

    let (answer, table, list) = run(Call::Complement, &first, &second);
    assert_eq!(answer, [0, 0, 3, 17, 6, 0, 3, 13, 0]);
    assert_eq!(table, whole);
    assert_eq!(positions(&list), [[0], [1], [2]]);

    let (answer, table, _) = run(Call::Outer, &first, &second);
    assert_eq!(answer, [0, 0, 3, 17, 6, 0, 0, 0, 0]);
    assert_eq!(table, whole);

    let (answer, table, _) = run(Call::Minimum, &first, &second);
    assert_eq!(answer, [0, 0, 3, 17, 6, 6, 0, 0, 0]);
    assert_eq!(table, whole);
}

#[test]
fn marked_guest_joins() {
    // The shared number is in the marked column, whoever marks it.
    let columns = [column(10), column(11), column(12), marked(13)];
    for by in 1..4 {
        let guest = |table: u32| {
            if by & table != 0 {
                marked(13)
            } else {
                column(13)
            }
        };
        let first = image(&[column(10), column(11), guest(1)], &DEVICES);
        let second = image(&[column(12), guest(2)], &ADDRESS);
        let (answer, table, list) = run(Call::Complement, &first, &second);
        assert_eq!(answer, [0, 0, 2, 13, 6, 0, 2, 9, 0]);
        assert_eq!(table, image(&columns, &[&[7, -1, 41, 2], &[8, -1, 41, 2]]));
        assert_eq!(positions(&list), [[0, 1], [0, 2]]);
    }
}

#[test]
fn mark_of_an_empty_column() {
    // 11 and 14 are empty in every row. One of them is marked: nobody
    // complements.
    for (empty, extra) in [(marked(11), column(14)), (column(11), marked(14))] {
        let first = image(&[column(10), empty, column(13)], &DEVICES);
        let second = image(&[extra, column(12), column(13)], &[&[-1, 41, 2]]);
        let (answer, table, list) = run(Call::Complement, &first, &second);
        assert_eq!(answer[6], 3);
        assert_eq!(
            table[1..6],
            [column(10), empty, column(12), column(13), extra]
        );
        assert_eq!(positions(&list), [[0], [1], [2]]);
    }
}

#[test]
fn a_second_mark_lets_the_guest_count() {
    // Of two marked columns one is enough.
    let first = image(&[marked(10), column(11), marked(13)], &DEVICES);
    let second = image(&[column(12), column(13)], &ADDRESS);
    let (answer, table, list) = run(Call::Complement, &first, &second);
    assert_eq!(answer[6], 2);
    assert_eq!(
        table[1..5],
        [marked(10), column(11), column(12), marked(13)]
    );
    assert_eq!(positions(&list), [[0, 1], [0, 2]]);
}

#[test]
fn unmarked_columns_still_have_to_agree() {
    // The marked column is shared, the unmarked one differs.
    let columns = [marked(1), column(2), column(3), column(4)];
    let first = image(&columns, &[&[5, 6, 7, -1]]);
    let apart = image(&columns, &[&[5, 9, -1, 8]]);
    let agree = image(&columns, &[&[5, 6, -1, 8]]);
    assert_eq!(run(Call::Complement, &first, &apart).0[6], 2);
    let (answer, table, _) = run(Call::Complement, &first, &agree);
    assert_eq!(answer[6], 1);
    assert_eq!(table, image(&columns, &[&[5, 6, 7, 8]]));
}

#[test]
fn marks_go_by_id() {
    // The second table alone marks 20, which stands in another place in it,
    // in the first table and in the union.
    let rows: [&[i64]; 2] = [&[1, 5, -1], &[2, 5, -1]];
    let first = image(&[column(20), column(30), column(10)], &rows);
    let second = image(&[column(40), column(30), marked(20)], &[&[6, 5, -1]]);
    let columns = [column(10), marked(20), column(30), column(40)];
    for (first, second) in [(&first, &second), (&second, &first)] {
        for call in [Call::Outer, Call::Minimum] {
            let (_, table, _) = run(call, first, second);
            assert_eq!(
                table,
                image(
                    &columns,
                    &[&[-1, -1, 5, 6], &[-1, 1, 5, -1], &[-1, 2, 5, -1]]
                )
            );
        }
        // 30 does not count.
        let (_, table, list) = run(Call::Complement, first, second);
        assert_eq!(table[1..5], columns);
        assert_eq!(positions(&list), [[0], [1], [2]]);
    }
    // With the same number in 20 one pair counts.
    let second = image(&[column(40), column(30), marked(20)], &[&[6, -1, 1]]);
    let (_, table, list) = run(Call::Complement, &first, &second);
    assert_eq!(table, image(&columns, &[&[-1, 1, 5, 6], &[-1, 2, 5, -1]]));
    assert_eq!(positions(&list), [vec![0, 1], vec![2]]);
}

#[test]
fn all_marked_is_as_none() {
    let rows: [&[i64]; 4] = [
        &[1, 2, -1, -1],
        &[-1, 2, 3, -1],
        &[-1, -1, 3, 4],
        &[1, -1, -1, 4],
    ];
    let plain = [10, 11, 12, 13].map(column);
    let all = [10, 11, 12, 13].map(marked);
    for call in Call::ALL {
        let (answer, mut table, list) =
            run(call, &image(&plain, &rows[..2]), &image(&plain, &rows[2..]));
        table[1..5].copy_from_slice(&all);
        let wanted = (answer, table, list);
        for second in [&plain, &all] {
            let found = run(call, &image(&all, &rows[..2]), &image(second, &rows[2..]));
            assert_eq!(found, wanted);
            let found = run(call, &image(second, &rows[..2]), &image(&all, &rows[2..]));
            assert_eq!(found, wanted);
        }
    }
}

#[test]
fn columns_ascend_by_id() {
    // As words, marked columns would stand last. Sixteen ids, each marked by
    // one table alone, are sixteen columns.
    let ids: Vec<u32> = (0..15).chain([65_535]).collect();
    let head = |odd: u32| -> Vec<u32> {
        let words = ids.iter().rev().map(|&id| match id % 2 == odd {
            true => marked(id),
            false => column(id),
        });
        words.collect()
    };
    let wanted: Vec<u32> = ids.iter().map(|&id| marked(id)).collect();
    for call in Call::ALL {
        let (answer, table, _) = run(call, &image(&head(0), &[]), &image(&head(1), &[]));
        assert_eq!((answer[0], answer[3]), (0, 17));
        assert_eq!(table, image(&wanted, &[]));
        let (_, table, _) = run(call, &image(&head(1), &[]), &image(&head(1), &[]));
        let half: Vec<u32> = head(1).into_iter().rev().collect();
        assert_eq!(table, image(&half, &[]));
    }
    let more = image(&[marked(15)], &[]);
    assert_eq!(refused(&image(&head(0), &[]), &more), (8, 2));
}

#[test]
fn minimum_union_subsumes_as_before() {
    // 11 is marked; the subsumed row is empty there.
    let first = image(&[column(10), marked(11)], &[&[7, 3], &[9, -1]]);
    let second = image(&[column(10), column(11)], &[&[7, -1], &[-1, 3]]);
    let (answer, table, _) = run(Call::Minimum, &first, &second);
    assert_eq!(
        table,
        image(&[column(10), marked(11)], &[&[7, 3], &[9, -1]])
    );
    assert_eq!(answer[2..5], [2, 7, 3]);
}

#[test]
fn set_limits() {
    // Document 01's rows with 1,024 and 1,025 sets: a number in column 0 and,
    // in ten further columns, one row with 1 and one with 2.
    let mut rows: Vec<Vec<i64>> = Vec::new();
    for place in 1..11 {
        for number in 1..3 {
            let mut row = vec![-1; 11];
            (row[0], row[place]) = (1, number);
            rows.push(row);
        }
    }
    let mut apart = vec![-1; 11];
    apart[0] = 2;
    rows.push(apart);
    let rows: Vec<&[i64]> = rows.iter().map(Vec::as_slice).collect();
    let number_and_sets = |mark: usize, count: usize| {
        let mut columns: Vec<u32> = (0..11).map(column).collect();
        columns[mark] = marked(mark as u32);
        let plain: Vec<u32> = (0..11).map(column).collect();
        let second = image(&plain, &rows[10..count]);
        let answer = run(Call::Complement, &image(&columns, &rows[..10]), &second).0;
        (answer[0], answer[6])
    };
    assert_eq!(number_and_sets(0, 20), (0, 1024));
    assert_eq!(number_and_sets(0, 21), (9, 0));
    // No two rows have the same number in another column.
    for mark in 1..11 {
        assert_eq!(number_and_sets(mark, 20), (0, 20));
        assert_eq!(number_and_sets(mark, 21), (0, 21));
    }
}

#[test]
fn number_5() {
    let good = image(&[column(11)], &[&[3]]);
    let with = |word: u32| image(&[column(9), word, marked(8)], &[&[1, 2, 3]]);
    for word in [column(10), marked(10)] {
        for call in Call::ALL {
            assert_eq!(run(call, &with(word), &good).0[0], 0);
            assert_eq!(run(call, &good, &with(word)).0[0], 0);
        }
        for bit in 16..29 {
            assert_eq!(refused(&with(word | 1 << bit), &good), (5, 0));
            assert_eq!(refused(&good, &with(word | 1 << bit)), (5, 1));
        }
        for kind in [0, 1, 3] {
            let other = word & 0x3FFF_FFFF | kind << 30;
            assert_eq!(refused(&with(other), &good), (5, 0));
            assert_eq!(refused(&good, &with(other)), (5, 1));
        }
    }
}

#[test]
fn number_6() {
    let good = image(&[marked(11)], &[&[3]]);
    for (left, right) in [
        (column(10), marked(10)),
        (marked(10), column(10)),
        (marked(10), marked(10)),
    ] {
        // Question 7 would be answered no as well.
        let mut same = image(&[left, column(9), right], &[&[1, 2, 3]]);
        same[4] = 7;
        assert_eq!(refused(&same, &good), (6, 0));
        assert_eq!(refused(&good, &same), (6, 1));
    }
}

#[test]
fn marks_of_a_refused_call_are_not_written() {
    let first = image(&[marked(10), column(11), column(13)], &DEVICES);
    let second = image(&[column(12), column(13)], &ADDRESS);
    for mut unions in implementations() {
        for call in Call::ALL {
            let (mut table, mut sets, mut answer) = ([FILL; 16], [FILL; 13], [FILL; 9]);
            let number = unions.run(call, &first, &second, &mut table, &mut sets, &mut answer);
            assert_eq!((number, table, sets), (10, [FILL; 16], [FILL; 13]));
        }
    }
}

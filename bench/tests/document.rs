//! The examples of document 01, run by every implementation.

mod common;

use common::{example, table, FILL};
#[cfg(feature = "product")]
use fusion_bench::ffi::Product;
use fusion_bench::generate::{self, Rng};
use fusion_bench::naive::Naive;
use fusion_bench::reference::Reference;
use fusion_bench::{Call, Unions, ANSWER_WORDS, MAX_SET_WORDS, MAX_TABLE_WORDS};

fn implementations() -> Vec<Box<dyn Unions>> {
    vec![
        Box::new(Reference::new()),
        Box::new(Naive::default()),
        // Row by row for every T, so that this way is tested on small ones.
        Box::new(Naive { subset_rows: 0 }),
        #[cfg(feature = "product")]
        Box::new(Product),
    ]
}

/// Result of a call with large buffers: answer, table words, set words.
fn run(
    unions: &mut dyn Unions,
    call: Call,
    first: &[u32],
    second: &[u32],
) -> ([u32; ANSWER_WORDS], Vec<u32>, Vec<u32>) {
    let mut table = vec![FILL; MAX_TABLE_WORDS + 1];
    let mut sets = vec![FILL; MAX_SET_WORDS + 1];
    let mut answer = [FILL; ANSWER_WORDS];
    let number = unions.run(call, first, second, &mut table, &mut sets, &mut answer);
    assert_eq!(number, answer[0]);
    let (words, set_words) = (answer[3] as usize, answer[7] as usize);
    assert!(table[words..].iter().all(|&word| word == FILL));
    assert!(sets[set_words..].iter().all(|&word| word == FILL));
    table.truncate(words);
    sets.truncate(set_words);
    (answer, table, sets)
}

/// Sets as (positions, joined row), from a set list.
fn read_sets(list: &[u32]) -> Vec<(Vec<usize>, u32)> {
    assert_eq!(list[0] & 0xC003_FFFF, 0xC000_0004);
    assert_eq!((list[0] >> 18 & 0xFFF) as usize, (list.len() - 1) / 4);
    list[1..]
        .chunks_exact(4)
        .map(|record| {
            assert!(record[..3].iter().all(|word| word >> 30 == 2));
            assert_eq!(record[3] >> 30, 1);
            let positions = (0..90)
                .filter(|i| record[i / 30] >> (i % 30) & 1 == 1)
                .collect();
            (positions, record[3] & 0x3FFF_FFFF)
        })
        .collect()
}

/// Runs complement union and compares the sets and the fused table. The rows
/// are tried in one table with an empty second, and split.
fn check(ids: &[u32], rows: &[&[i64]], sets: &[(&[usize], u32)], fused: &[&[i64]]) {
    for mut unions in implementations() {
        for split in 0..=rows.len() {
            let (_, found, list) = run(
                &mut *unions,
                Call::Complement,
                &table(ids, &rows[..split]),
                &table(ids, &rows[split..]),
            );
            let wanted: Vec<(Vec<usize>, u32)> =
                sets.iter().map(|(set, row)| (set.to_vec(), *row)).collect();
            assert_eq!(read_sets(&list), wanted);
            assert_eq!(found, table(ids, fused));
        }
    }
}

#[test]
fn p1_no_rows() {
    check(&[10, 11], &[], &[], &[]);
    for mut unions in implementations() {
        for call in Call::ALL {
            let (answer, words, _) = run(
                &mut *unions,
                call,
                &table(&[11, 12], &[]),
                &table(&[10, 12], &[]),
            );
            let set_words = u32::from(call == Call::Complement);
            assert_eq!(answer, [0, 0, 0, 4, 0, 0, 0, set_words, 0]);
            assert_eq!(words, table(&[10, 11, 12], &[]));
        }
    }
}

#[test]
fn p2_empty_row() {
    check(&[10, 11], &[&[-1, -1]], &[(&[0], 0)], &[&[-1, -1]]);
}

#[test]
fn p3_subsumed() {
    // T: (1,-,-), (1,2,-).
    check(
        &[10, 11, 12],
        &[&[1, 2, -1], &[1, -1, -1]],
        &[(&[0], 0), (&[1], 1)],
        &[&[1, -1, -1], &[1, 2, -1]],
    );
}

#[test]
fn p4_nothing_shared() {
    check(
        &[10, 11, 12],
        &[&[1, 2, -1], &[-1, -1, 3]],
        &[(&[0], 0), (&[1], 1)],
        &[&[-1, -1, 3], &[1, 2, -1]],
    );
}

#[test]
fn p5_complement() {
    check(
        &[10, 11, 12],
        &[&[1, 2, -1], &[1, -1, 3]],
        &[(&[0, 1], 0)],
        &[&[1, 2, 3]],
    );
}

#[test]
fn p6_zero_is_filled() {
    check(
        &[10, 11],
        &[&[0, -1], &[-1, -1]],
        &[(&[0], 0), (&[1], 1)],
        &[&[-1, -1], &[0, -1]],
    );
    for mut unions in implementations() {
        let (answer, words, _) = run(
            &mut *unions,
            Call::Minimum,
            &table(&[10, 11], &[&[0, -1]]),
            &table(&[10, 11], &[&[-1, -1]]),
        );
        assert_eq!(answer, [0, 0, 1, 5, 1, 2, 0, 0, 0]);
        assert_eq!(words, table(&[10, 11], &[&[0, -1]]));
    }
}

#[test]
fn p7_ring() {
    // T: (-,-,3,4), (-,2,3,-), (1,-,-,4), (1,2,-,-).
    check(
        &[10, 11, 12, 13],
        &[
            &[1, 2, -1, -1],
            &[-1, 2, 3, -1],
            &[-1, -1, 3, 4],
            &[1, -1, -1, 4],
        ],
        &[(&[0, 1], 0), (&[0, 2], 1), (&[1, 3], 3), (&[2, 3], 2)],
        &[
            &[-1, 2, 3, 4],
            &[1, -1, 3, 4],
            &[1, 2, -1, 4],
            &[1, 2, 3, -1],
        ],
    );
    // Fusing the four joined rows gives one row.
    check(
        &[10, 11, 12, 13],
        &[
            &[-1, 2, 3, 4],
            &[1, -1, 3, 4],
            &[1, 2, -1, 4],
            &[1, 2, 3, -1],
        ],
        &[(&[0, 1, 2, 3], 0)],
        &[&[1, 2, 3, 4]],
    );
}

#[test]
fn p8_three() {
    check(
        &[10, 11, 12],
        &[&[1, 2, -1], &[1, -1, 3], &[-1, 2, 3]],
        &[(&[0, 1, 2], 0)],
        &[&[1, 2, 3]],
    );
}

#[test]
fn p9_two_sets_one_row() {
    // T: (1,-,3,4), (1,2,-,-), (1,2,-,4).
    check(
        &[10, 11, 12, 13],
        &[&[1, 2, -1, 4], &[1, -1, 3, 4], &[1, 2, -1, -1]],
        &[(&[0, 1], 0), (&[0, 2], 0)],
        &[&[1, 2, 3, 4]],
    );
}

#[test]
fn worked_example() {
    let (board, plant) = example();
    let ids = [10, 11, 12, 13];
    for mut unions in implementations() {
        let (answer, words, _) = run(&mut *unions, Call::Outer, &board, &plant);
        assert_eq!(answer, [0, 0, 5, 25, 12, 0, 0, 0, 0]);
        let rows: [&[i64]; 5] = [
            &[7, -1, 40, -1],
            &[7, 3, -1, -1],
            &[7, 3, -1, 2],
            &[9, -1, -1, 1],
            &[9, 5, 41, -1],
        ];
        assert_eq!(words, table(&ids, &rows));

        let (answer, words, _) = run(&mut *unions, Call::Minimum, &board, &plant);
        assert_eq!(answer, [0, 0, 4, 21, 10, 18, 0, 0, 0]);
        assert_eq!(words, table(&ids, &[rows[0], rows[2], rows[3], rows[4]]));

        let (answer, words, list) = run(&mut *unions, Call::Complement, &board, &plant);
        assert_eq!(answer, [0, 0, 3, 17, 11, 0, 3, 13, 0]);
        assert_eq!(
            words,
            table(&ids, &[&[7, 3, 40, -1], &[7, 3, 40, 2], &[9, 5, 41, 1]])
        );
        assert_eq!(
            read_sets(&list),
            [(vec![0, 1], 0), (vec![0, 2], 1), (vec![3, 4], 2)]
        );
    }
}

#[test]
fn short_buffers_and_answers() {
    let (board, plant) = example();
    for mut unions in implementations() {
        for table_len in 0..20 {
            for sets_len in 0..16 {
                for answer_len in [0, 1, 2, 7, 8, 9, 10] {
                    let mut table = vec![FILL; table_len];
                    let mut sets = vec![FILL; sets_len];
                    let mut answer = vec![FILL; answer_len];
                    let number = unions.run(
                        Call::Complement,
                        &board,
                        &plant,
                        &mut table,
                        &mut sets,
                        &mut answer,
                    );
                    let (wanted, words) = if table_len < 17 {
                        (10, [10, 2, 0, 0, 0, 0, 0, 0, 0])
                    } else if sets_len < 13 {
                        (11, [11, 2, 0, 0, 0, 0, 0, 0, 0])
                    } else {
                        (0, [0, 0, 3, 17, 11, 0, 3, 13, 0])
                    };
                    assert_eq!(number, wanted);
                    let fits = answer_len.min(ANSWER_WORDS);
                    assert_eq!(answer[..fits], words[..fits]);
                    assert!(answer[fits..].iter().all(|&word| word == FILL));
                    if number != 0 {
                        assert!(table.iter().chain(&sets).all(|&word| word == FILL));
                    } else {
                        assert!(table[17..].iter().all(|&word| word == FILL));
                        assert!(sets[13..].iter().all(|&word| word == FILL));
                    }
                }
            }
        }
    }
}

#[test]
fn row_and_column_limits() {
    let good = table(&[1], &[]);
    let rows = |count: usize| vec![&[5i64] as &[i64]; count];
    for mut unions in implementations() {
        for call in Call::ALL {
            assert_eq!(
                run(&mut *unions, call, &table(&[1], &rows(32)), &good).0[0],
                0
            );
            let refused = run(&mut *unions, call, &table(&[1], &rows(33)), &good).0;
            assert_eq!(refused, [3, 0, 0, 0, 0, 0, 0, 0, 0]);
            let refused = run(&mut *unions, call, &good, &table(&[1], &rows(33))).0;
            assert_eq!(refused, [3, 1, 0, 0, 0, 0, 0, 0, 0]);
            let ids: Vec<u32> = (0..17).collect();
            let (left, right) = (table(&ids[..9], &[]), table(&ids[8..], &[]));
            assert_eq!(
                run(&mut *unions, call, &left, &right).0,
                [8, 2, 0, 0, 0, 0, 0, 0, 0]
            );
            let right = table(&ids[8..16], &[]);
            assert_eq!(run(&mut *unions, call, &left, &right).0[0], 0);
            let refused = run(&mut *unions, call, &table(&ids, &[]), &good).0;
            assert_eq!(refused, [2, 0, 0, 0, 0, 0, 0, 0, 0]);
        }
    }
}

#[test]
fn set_limits() {
    for mut unions in implementations() {
        for seed in 0..40 {
            let mut rng = Rng::new(seed);
            let (first, second) = generate::document_sets(&mut rng, 0);
            let (answer, _, list) = run(
                &mut *unions,
                Call::Complement,
                &first.image(),
                &second.image(),
            );
            assert_eq!((answer[0], answer[2], answer[6]), (0, 1024, 1024));
            assert_eq!(list.len(), 4097);
            let (first, second) = generate::document_sets(&mut rng, 1);
            let (answer, ..) = run(
                &mut *unions,
                Call::Complement,
                &first.image(),
                &second.image(),
            );
            assert_eq!(answer, [9, 2, 0, 0, 0, 0, 0, 0, 0]);
        }
    }
}

#[test]
fn far_over_the_set_limit() {
    for mut unions in implementations() {
        for seed in 0..10 {
            let (first, second) = generate::far_over_limit(&mut Rng::new(seed));
            let (answer, ..) = run(
                &mut *unions,
                Call::Complement,
                &first.image(),
                &second.image(),
            );
            assert_eq!(answer, [9, 2, 0, 0, 0, 0, 0, 0, 0]);
        }
    }
}

#[test]
fn hostile_lists() {
    for mut unions in implementations() {
        for devices in [1, 2, 8, 16, 32] {
            let (first, second) = generate::hostile(devices, 14, &mut Rng::new(1));
            let (answer, ..) = run(
                &mut *unions,
                Call::Complement,
                &first.image(),
                &second.image(),
            );
            assert_eq!((answer[0], answer[6]), (0, devices as u32 + 1));
        }
    }
}

#[test]
fn sixty_four_rows_in_one_set() {
    for mut unions in implementations() {
        let (first, second) = generate::all_complement(64, &mut Rng::new(1));
        let (answer, _, list) = run(
            &mut *unions,
            Call::Complement,
            &first.image(),
            &second.image(),
        );
        assert_eq!(answer, [0, 0, 1, 33, 16, 0, 1, 5, 0]);
        assert_eq!(
            list[1..],
            [0xBFFF_FFFF, 0xBFFF_FFFF, 0x8000_000F, 0x4000_0000]
        );
    }
}

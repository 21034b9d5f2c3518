//! The reader of set lists, run by every implementation.

mod common;

use common::{agreed, implementations, FILL};
use fusion_bench::generate::{document_sets, Rng};
use fusion_bench::lists::{entries, largest_sets, layout, Entry};
use fusion_bench::reference::Reference;
use fusion_bench::{ANSWER_WORDS, MAX_READ_WORDS, MAX_SET_WORDS, MAX_TABLE_WORDS};

/// Reads with every implementation and a buffer of `room` words; the words
/// written. Every word behind them has to be as it was.
fn read_in(list: &[u32], rows: u32, room: usize) -> Result<Vec<u32>, u32> {
    let mut results = Vec::new();
    for mut reader in implementations() {
        let mut words = vec![FILL; room];
        let mut answer = [FILL; ANSWER_WORDS + 1];
        let number = reader.read(list, rows, &mut words, &mut answer);
        assert_eq!((number, answer[ANSWER_WORDS]), (answer[0], FILL));
        let written = answer[3] as usize;
        assert!(words[written..].iter().all(|&word| word == FILL));
        words.truncate(written);
        let sets = answer[6];
        results.push(if number == 0 {
            assert_eq!(answer[..3], [0, 0, 0]);
            assert_eq!((answer[4], answer[5], answer[7], answer[8]), (0, 0, 0, 0));
            assert_eq!(layout(&entries(sets, &words).unwrap()), list);
            Ok(words)
        } else {
            assert_eq!(answer[..9], [number, 2, 0, 0, 0, 0, 0, 0, 0]);
            Err(number)
        });
    }
    agreed(results)
}

fn read(list: &[u32], rows: u32) -> Result<Vec<u32>, u32> {
    read_in(list, rows, MAX_READ_WORDS)
}

/// Document 01's sets: {0, 1}, {0, 2}, {3, 4}.
const EXAMPLE: [u32; 13] = [
    0xC00C_0004,
    0x8000_0003,
    0x8000_0000,
    0x8000_0000,
    0x4000_0000,
    0x8000_0005,
    0x8000_0000,
    0x8000_0000,
    0x4000_0001,
    0x8000_0018,
    0x8000_0000,
    0x8000_0000,
    0x4000_0002,
];

/// The example with words changed.
fn changed(changes: &[(usize, u32)]) -> Vec<u32> {
    let mut list = EXAMPLE.to_vec();
    for &(place, word) in changes {
        list[place] = word;
    }
    list
}

#[test]
fn example() {
    let words = [2, 0, 1, 0, 2, 0, 2, 1, 2, 3, 4, 2];
    assert_eq!(read(&EXAMPLE, 5), Ok(words.to_vec()));
    // With more rows it is the same.
    assert_eq!(read(&EXAMPLE, 64), Ok(words.to_vec()));
    assert_eq!(read_in(&EXAMPLE, 5, 12), Ok(words.to_vec()));
    assert_eq!(read_in(&EXAMPLE, 5, 11), Err(10));
    assert_eq!(read_in(&EXAMPLE, 5, 0), Err(10));
}

#[test]
fn no_sets() {
    for rows in [0, 1, 64] {
        assert_eq!(read_in(&[0xC000_0004], rows, 0), Ok(vec![]));
    }
    assert_eq!(read(&layout(&[(1, 0)]), 0), Err(13));
}

#[test]
fn number_12() {
    assert_eq!(read(&[], 5), Err(12));
    for rows in [65, 66, 1 << 31, u32::MAX] {
        assert_eq!(read(&EXAMPLE, rows), Err(12));
        assert_eq!(read(&[0xC000_0004], rows), Err(12));
    }
    // Kind, bits 17 to 5, width, number of sets.
    for header in [0x000C_0004, 0x400C_0004, 0x800C_0004] {
        assert_eq!(read(&changed(&[(0, header)]), 5), Err(12));
    }
    for bit in 5..=17 {
        assert_eq!(read(&changed(&[(0, EXAMPLE[0] | 1 << bit)]), 5), Err(12));
    }
    for width in (0..32).filter(|&width| width != 4) {
        let header = EXAMPLE[0] - 4 + width;
        assert_eq!(read(&changed(&[(0, header)]), 5), Err(12));
        assert_eq!(read(&[0xC000_0000 + width], 0), Err(12));
    }
    for sets in [0, 1, 2, 4, 1025, 4095] {
        assert_eq!(read(&changed(&[(0, 0xC000_0004 | sets << 18)]), 5), Err(12));
    }
    for length in 0..13 {
        assert_eq!(read(&EXAMPLE[..length], 5), Err(12));
    }
    let mut long = EXAMPLE.to_vec();
    long.push(0x8000_0001);
    assert_eq!(read(&long, 5), Err(12));
    assert_eq!(read(&layout(&largest_sets(1025)), 64), Err(12));
}

#[test]
fn number_13() {
    for (place, word) in EXAMPLE.into_iter().enumerate().skip(1) {
        for kind in (0..4).filter(|&kind| word >> 30 != kind) {
            let other = word & 0x3FFF_FFFF | kind << 30;
            assert_eq!(read(&changed(&[(place, other)]), 5), Err(13));
        }
    }
    for record in [1, 5, 9] {
        // Bits that mark no position of 64 rows.
        for bit in 4..30 {
            let word = 0x8000_0000 | 1 << bit;
            assert_eq!(read(&changed(&[(record + 2, word)]), 64), Err(13));
        }
        assert_eq!(read(&changed(&[(record, 0x8000_0000)]), 5), Err(13));
        for place in [1024, 1025, 0x3FFF_FFFF] {
            let word = 0x4000_0000 | place;
            assert_eq!(read(&changed(&[(record + 3, word)]), 5), Err(13));
        }
        assert!(read(&changed(&[(record + 3, 0x4000_03FF)]), 5).is_ok());
    }
}

#[test]
fn positions() {
    for position in 0..64 {
        let list = layout(&[(1 << position, 1023)]);
        for rows in 0..=64 {
            let wanted = if position < rows {
                Ok(vec![1, position, 1023])
            } else {
                Err(13)
            };
            assert_eq!(read(&list, rows), wanted);
        }
    }
}

#[test]
fn number_14() {
    let order = |sets: &[u64]| {
        let list: Vec<Entry> = sets.iter().map(|&set| (set, 0)).collect();
        read(&layout(&list), 64).err()
    };
    // {0, 1}, {0}, {1}: not the order of the marks as numbers.
    assert_eq!(order(&[3, 1, 2]), None);
    assert_eq!(order(&[1, 2, 3]), Some(14));
    assert_eq!(order(&[3, 2, 1]), Some(14));
    // Words further on decide where the first are the same.
    for shift in [29, 30, 59, 60, 62] {
        let (high, higher) = (1 | 1 << shift, 1 | 1 << (shift + 1));
        assert_eq!(order(&[high, higher, 1]), None);
        assert_eq!(order(&[higher, high]), Some(14));
        assert_eq!(order(&[1, higher]), Some(14));
        assert_eq!(order(&[high, higher, 2]), None);
        assert_eq!(order(&[2, high]), Some(14));
    }
    // The same set twice, whatever the row words.
    for other in [0, 1, 5] {
        assert_eq!(read(&layout(&[(6, 1), (6, other)]), 5), Err(14));
    }
}

#[test]
fn first_number_counts() {
    // An empty set and a set out of order, and 65 rows.
    let faulty = layout(&[(2, 0), (1, 0), (0, 0)]);
    assert_eq!(read_in(&faulty, 65, 0), Err(12));
    // Order is wrong before the record is.
    assert_eq!(read_in(&faulty, 5, 0), Err(13));
    assert_eq!(read_in(&layout(&[(2, 0), (1, 0)]), 5, 0), Err(14));
    assert_eq!(read_in(&layout(&[(2, 0)]), 5, 2), Err(10));
    // A fault of a record in a list of the wrong length.
    let mut list = faulty.clone();
    list.pop();
    assert_eq!(read(&list, 5), Err(12));
}

#[test]
fn largest() {
    let list = layout(&largest_sets(1024));
    assert_eq!(read_in(&list, 64, 65_602).unwrap().len(), 65_602);
    assert_eq!(read_in(&list, 64, 65_601), Err(10));
    assert_eq!(read(&list, 63), Err(13));
}

#[test]
fn made_by_complement_union() {
    let (first, second) = document_sets(&mut Rng::new(1), 0);
    let (mut table, mut sets) = (vec![0; MAX_TABLE_WORDS], vec![0; MAX_SET_WORDS]);
    let mut reference = Reference::new();
    let answer = reference.complement_union(&first.image(), &second.image(), &mut table, &mut sets);
    assert_eq!(answer.sets, 1024);
    let wanted: Vec<Entry> = reference.sets_found().collect();
    let words = read(&sets[..answer.set_words as usize], 20).unwrap();
    assert_eq!(entries(1024, &words), Some(wanted));
    assert_eq!(words.len(), 1024 * 12);
}

//! Seeded generator of set lists, sound or spoiled, and their layout.

use crate::generate::Rng;
use crate::{MAX_ROWS, MAX_SETS};
use std::collections::BTreeMap;

const HEADER: u32 = 3 << 30;
const MARKS: u32 = 2 << 30;
const PLACE: u32 = 1 << 30;
const LOW: u32 = PLACE - 1;

/// Row counts at the edges of the mark words.
const EDGES: [u32; 10] = [0, 1, 29, 30, 31, 59, 60, 61, 63, 64];
/// Row counts that no T has.
const TOO_MANY: [u32; 7] = [65, 65, 66, 90, 128, 1 << 31, u32::MAX];

/// A set list, the number of rows that it is read with, and the kind of input
/// that it was made as.
#[derive(Clone)]
pub struct List {
    pub kind: &'static str,
    pub words: Vec<u32>,
    pub rows: u32,
}

/// A set as bits, position 0 lowest, with the position of its joined row.
pub type Entry = (u64, u32);

/// The words of a list.
pub fn layout(entries: &[Entry]) -> Vec<u32> {
    let mut words = vec![HEADER | (entries.len() as u32) << 18 | 4];
    for &(set, place) in entries {
        words.extend((0..3).map(|i| MARKS | (set >> (30 * i)) as u32 & LOW));
        words.push(PLACE | place);
    }
    words
}

/// The entries that were read of a number of sets. None where the words do not
/// hold so many, or go on behind them.
pub fn entries(sets: u32, words: &[u32]) -> Option<Vec<Entry>> {
    let mut rest = words;
    let mut entries = Vec::new();
    for _ in 0..sets {
        let (&members, tail) = rest.split_first()?;
        let (positions, tail) = tail.split_at_checked(members as usize)?;
        let (&place, tail) = tail.split_first()?;
        let mut set = 0;
        for &position in positions {
            set |= 1u64.checked_shl(position)?;
        }
        entries.push((set, place));
        rest = tail;
    }
    rest.is_empty().then_some(entries)
}

/// A set of positions below `rows`, not empty.
fn any_set(rng: &mut Rng, rows: u32, style: usize) -> u64 {
    let all = u64::MAX >> (64 - rows);
    let one = |rng: &mut Rng| 1u64 << rng.below(rows as usize);
    let set = match style {
        0 => one(rng),
        1 => one(rng) | one(rng) | one(rng),
        2 => rng.next(),
        3 => rng.next() | rng.next() | rng.next(),
        4 => !(one(rng) | one(rng)),
        // Sets that differ in high positions alone.
        5 => !(u64::MAX >> 4) >> (64 - rows) & rng.next() | 1,
        // A run.
        _ => u64::MAX << rng.below(rows as usize) & u64::MAX >> rng.below(64),
    } & all;
    if set == 0 {
        one(rng)
    } else {
        set
    }
}

/// At most so many distinct sets, in set order, with positions of joined rows.
pub fn sets(rng: &mut Rng, rows: u32, most: usize) -> Vec<Entry> {
    let mut found = BTreeMap::new();
    let style = rng.below(8);
    let places = *rng.pick(&[1, 2, 40, MAX_SETS, MAX_SETS]);
    for _ in 0..if rows == 0 { 0 } else { 2 * most } {
        if found.len() == most {
            break;
        }
        let style = if style == 7 { rng.below(7) } else { style };
        let set = any_set(rng, rows, style);
        let place = if rng.chance(1, 8) {
            MAX_SETS - 1
        } else {
            rng.below(places)
        };
        // Position 0 in the highest bit, ones and zeros changed: set order is
        // the order of these numbers.
        found.insert(!set.reverse_bits(), (set, place as u32));
    }
    found.into_values().collect()
}

/// The largest sets of 64 rows, in set order: all, all but one, all but two.
pub fn largest_sets(count: usize) -> Vec<Entry> {
    let mut found = BTreeMap::new();
    for i in 0..=MAX_ROWS {
        for j in i..=MAX_ROWS {
            // `MAX_ROWS` leaves no row out.
            let gap = |k: usize| 1u64.checked_shl(k as u32).unwrap_or(0);
            let set = !(gap(i) | gap(j));
            found.insert((set.count_zeros(), !set.reverse_bits()), set);
        }
    }
    let mut chosen: Vec<u64> = found.into_values().take(count).collect();
    chosen.sort_unstable_by_key(|set| !set.reverse_bits());
    let place = |k: usize| (k % MAX_SETS) as u32;
    let numbered = chosen.into_iter().enumerate();
    numbered.map(|(k, set)| (set, place(k))).collect()
}

fn row_count(rng: &mut Rng) -> u32 {
    if rng.chance(1, 2) {
        *rng.pick(&EDGES)
    } else {
        rng.below(MAX_ROWS + 1) as u32
    }
}

/// A list that is accepted.
pub fn sound(rng: &mut Rng) -> List {
    if rng.chance(1, 512) {
        return List {
            kind: "largest sets",
            words: layout(&largest_sets(MAX_SETS)),
            rows: MAX_ROWS as u32,
        };
    }
    let rows = row_count(rng);
    let (kind, most) = match rng.below(64) {
        0 => ("1,024 sets", MAX_SETS),
        1 => ("about 1,000 sets", rng.between(900, MAX_SETS)),
        2..=9 => ("many sets", rng.between(0, 200)),
        10..=24 => ("some sets", rng.between(0, 40)),
        _ => ("few sets", rng.between(0, 5)),
    };
    let words = layout(&sets(rng, rows, most));
    List { kind, words, rows }
}

/// The greatest position that is marked, of those that a T can have.
fn greatest(words: &[u32]) -> Option<u32> {
    let positions = words[1..].chunks_exact(4).flat_map(|record| {
        (0..MAX_ROWS as u32).filter(|&p| record[p as usize / 30] >> (p % 30) & 1 == 1)
    });
    positions.max()
}

/// Makes the list fail check 12.
fn spoil_list(rng: &mut Rng, list: &mut List) {
    let words = &mut list.words;
    if words.is_empty() {
        return;
    }
    let sets = words[0] >> 18 & 0xFFF;
    match rng.below(10) {
        0 => list.rows = *rng.pick(&TOO_MANY),
        1 => words.clear(),
        2 => words[0] = words[0] & LOW | (rng.below(3) as u32) << 30,
        3 => words[0] |= 1 << rng.between(5, 17),
        4 => {
            let width = *rng.pick(&[0, 1, 2, 3, 5, 6, 8, 10, 16, 31]);
            words[0] = words[0] & !31 | width;
            if rng.chance(1, 2) {
                words.resize(1 + (width * sets) as usize, MARKS | 1);
            }
        }
        5 => {
            let other = match rng.below(4) {
                0 => sets + 1,
                1 => sets.max(1) - u32::from(sets > 0),
                2 => 4095,
                _ => rng.below(4096) as u32,
            };
            words[0] = words[0] & !(0xFFF << 18) | (other & 0xFFF) << 18;
            if other == sets {
                words.push(0);
            }
        }
        6 => {
            // Some sets too many, all of them in order.
            list.rows = MAX_ROWS as u32;
            let count = *rng.pick(&[1025, 1025, 1026, 1100]);
            *words = layout(&largest_sets(count));
        }
        7 => {
            words.pop();
        }
        8 => words.push(rng.word()),
        _ => {
            let more = *rng.pick(&[1, 2, 3, 4, 8]);
            words.extend(vec![MARKS | 1; more]);
        }
    }
}

/// Makes a record of the list fail check 13.
fn spoil_record(rng: &mut Rng, list: &mut List) {
    if list.words.len() < 5 {
        list.words = layout(&[(1, 0)]);
    }
    let count = (list.words.len() - 1) / 4;
    let record = match rng.below(4) {
        0 => 0,
        1 => count - 1,
        _ => rng.below(count),
    };
    let start = 1 + 4 * record;
    let rows = list.rows;
    let words = &mut list.words[start..start + 4];
    match rng.below(8) {
        0 => {
            let word = rng.pick(&[0, 1, 2]);
            words[*word] = words[*word] & LOW | *rng.pick(&[0, 1, 3]) << 30;
        }
        1 => words[3] = words[3] & LOW | *rng.pick(&[0, 2, 3]) << 30,
        2 => words[2] |= 1 << rng.between(4, 29),
        3 => words[..3].fill(MARKS),
        4 | 5 if rows < MAX_ROWS as u32 => {
            let position = if rng.chance(1, 2) {
                rows
            } else {
                rng.between(rows as usize, MAX_ROWS - 1) as u32
            };
            words[position as usize / 30] |= 1 << (position % 30);
        }
        6 => {
            // One row fewer than the greatest position wants.
            if let Some(position) = greatest(&list.words) {
                list.rows = position;
            }
        }
        _ => {
            let place = match rng.below(4) {
                0 | 1 => 1024,
                2 => LOW,
                _ => rng.between(1024, LOW as usize) as u32,
            };
            words[3] = PLACE | place;
        }
    }
}

/// Makes the list fail check 14.
fn spoil_order(rng: &mut Rng, list: &mut List) {
    let mut records: Vec<Vec<u32>> = list.words[1..]
        .chunks_exact(4)
        .map(<[u32]>::to_vec)
        .collect();
    if records.is_empty() {
        list.rows = list.rows.max(1);
        records.push(vec![MARKS | 1, MARKS, MARKS, PLACE]);
    }
    let k = rng.below(records.len());
    match rng.below(6) {
        // The same set again, with its row word or with another.
        choice @ 0..=2 => {
            let mut again = records[k].clone();
            if choice > 0 {
                again[3] = PLACE | (again[3] & LOW ^ 1);
            }
            let at = if choice == 2 { records.len() } else { k + 1 };
            records.insert(at, again);
            records.truncate(MAX_SETS);
        }
        3 => records.reverse(),
        4 => {
            let mut other = rng.below(records.len());
            if rng.chance(1, 2) {
                other = (k + 1) % records.len();
            }
            records.swap(k, other);
        }
        // As numbers.
        _ => records.sort_unstable_by_key(|record| (record[2], record[1], record[0])),
    }
    list.words = vec![HEADER | (records.len() as u32) << 18 | 4];
    list.words.extend(records.concat());
}

/// Makes the list fail a check, 12, 13 or 14, if it can; earlier checks may fail
/// with it.
pub fn spoil(rng: &mut Rng, list: &mut List, number: usize) {
    match number {
        12 => spoil_list(rng, list),
        13 => spoil_record(rng, list),
        _ => spoil_order(rng, list),
    }
}

/// Random words, some of them near to a list.
fn garbage(rng: &mut Rng) -> List {
    let sets = rng.below(4);
    let length = if rng.chance(3, 4) {
        1 + 4 * sets
    } else {
        rng.below(20)
    };
    let style = rng.below(3);
    let mut words: Vec<u32> = (0..length)
        .map(|place| match style {
            0 => rng.word(),
            1 => rng.word() & 0xC000_0003,
            _ if place % 4 == 0 => PLACE | rng.below(1030) as u32,
            _ => MARKS | rng.word() & rng.word() & 0xF,
        })
        .collect();
    if !words.is_empty() && rng.chance(3, 4) {
        words[0] = HEADER | (sets as u32) << 18 | 4;
    }
    List {
        kind: "garbage",
        words,
        rows: row_count(rng),
    }
}

/// A list of any kind: `base` or a new one, as it is in half of the cases,
/// otherwise spoiled in one way or in two.
pub fn any_list(rng: &mut Rng, base: Option<List>) -> List {
    let choice = rng.below(64);
    if choice == 0 {
        return garbage(rng);
    }
    let mut list = match base {
        Some(base) if rng.chance(1, 2) => base,
        _ => sound(rng),
    };
    if choice < 32 {
        let twice = choice < 14;
        list.kind = if twice { "two faults" } else { "one fault" };
        let mut numbers: Vec<usize> = (0..1 + usize::from(twice))
            .map(|_| rng.between(12, 14))
            .collect();
        // Later checks first, as the earlier ones may change the length.
        numbers.sort_unstable_by(|a, b| b.cmp(a));
        for number in numbers {
            spoil(rng, &mut list, number);
        }
    }
    list
}

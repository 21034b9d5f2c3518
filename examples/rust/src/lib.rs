//! Safe functions over the C interface of the fusion library. The images, the
//! set list, the page and the refusal numbers are described in include/fusion.h.

mod raw {
    extern "C" {
        pub fn fusion_outer_union(
            first: *const u32,
            first_len: usize,
            second: *const u32,
            second_len: usize,
            table: *mut u32,
            table_len: usize,
            answer: *mut u32,
            answer_len: usize,
        ) -> u32;

        pub fn fusion_minimum_union(
            first: *const u32,
            first_len: usize,
            second: *const u32,
            second_len: usize,
            table: *mut u32,
            table_len: usize,
            answer: *mut u32,
            answer_len: usize,
        ) -> u32;

        pub fn fusion_complement_union(
            first: *const u32,
            first_len: usize,
            second: *const u32,
            second_len: usize,
            table: *mut u32,
            table_len: usize,
            sets: *mut u32,
            sets_len: usize,
            answer: *mut u32,
            answer_len: usize,
        ) -> u32;

        pub fn fusion_read_set_list(
            list: *const u32,
            list_len: usize,
            rows: u32,
            words: *mut u32,
            words_len: usize,
            answer: *mut u32,
            answer_len: usize,
        ) -> u32;

        pub fn fusion_page(
            image: *const u32,
            image_len: usize,
            page: u32,
            bytes: *mut u8,
            bytes_len: usize,
            answer: *mut u32,
            answer_len: usize,
        ) -> u32;
    }
}

/// The mark of a column word.
pub const MARK: u32 = 0x2000_0000;
/// The cell of what is known to be none.
pub const NONE: u32 = 0x8000_0000;
/// Table words that are enough for every outer and every minimum union.
pub const UNION_WORDS: usize = 1 + 16 + 64 * 16;
/// Table words that are enough for every complement union.
pub const FUSED_WORDS: usize = 1 + 16 + 1024 * 16;
/// Set words that are enough for every complement union.
pub const SET_WORDS: usize = 1 + 4 * 1024;
/// Words that are enough for every set list that is read.
pub const READ_WORDS: usize = 1024 * (2 + 64);
/// Rows of the largest table that is put on a page.
pub const STORED_ROWS: usize = 1024;
/// Bytes of a page.
pub const PAGE_BYTES: usize = 4860;
/// Bytes of a line of a page: 80 characters and a byte 10.
pub const LINE_BYTES: usize = 81;

/// A refused call: it has changed no buffer.
#[derive(Clone, Copy, Debug, PartialEq, Eq)]
pub struct Refusal {
    /// 1 to 16.
    pub number: u32,
    /// 0 for the first or only table, 1 for the second, 2 for all numbers from 8.
    pub table: u32,
}

/// Counts of a written table.
#[derive(Clone, Copy, Debug, PartialEq, Eq)]
pub struct Written {
    pub rows: usize,
    pub words: usize,
    pub filled: usize,
}

/// Counts of a complement union.
#[derive(Clone, Copy, Debug, PartialEq, Eq)]
pub struct Fused {
    pub table: Written,
    pub sets: usize,
    pub set_words: usize,
}

/// Counts of a set list that was read.
#[derive(Clone, Copy, Debug, PartialEq, Eq)]
pub struct Read {
    pub sets: usize,
    pub words: usize,
}

type Words = [u32; 9];

fn written(answer: &Words) -> Written {
    Written {
        rows: answer[2] as usize,
        words: answer[3] as usize,
        filled: answer[4] as usize,
    }
}

fn refusal(answer: &Words) -> Refusal {
    Refusal {
        number: answer[0],
        table: answer[1],
    }
}

/// Writes the outer union of two images into `table`.
pub fn outer_union(first: &[u32], second: &[u32], table: &mut [u32]) -> Result<Written, Refusal> {
    let mut answer: Words = [0; 9];
    // SAFETY: pointers and lengths come from slices; the borrows keep the
    // written ones apart from all others.
    let number = unsafe {
        raw::fusion_outer_union(
            first.as_ptr(),
            first.len(),
            second.as_ptr(),
            second.len(),
            table.as_mut_ptr(),
            table.len(),
            answer.as_mut_ptr(),
            answer.len(),
        )
    };
    match number {
        0 => Ok(written(&answer)),
        _ => Err(refusal(&answer)),
    }
}

/// Writes the minimum union of two images into `table`. The second value is
/// the number of pairs of rows tried.
pub fn minimum_union(
    first: &[u32],
    second: &[u32],
    table: &mut [u32],
) -> Result<(Written, usize), Refusal> {
    let mut answer: Words = [0; 9];
    // SAFETY: as in `outer_union`.
    let number = unsafe {
        raw::fusion_minimum_union(
            first.as_ptr(),
            first.len(),
            second.as_ptr(),
            second.len(),
            table.as_mut_ptr(),
            table.len(),
            answer.as_mut_ptr(),
            answer.len(),
        )
    };
    match number {
        0 => Ok((written(&answer), answer[5] as usize)),
        _ => Err(refusal(&answer)),
    }
}

/// Writes the fused table of two images into `table` and the set list into
/// `sets`.
pub fn complement_union(
    first: &[u32],
    second: &[u32],
    table: &mut [u32],
    sets: &mut [u32],
) -> Result<Fused, Refusal> {
    let mut answer: Words = [0; 9];
    // SAFETY: as in `outer_union`.
    let number = unsafe {
        raw::fusion_complement_union(
            first.as_ptr(),
            first.len(),
            second.as_ptr(),
            second.len(),
            table.as_mut_ptr(),
            table.len(),
            sets.as_mut_ptr(),
            sets.len(),
            answer.as_mut_ptr(),
            answer.len(),
        )
    };
    match number {
        0 => Ok(Fused {
            table: written(&answer),
            sets: answer[6] as usize,
            set_words: answer[7] as usize,
        }),
        _ => Err(refusal(&answer)),
    }
}

/// Writes the members of each set of a list into `words`: how many they are,
/// their positions in a T of `rows` rows, and the position of the joined row.
pub fn read_set_list(list: &[u32], rows: u32, words: &mut [u32]) -> Result<Read, Refusal> {
    let mut answer: Words = [0; 9];
    // SAFETY: as in `outer_union`.
    let number = unsafe {
        raw::fusion_read_set_list(
            list.as_ptr(),
            list.len(),
            rows,
            words.as_mut_ptr(),
            words.len(),
            answer.as_mut_ptr(),
            answer.len(),
        )
    };
    match number {
        0 => Ok(Read {
            sets: answer[6] as usize,
            words: answer[3] as usize,
        }),
        _ => Err(refusal(&answer)),
    }
}

/// Writes a page of a table into the first `PAGE_BYTES` of `bytes` and returns
/// how many pages there are. Pages count from 0.
pub fn page(image: &[u32], page: u32, bytes: &mut [u8]) -> Result<usize, Refusal> {
    let mut answer: Words = [0; 9];
    // SAFETY: as in `outer_union`.
    let number = unsafe {
        raw::fusion_page(
            image.as_ptr(),
            image.len(),
            page,
            bytes.as_mut_ptr(),
            bytes.len(),
            answer.as_mut_ptr(),
            answer.len(),
        )
    };
    match number {
        0 => Ok(answer[8] as usize),
        _ => Err(refusal(&answer)),
    }
}

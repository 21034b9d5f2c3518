//! The product's C interface (include/fusion.h) and safe wrappers around it.

use crate::{Call, Pager, Reader, Unions};

mod raw {
    extern "C" {
        pub fn fusion_outer_union(
            first: *const u32,
            first_len: usize,
            second: *const u32,
            second_len: usize,
            table: *mut u32,
            table_len: usize,
            answer: *mut u32,
            answer_len: usize,
        ) -> u32;

        pub fn fusion_minimum_union(
            first: *const u32,
            first_len: usize,
            second: *const u32,
            second_len: usize,
            table: *mut u32,
            table_len: usize,
            answer: *mut u32,
            answer_len: usize,
        ) -> u32;

        pub fn fusion_complement_union(
            first: *const u32,
            first_len: usize,
            second: *const u32,
            second_len: usize,
            table: *mut u32,
            table_len: usize,
            sets: *mut u32,
            sets_len: usize,
            answer: *mut u32,
            answer_len: usize,
        ) -> u32;

        pub fn fusion_read_set_list(
            list: *const u32,
            list_len: usize,
            rows: u32,
            words: *mut u32,
            words_len: usize,
            answer: *mut u32,
            answer_len: usize,
        ) -> u32;

        pub fn fusion_page(
            image: *const u32,
            image_len: usize,
            page: u32,
            bytes: *mut u8,
            bytes_len: usize,
            answer: *mut u32,
            answer_len: usize,
        ) -> u32;
    }
}

/// Writes the outer union into `table` and returns the refusal number.
pub fn outer_union(first: &[u32], second: &[u32], table: &mut [u32], answer: &mut [u32]) -> u32 {
    // SAFETY: pointers and lengths come from slices; the borrows keep the
    // written ones apart from all others.
    unsafe {
        raw::fusion_outer_union(
            first.as_ptr(),
            first.len(),
            second.as_ptr(),
            second.len(),
            table.as_mut_ptr(),
            table.len(),
            answer.as_mut_ptr(),
            answer.len(),
        )
    }
}

/// Writes the minimum union into `table` and returns the refusal number.
pub fn minimum_union(first: &[u32], second: &[u32], table: &mut [u32], answer: &mut [u32]) -> u32 {
    // SAFETY: as in `outer_union`.
    unsafe {
        raw::fusion_minimum_union(
            first.as_ptr(),
            first.len(),
            second.as_ptr(),
            second.len(),
            table.as_mut_ptr(),
            table.len(),
            answer.as_mut_ptr(),
            answer.len(),
        )
    }
}

/// Writes the fused table into `table` and the set list into `sets` and
/// returns the refusal number.
pub fn complement_union(
    first: &[u32],
    second: &[u32],
    table: &mut [u32],
    sets: &mut [u32],
    answer: &mut [u32],
) -> u32 {
    // SAFETY: as in `outer_union`.
    unsafe {
        raw::fusion_complement_union(
            first.as_ptr(),
            first.len(),
            second.as_ptr(),
            second.len(),
            table.as_mut_ptr(),
            table.len(),
            sets.as_mut_ptr(),
            sets.len(),
            answer.as_mut_ptr(),
            answer.len(),
        )
    }
}

/// Writes the members of each set of a list into `words` and returns the
/// refusal number.
pub fn read_set_list(list: &[u32], rows: u32, words: &mut [u32], answer: &mut [u32]) -> u32 {
    // SAFETY: as in `outer_union`.
    unsafe {
        raw::fusion_read_set_list(
            list.as_ptr(),
            list.len(),
            rows,
            words.as_mut_ptr(),
            words.len(),
            answer.as_mut_ptr(),
            answer.len(),
        )
    }
}

/// Writes a page of a table into `bytes` and returns the refusal number.
pub fn page(image: &[u32], page: u32, bytes: &mut [u8], answer: &mut [u32]) -> u32 {
    // SAFETY: as in `outer_union`.
    unsafe {
        raw::fusion_page(
            image.as_ptr(),
            image.len(),
            page,
            bytes.as_mut_ptr(),
            bytes.len(),
            answer.as_mut_ptr(),
            answer.len(),
        )
    }
}

/// The product behind the common interface.
pub struct Product;

impl Unions for Product {
    fn run(
        &mut self,
        call: Call,
        first: &[u32],
        second: &[u32],
        table: &mut [u32],
        sets: &mut [u32],
        answer: &mut [u32],
    ) -> u32 {
        match call {
            Call::Outer => outer_union(first, second, table, answer),
            Call::Minimum => minimum_union(first, second, table, answer),
            Call::Complement => complement_union(first, second, table, sets, answer),
        }
    }
}

impl Reader for Product {
    fn read(&mut self, list: &[u32], rows: u32, words: &mut [u32], answer: &mut [u32]) -> u32 {
        read_set_list(list, rows, words, answer)
    }
}

impl Pager for Product {
    fn page(&mut self, image: &[u32], number: u32, bytes: &mut [u8], answer: &mut [u32]) -> u32 {
        page(image, number, bytes, answer)
    }
}

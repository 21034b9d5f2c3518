//! Comparison implementations, input generator and C interface for the fusion
//! library. Everything here is written from document 01 and the requests
//! after it, not from the product's code.

pub mod count;
#[cfg(feature = "product")]
pub mod ffi;
pub mod generate;
pub mod lists;
pub mod naive;
pub mod pages;
pub mod reference;
pub mod stored;
pub mod workloads;

/// Largest number of columns of a source table and of a union.
pub const MAX_COLUMNS: usize = 16;
/// Largest number of rows of a source table.
pub const MAX_SOURCE_ROWS: usize = 32;
/// Largest number of rows of T.
pub const MAX_ROWS: usize = 2 * MAX_SOURCE_ROWS;
/// Largest number of maximal complementing sets that is not refused.
pub const MAX_SETS: usize = 1024;
/// Largest number of rows of a stored table: no result has more.
pub const MAX_STORED_ROWS: usize = MAX_SETS;
/// Words of the largest fused table.
pub const MAX_TABLE_WORDS: usize = 1 + MAX_COLUMNS + MAX_SETS * MAX_COLUMNS;
/// Words of the largest set list.
pub const MAX_SET_WORDS: usize = 1 + 4 * MAX_SETS;
/// Words that are enough for every set list that is read.
pub const MAX_READ_WORDS: usize = MAX_SETS * (2 + MAX_ROWS);
/// Lines of a page.
pub const PAGE_LINES: usize = 60;
/// Bytes of a line: 80 characters and a byte 10.
pub const LINE_BYTES: usize = 81;
/// Bytes of a page.
pub const PAGE_BYTES: usize = PAGE_LINES * LINE_BYTES;
/// Words of an answer.
pub const ANSWER_WORDS: usize = 9;

/// The answer of a call. Fields without a value for the call are 0.
#[derive(Clone, Copy, Debug, Default, PartialEq, Eq)]
pub struct Answer {
    /// Refusal number, 0 for done.
    pub number: u32,
    /// Refused table: 0 first, 1 second, 2 for all numbers from 8.
    pub table: u32,
    pub rows: u32,
    pub words: u32,
    pub filled: u32,
    pub pairs: u32,
    pub sets: u32,
    pub set_words: u32,
    pub pages: u32,
}

impl Answer {
    pub fn refused(number: u32, table: u32) -> Answer {
        Answer {
            number,
            table,
            ..Answer::default()
        }
    }

    pub fn to_words(self) -> [u32; ANSWER_WORDS] {
        [
            self.number,
            self.table,
            self.rows,
            self.words,
            self.filled,
            self.pairs,
            self.sets,
            self.set_words,
            self.pages,
        ]
    }

    /// Writes as many of the nine words as fit and returns the number.
    pub fn give(self, out: &mut [u32]) -> u32 {
        for (place, word) in out.iter_mut().zip(self.to_words()) {
            *place = word;
        }
        self.number
    }
}

/// The three unions.
#[derive(Clone, Copy, Debug, PartialEq, Eq)]
pub enum Call {
    Outer,
    Minimum,
    Complement,
}

impl Call {
    pub const ALL: [Call; 3] = [Call::Outer, Call::Minimum, Call::Complement];

    pub fn name(self) -> &'static str {
        match self {
            Call::Outer => "outer union",
            Call::Minimum => "minimum union",
            Call::Complement => "complement union",
        }
    }
}

/// An implementation of the three unions. `run` writes the answer words that
/// fit into `answer` and returns the refusal number. Outer union and minimum
/// union leave `sets` alone.
pub trait Unions {
    fn run(
        &mut self,
        call: Call,
        first: &[u32],
        second: &[u32],
        table: &mut [u32],
        sets: &mut [u32],
        answer: &mut [u32],
    ) -> u32;
}

/// An implementation of the reader of set lists, for a T of `rows` rows. `read`
/// writes the answer words that fit into `answer` and returns the refusal
/// number.
pub trait Reader {
    fn read(&mut self, list: &[u32], rows: u32, words: &mut [u32], answer: &mut [u32]) -> u32;
}

/// The name of the reader beside those of the unions.
pub const READ_NAME: &str = "read set list";

/// An implementation of the page that shows a part of a stored table. `page`
/// writes the answer words that fit into `answer` and returns the refusal
/// number.
pub trait Pager {
    fn page(&mut self, image: &[u32], page: u32, bytes: &mut [u8], answer: &mut [u32]) -> u32;
}

/// The name of the page beside those of the other calls.
pub const PAGE_NAME: &str = "page";

/// An implementation of all calls.
pub trait Library: Unions + Reader + Pager {}

impl<T: Unions + Reader + Pager> Library for T {}

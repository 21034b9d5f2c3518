//! Differential test: differential SEED COUNT [FIRST_CASE]
//!
//! Runs the three calls on generated inputs with the reference, with the
//! product (feature `product`) and, on a part of the inputs, with the brute
//! force implementation, and compares the answers and every word of every
//! buffer, the words around the lent buffers too. Marks are put on half of
//! the pairs, and none into cells of a third. For accepted pairs it also runs
//! complement union on another pair with the same union columns, marks and T.
//! Each case also reads a generated set list, sound in half of the cases, and
//! the list that complement union made, if it was done: this has to give the
//! sets, and what is read of any accepted list, written again by document 01's
//! layout, has to be the list.
//! Each case also asks for a page of a generated table, sound in most of the
//! cases, or of complement union's, and now and then for all pages of a table:
//! read back, these have to be the table.
//! Each case also makes the minimum union of three generated images in either
//! grouping, where the words written by one call go into the next: if all four
//! calls are done, both groupings have to give the same, pairs tried excepted,
//! and the result with itself has to be that result.
//!
//! At the first difference it prints the whole input as hexadecimal words and
//! bytes and exits with status 1. At the end it prints one line with the number
//! of calls by outcome; "7/1" is refusal number 7 for table 1. It also tells how
//! many accepted pairs had a marked union, how many of these would have other
//! sets without their marks, and in how many of those some rows still
//! complement; how many had a union with none in it, how many of these would
//! have another number of sets with empty cells or with number 0 in its place;
//! how many pages show none; and of the three images how often all four calls
//! were done, in how many of these the first one left out a row, in how many
//! the groupings tried other numbers of pairs, how often a result with itself
//! was done, and how often the first result had too many rows for the next call.

#[cfg(feature = "product")]
use fusion_bench::ffi::Product;
use fusion_bench::generate::{self, Pair, Rng, Table, Triple};
use fusion_bench::lists::{self, Entry, List};
use fusion_bench::naive::{Naive, SUBSET_ROWS};
use fusion_bench::pages;
use fusion_bench::reference::Reference;
use fusion_bench::stored::{self, Stored};
use fusion_bench::{Answer, Call, Pager, Reader, Unions, ANSWER_WORDS, MAX_SOURCE_ROWS};
use fusion_bench::{MAX_READ_WORDS, MAX_SET_WORDS, MAX_TABLE_WORDS, PAGE_BYTES};
use fusion_bench::{PAGE_NAME, READ_NAME};
use std::collections::BTreeMap;
use std::env;
use std::fmt::LowerHex;
use std::process::exit;

/// Words or bytes before and after a lent buffer, which no call may change. An
/// odd number, so that lent bytes start at an odd address.
const GUARD: usize = 9;

/// A lent buffer of words or bytes between guards.
#[derive(Clone, PartialEq)]
struct Lent<T> {
    all: Vec<T>,
}

impl Lent<u32> {
    fn words(rng: &mut Rng, length: usize) -> Lent<u32> {
        let mut all = vec![0; length + 2 * GUARD];
        generate::fill(rng, &mut all);
        Lent { all }
    }
}

impl Lent<u8> {
    fn bytes(rng: &mut Rng, length: usize) -> Lent<u8> {
        let mut all = vec![0; length + 2 * GUARD];
        generate::fill_bytes(rng, &mut all);
        Lent { all }
    }
}

impl<T> Lent<T> {
    /// The part that is lent.
    fn part(&mut self) -> &mut [T] {
        let end = self.all.len() - GUARD;
        &mut self.all[GUARD..end]
    }
}

/// All that a call can change.
#[derive(Clone, PartialEq)]
struct State {
    number: u32,
    table: Lent<u32>,
    sets: Lent<u32>,
    answer: Lent<u32>,
}

impl State {
    fn new(rng: &mut Rng, table: usize, sets: usize, answer: usize) -> State {
        State {
            number: !0,
            table: Lent::words(rng, table),
            sets: Lent::words(rng, sets),
            answer: Lent::words(rng, answer),
        }
    }

    fn run(&mut self, unions: &mut dyn Unions, call: Call, first: &[u32], second: &[u32]) {
        self.number = unions.run(
            call,
            first,
            second,
            self.table.part(),
            self.sets.part(),
            self.answer.part(),
        );
    }
}

/// All that the reader can change.
#[derive(Clone, PartialEq)]
struct ReadState {
    number: u32,
    words: Lent<u32>,
    answer: Lent<u32>,
}

impl ReadState {
    fn new(rng: &mut Rng, length: usize, answer: usize) -> ReadState {
        ReadState {
            number: !0,
            words: Lent::words(rng, length),
            answer: Lent::words(rng, answer),
        }
    }

    fn read(&mut self, reader: &mut dyn Reader, list: &[u32], rows: u32) {
        self.number = reader.read(list, rows, self.words.part(), self.answer.part());
    }
}

/// All that the page can change.
#[derive(Clone, PartialEq)]
struct PageState {
    number: u32,
    bytes: Lent<u8>,
    answer: Lent<u32>,
}

impl PageState {
    fn new(rng: &mut Rng, length: usize, answer: usize) -> PageState {
        PageState {
            number: !0,
            bytes: Lent::bytes(rng, length),
            answer: Lent::words(rng, answer),
        }
    }

    fn page(&mut self, pager: &mut dyn Pager, image: &[u32], page: u32) {
        self.number = pager.page(image, page, self.bytes.part(), self.answer.part());
    }
}

/// Where a case can be found again.
#[derive(Clone, Copy)]
struct Place {
    seed: u64,
    case: u64,
}

impl Place {
    /// The first line about a difference.
    fn title(self, name: &str, call: &str, kind: &str) {
        let Place { seed, case } = self;
        println!("difference: {name}, {call}, seed {seed} case {case} ({kind})");
    }

    /// The last line about it.
    fn again(self) -> ! {
        println!("again: differential {} 1 {}", self.seed, self.case);
        exit(1);
    }
}

struct Differential {
    reference: Reference,
    #[cfg(feature = "product")]
    product: Product,
    /// Buffers for finding out how many words a result takes.
    table: Vec<u32>,
    sets: Vec<u32>,
    outcomes: BTreeMap<(u32, u32), u64>,
    calls: u64,
    naive_calls: u64,
    twins: u64,
    most_sets: u32,
    most_rows: u32,
    at_limit: u64,
    rows_left_out: u64,
    shared_joined: u64,
    /// Accepted pairs with a marked union; of these the ones with other sets
    /// than without marks; of those the ones with a set of two rows or more.
    marked: u64,
    marks_matter: u64,
    marked_joins: u64,
    /// Accepted pairs with none in their union; of these the ones with another
    /// number of sets if it were empty, and if it were number 0.
    none: u64,
    none_not_empty: u64,
    none_not_zero: u64,
    /// Buffer for finding out how many words a list takes.
    words: Vec<u32>,
    read_outcomes: BTreeMap<u32, u64>,
    made_lists: u64,
    most_words: u32,
    page_outcomes: BTreeMap<u32, u64>,
    none_pages: u64,
    made_tables: u64,
    most_pages: u32,
    whole_tables: u64,
    /// Three images; of these the ones with all four minimum unions done; of
    /// those the ones in which the first one left out a row, in which the
    /// groupings tried other numbers of pairs, and whose result with itself was
    /// done.
    triples: u64,
    grouped: u64,
    left_out_early: u64,
    other_pairs: u64,
    with_itself: u64,
    /// Three images of which the first two have too many rows for the next call.
    no_input: u64,
}

/// A minimum union that is done: its answer and the words written.
type Done = (Answer, Vec<u32>);

/// Whether two minimum unions gave the same, pairs tried excepted.
fn same(one: &Done, other: &Done) -> bool {
    let counts = |answer: &Answer| (answer.rows, answer.words, answer.filled);
    counts(&one.0) == counts(&other.0) && one.1 == other.1
}

/// Prints words or bytes, each with all its digits.
fn print_all<T: LowerHex>(name: &str, list: &[T]) {
    let digits = 2 * size_of::<T>();
    print!("{name} ({} of {} bytes):", list.len(), size_of::<T>());
    for word in list {
        print!(" {word:0digits$x}");
    }
    println!();
}

/// Prints the answers and the numbers that two implementations gave.
fn print_answers(numbers: [u32; 2], expected: &mut Lent<u32>, found: &mut Lent<u32>) {
    println!("expected result {}", numbers[0]);
    println!("found result    {}", numbers[1]);
    print_all("expected answer", expected.part());
    print_all("found answer   ", found.part());
    print_difference("answer", expected, found);
}

/// Prints where two buffers differ first.
fn print_difference<T: LowerHex + PartialEq>(name: &str, expected: &Lent<T>, found: &Lent<T>) {
    let digits = 2 * size_of::<T>();
    let mut both = expected.all.iter().zip(&found.all);
    if let Some(place) = both.position(|(a, b)| a != b) {
        println!(
            "{name}: at {} is {:0digits$x}, expected {:0digits$x}",
            place as i64 - GUARD as i64,
            found.all[place],
            expected.all[place]
        );
    }
}

/// One call with all its inputs.
struct Input<'a> {
    place: Place,
    call: Call,
    pair: &'a Pair,
    before: &'a State,
}

impl Input<'_> {
    /// Compares the states after two implementations ran; does not return if
    /// they differ.
    fn compare(&self, name: &str, expected: &State, found: &State) {
        if expected == found {
            return;
        }
        let mut before = self.before.clone();
        let (mut wanted, mut given) = (expected.clone(), found.clone());
        self.place.title(name, self.call.name(), self.pair.kind);
        print_all("first", &self.pair.first);
        print_all("second", &self.pair.second);
        print_all("table before", before.table.part());
        print_all("sets before", before.sets.part());
        print_all("answer before", before.answer.part());
        let numbers = [expected.number, found.number];
        print_answers(numbers, &mut wanted.answer, &mut given.answer);
        print_difference("table", &expected.table, &found.table);
        print_difference("sets", &expected.sets, &found.sets);
        self.place.again();
    }
}

/// One call of the reader with all its inputs.
struct ReadInput<'a> {
    place: Place,
    list: &'a List,
    before: &'a ReadState,
}

impl ReadInput<'_> {
    fn print(&self, name: &str) {
        self.place.title(name, READ_NAME, self.list.kind);
        print_all("list", &self.list.words);
        println!("rows {}", self.list.rows);
    }

    /// Compares the states after two implementations ran; does not return if
    /// they differ.
    fn compare(&self, name: &str, expected: &ReadState, found: &ReadState) {
        if expected == found {
            return;
        }
        let mut before = self.before.clone();
        let (mut wanted, mut given) = (expected.clone(), found.clone());
        self.print(name);
        print_all("words before", before.words.part());
        print_all("answer before", before.answer.part());
        let numbers = [expected.number, found.number];
        print_answers(numbers, &mut wanted.answer, &mut given.answer);
        print_difference("words", &expected.words, &found.words);
        self.place.again();
    }

    /// What was read has to be these entries, and the list again in document
    /// 01's layout; does not return if it is not.
    fn check_entries(&self, sets: u32, words: &[u32], wanted: Option<&[Entry]>) {
        let entries = lists::entries(sets, words);
        let same = match &entries {
            Some(entries) => {
                lists::layout(entries) == self.list.words
                    && wanted.is_none_or(|wanted| wanted == entries)
            }
            None => false,
        };
        if !same {
            self.print("not the sets of the list");
            print_all("words", words);
            self.place.again();
        }
    }
}

/// One call of the page with all its inputs.
struct PageInput<'a> {
    place: Place,
    stored: &'a Stored,
    before: &'a PageState,
}

impl PageInput<'_> {
    /// Compares the states after two implementations ran; does not return if
    /// they differ.
    fn compare(&self, name: &str, expected: &PageState, found: &PageState) {
        if expected == found {
            return;
        }
        let mut before = self.before.clone();
        let (mut wanted, mut given) = (expected.clone(), found.clone());
        self.place.title(name, PAGE_NAME, self.stored.kind);
        print_all("image", &self.stored.image);
        println!("page {}", self.stored.page);
        print_all("bytes before", before.bytes.part());
        print_all("answer before", before.answer.part());
        let numbers = [expected.number, found.number];
        print_answers(numbers, &mut wanted.answer, &mut given.answer);
        print_difference("bytes", &expected.bytes, &found.bytes);
        self.place.again();
    }
}

impl Differential {
    fn new() -> Differential {
        Differential {
            reference: Reference::new(),
            #[cfg(feature = "product")]
            product: Product,
            table: vec![0; MAX_TABLE_WORDS],
            sets: vec![0; MAX_SET_WORDS],
            outcomes: BTreeMap::new(),
            calls: 0,
            naive_calls: 0,
            twins: 0,
            most_sets: 0,
            most_rows: 0,
            at_limit: 0,
            rows_left_out: 0,
            shared_joined: 0,
            marked: 0,
            marks_matter: 0,
            marked_joins: 0,
            none: 0,
            none_not_empty: 0,
            none_not_zero: 0,
            words: vec![0; MAX_READ_WORDS],
            read_outcomes: BTreeMap::new(),
            made_lists: 0,
            most_words: 0,
            page_outcomes: BTreeMap::new(),
            none_pages: 0,
            made_tables: 0,
            most_pages: 0,
            whole_tables: 0,
            triples: 0,
            grouped: 0,
            left_out_early: 0,
            other_pairs: 0,
            with_itself: 0,
            no_input: 0,
        }
    }

    /// The answer with buffers that are long enough for every result.
    fn full_answer(&mut self, call: Call, pair: &Pair) -> Answer {
        let (first, second) = (&pair.first, &pair.second);
        match call {
            Call::Outer => self.reference.outer_union(first, second, &mut self.table),
            Call::Minimum => self.reference.minimum_union(first, second, &mut self.table),
            Call::Complement => {
                self.reference
                    .complement_union(first, second, &mut self.table, &mut self.sets)
            }
        }
    }

    /// Answer and set list of complement union, and whether rows complement.
    fn full_sets(&mut self, pair: &Pair) -> (Answer, Vec<u32>, bool) {
        let answer = self.full_answer(Call::Complement, pair);
        let list = self.sets[..answer.set_words as usize].to_vec();
        let mut sets = self.reference.sets_found();
        let joins = answer.number == 0 && sets.any(|(set, _)| set.count_ones() > 1);
        (answer, list, joins)
    }

    /// Counts an accepted pair with a marked union.
    fn count_marked(&mut self, pair: &Pair) {
        let (answer, list, joins) = self.full_sets(pair);
        let (plain_answer, plain_list, _) = self.full_sets(&generate::unmarked(pair));
        let matter = answer != plain_answer || list != plain_list;
        self.marked += 1;
        self.marks_matter += u64::from(matter);
        self.marked_joins += u64::from(matter && joins);
    }

    /// Counts an accepted pair with none in its union.
    fn count_none(&mut self, pair: &Pair) {
        let mut count = |pair: &Pair| {
            let answer = self.full_answer(Call::Complement, pair);
            (answer.number, answer.sets)
        };
        let counted = count(pair);
        let [empty, zero] =
            [0, generate::cell(0)].map(|word| count(&generate::without_none(pair, word)));
        self.none += 1;
        self.none_not_empty += u64::from(empty != counted);
        self.none_not_zero += u64::from(zero != counted);
    }

    /// Runs one call with all implementations. Returns the state afterwards.
    fn compare_call(&mut self, input: &Input, check_naive: bool) -> State {
        let call = input.call;
        // Exactly as long as the image, so that a memory checker sees reads
        // past the end.
        let first = input.pair.first.clone().into_boxed_slice();
        let second = input.pair.second.clone().into_boxed_slice();
        let mut expected = input.before.clone();
        expected.run(&mut self.reference, call, &first, &second);
        #[cfg(feature = "product")]
        {
            let mut found = input.before.clone();
            found.run(&mut self.product, call, &first, &second);
            input.compare("product", &expected, &found);
            if first[..] != input.pair.first[..] || second[..] != input.pair.second[..] {
                println!("the product changed an image");
                input.compare("product", &expected, input.before);
            }
        }
        if check_naive {
            self.naive_calls += 1;
            let mut found = input.before.clone();
            found.run(&mut Naive::default(), call, &first, &second);
            input.compare("brute force", &expected, &found);
        }
        expected
    }

    /// Reads a list with all implementations. Returns the state afterwards.
    fn compare_read(&mut self, input: &ReadInput, check_naive: bool) -> ReadState {
        let (list, rows) = (input.list.words.clone().into_boxed_slice(), input.list.rows);
        let mut expected = input.before.clone();
        expected.read(&mut self.reference, &list, rows);
        #[cfg(feature = "product")]
        {
            let mut found = input.before.clone();
            found.read(&mut self.product, &list, rows);
            input.compare("product", &expected, &found);
            if list[..] != input.list.words[..] {
                println!("the product changed the list");
                input.compare("product", &expected, input.before);
            }
        }
        if check_naive {
            self.naive_calls += 1;
            let mut found = input.before.clone();
            found.read(&mut Naive::default(), &list, rows);
            input.compare("brute force", &expected, &found);
        }
        expected
    }

    /// The reader's answer with a buffer that is long enough for every list.
    fn full_read(&mut self, list: &List) -> Answer {
        fusion_bench::reference::read_set_list(&list.words, list.rows, &mut self.words)
    }

    /// Reads a generated list. `made` is one of complement union.
    fn list_case(&mut self, rng: &mut Rng, place: Place, made: Option<List>) {
        let list = lists::any_list(rng, made);
        let full = self.full_read(&list);
        let length = generate::buffer_length(rng, full.words as usize);
        let answer = generate::answer_length(rng);
        let before = ReadState::new(rng, length, answer);
        let input = ReadInput {
            place,
            list: &list,
            before: &before,
        };
        let check_naive = list.words.len() < 200 || rng.chance(1, 8);
        let mut after = self.compare_read(&input, check_naive);
        *self.read_outcomes.entry(after.number).or_insert(0) += 1;
        if after.number == 0 {
            self.most_words = self.most_words.max(full.words);
            let written = &after.words.part()[..full.words as usize];
            input.check_entries(full.sets, written, None);
        }
    }

    /// Reads the list that complement union made of sets, with a buffer that is
    /// long enough.
    fn made_case(&mut self, rng: &mut Rng, place: Place, list: &List, sets: &[Entry]) {
        self.made_lists += 1;
        let full = self.full_read(list);
        let extra = rng.below(4);
        let before = ReadState::new(rng, full.words as usize + extra, ANSWER_WORDS);
        let input = ReadInput {
            place,
            list,
            before: &before,
        };
        let mut after = self.compare_read(&input, rng.chance(1, 8));
        let answer = after.answer.part().to_vec();
        let written = &after.words.part()[..answer[3] as usize];
        if after.number != 0 {
            input.print("a list of complement union is refused");
            input.place.again();
        }
        input.check_entries(answer[6], written, Some(sets));
    }

    /// Writes a page with all implementations. Returns the state afterwards.
    fn compare_page(&mut self, input: &PageInput, check_naive: bool) -> PageState {
        let (image, page) = (&input.stored.image, input.stored.page);
        let lent = image.clone().into_boxed_slice();
        let mut expected = input.before.clone();
        expected.page(&mut self.reference, &lent, page);
        #[cfg(feature = "product")]
        {
            let mut found = input.before.clone();
            found.page(&mut self.product, &lent, page);
            input.compare("product", &expected, &found);
            if lent[..] != image[..] {
                println!("the product changed the image");
                input.compare("product", &expected, input.before);
            }
        }
        if check_naive {
            self.naive_calls += 1;
            let mut found = input.before.clone();
            found.page(&mut Naive::default(), &lent, page);
            input.compare("brute force", &expected, &found);
        }
        expected
    }

    /// Asks for a page of a generated table. `made` is one of complement union.
    fn page_case(&mut self, rng: &mut Rng, place: Place, made: Option<Vec<u32>>) {
        let stored = stored::any_stored(rng, made.clone());
        self.made_tables += u64::from(made.as_ref() == Some(&stored.image));
        let length = stored::byte_length(rng);
        let answer = generate::answer_length(rng);
        let before = PageState::new(rng, length, answer);
        let input = PageInput {
            place,
            stored: &stored,
            before: &before,
        };
        // The brute force writes all pages.
        let check_naive = stored.image.len() < 400 || rng.chance(1, 16);
        let mut after = self.compare_page(&input, check_naive);
        *self.page_outcomes.entry(after.number).or_insert(0) += 1;
        if after.number == 0 {
            let shown = &after.bytes.part()[..PAGE_BYTES];
            self.none_pages += u64::from(shown.windows(4).any(|text| text == b"none"));
        }
    }

    /// Asks for all pages of a table, and reads it back.
    fn whole_case(&mut self, rng: &mut Rng, place: Place) {
        let mut stored = Stored {
            kind: "all pages",
            image: stored::sound(rng),
            page: 0,
        };
        let mut texts = Vec::new();
        loop {
            let before = PageState::new(rng, PAGE_BYTES, ANSWER_WORDS);
            let input = PageInput {
                place,
                stored: &stored,
                before: &before,
            };
            let mut after = self.compare_page(&input, false);
            let pages = after.answer.part()[8];
            texts.push(after.bytes.part().to_vec());
            stored.page += 1;
            if stored.page >= pages {
                self.most_pages = self.most_pages.max(pages);
                break;
            }
        }
        self.whole_tables += 1;
        if pages::read_back(&texts) != Some(Table::from_image(&stored.image)) {
            place.title("not the table of the image", PAGE_NAME, stored.kind);
            print_all("image", &stored.image);
            place.again();
        }
    }

    /// Runs minimum union on two of a triple's images, or on what such a call
    /// wrote, with all implementations and a buffer that is long enough.
    fn minimum(
        &mut self,
        rng: &mut Rng,
        place: Place,
        kind: &'static str,
        [first, second]: [&[u32]; 2],
    ) -> Option<Done> {
        let pair = Pair {
            kind,
            first: first.to_vec(),
            second: second.to_vec(),
        };
        let full = self.full_answer(Call::Minimum, &pair);
        let (table, sets) = (full.words as usize + rng.below(4), rng.below(4));
        let before = State::new(rng, table, sets, ANSWER_WORDS);
        let input = Input {
            place,
            call: Call::Minimum,
            pair: &pair,
            before: &before,
        };
        let mut after = self.compare_call(&input, rng.chance(1, 8));
        let written = &after.table.part()[..full.words as usize];
        (full.number == 0).then(|| (full, written.to_vec()))
    }

    /// Unites three images in either grouping, and the result with itself.
    fn triple_case(&mut self, rng: &mut Rng, place: Place) {
        let Triple { kind, images } = generate::any_triple(rng);
        let [x, y, z] = images.each_ref().map(Vec::as_slice);
        let mut unite = |first, second| self.minimum(rng, place, kind, [first, second]);
        let (xy, yz) = (unite(x, y), unite(y, z));
        let left = xy.as_ref().and_then(|(_, xy)| unite(xy, z));
        let right = yz.as_ref().and_then(|(_, yz)| unite(x, yz));
        self.triples += 1;
        let rows = xy.map_or(0, |(answer, _)| answer.rows);
        self.no_input += u64::from(rows > MAX_SOURCE_ROWS as u32);
        let (Some(left), Some(right)) = (left, right) else {
            return;
        };
        let again = self.minimum(rng, place, kind, [&left.1, &left.1]);
        self.grouped += 1;
        let all_rows = self.reference.outer_union(x, y, &mut self.table).rows;
        self.left_out_early += u64::from(rows < all_rows);
        self.other_pairs += u64::from(left.0.pairs != right.0.pairs);
        self.with_itself += u64::from(again.is_some());

        let stays = match &again {
            Some(again) => same(again, &left),
            None => left.0.rows > MAX_SOURCE_ROWS as u32,
        };
        if !same(&left, &right) || !stays {
            let name = "either grouping, or the result with itself";
            place.title(name, Call::Minimum.name(), kind);
            print_all("first", x);
            print_all("second", y);
            print_all("third", z);
            print_all("first two and third", &left.1);
            print_all("first and last two ", &right.1);
            let again = again.map_or(Vec::new(), |(_, words)| words);
            print_all("result with itself ", &again);
            place.again();
        }
    }

    fn case(&mut self, seed: u64, case: u64) {
        let mut rng = Rng::for_case(seed, case);
        let place = Place { seed, case };
        let (mut made, mut fused) = (None, None);
        let pair = generate::any_pair(&mut rng);
        let union = self.full_answer(Call::Outer, &pair);
        let union_image = self.table[..union.words as usize].to_vec();
        for call in Call::ALL {
            let full = self.full_answer(call, &pair);
            let table = generate::buffer_length(&mut rng, full.words as usize);
            let sets = generate::buffer_length(&mut rng, full.set_words as usize);
            let answer = generate::answer_length(&mut rng);
            let before = State::new(&mut rng, table, sets, answer);
            let input = Input {
                place,
                call,
                pair: &pair,
                before: &before,
            };
            let small = union.rows as usize <= SUBSET_ROWS;
            let check_naive = if small && union.rows > 8 {
                rng.chance(1, 4)
            } else if small {
                true
            } else {
                rng.chance(1, 32)
            };
            let after = self.compare_call(&input, check_naive);

            let outcome = if after.number == 0 {
                Answer::default()
            } else if full.number == 0 {
                Answer::refused(after.number, 2)
            } else {
                full
            };
            self.calls += 1;
            *self
                .outcomes
                .entry((outcome.number, outcome.table))
                .or_insert(0) += 1;
            if after.number == 0 {
                self.most_sets = self.most_sets.max(full.sets);
                self.at_limit += u64::from(full.sets == 1024);
                self.most_rows = self.most_rows.max(union.rows);
                if call == Call::Minimum {
                    self.rows_left_out += u64::from(full.rows < union.rows);
                }
                self.shared_joined += u64::from(call == Call::Complement && full.rows < full.sets);
            }

            let accepted = full.number == 0 || full.number == 9;
            if call == Call::Complement && accepted && generate::is_marked(&union_image) {
                self.count_marked(&pair);
            }
            if call == Call::Complement && accepted && generate::has_none(&union_image) {
                self.count_none(&pair);
            }
            if call == Call::Complement && accepted && rng.chance(1, 4) {
                self.twins += 1;
                let twin = generate::twin(&mut rng, &union_image);
                let input = Input {
                    pair: &twin,
                    ..input
                };
                let again = self.compare_call(&input, false);
                input.compare("pair with the same T", &after, &again);
            }
            if call == Call::Complement && full.number == 0 {
                made = Some(self.made_list(&pair, union.rows));
                fused = Some(self.table[..full.words as usize].to_vec());
            }
        }
        let made = made.map(|(list, sets)| {
            self.made_case(&mut rng, place, &list, &sets);
            list
        });
        self.list_case(&mut rng, place, made);
        self.page_case(&mut rng, place, fused);
        if rng.chance(1, 64) {
            self.whole_case(&mut rng, place);
        }
        self.triple_case(&mut rng, place);
    }

    /// The list that complement union makes of an accepted pair, and the sets
    /// that the reference made it of.
    fn made_list(&mut self, pair: &Pair, rows: u32) -> (List, Vec<Entry>) {
        let answer = self.full_answer(Call::Complement, pair);
        let list = List {
            kind: "made by complement union",
            words: self.sets[..answer.set_words as usize].to_vec(),
            rows,
        };
        (list, self.reference.sets_found().collect())
    }

    fn report(&self, cases: u64) {
        let mut outcomes: Vec<String> = Vec::new();
        let mut missing = Vec::new();
        let mut expect = vec![(0, 0)];
        expect.extend((1..=7).flat_map(|number| [(number, 0), (number, 1)]));
        expect.extend((8..=11).map(|number| (number, 2)));
        for (number, table) in expect {
            let name = match number {
                0 => "done".to_string(),
                _ => format!("{number}/{table}"),
            };
            match self.outcomes.get(&(number, table)) {
                Some(count) => outcomes.push(format!("{name} {count}")),
                None => missing.push(name),
            }
        }
        let mut by_number = |outcomes: &BTreeMap<u32, u64>, numbers: &[u32], call: &str| {
            let mut texts = Vec::new();
            for number in numbers {
                let name = match number {
                    0 => "done".to_string(),
                    _ => number.to_string(),
                };
                match outcomes.get(number) {
                    Some(count) => texts.push(format!("{name} {count}")),
                    None => missing.push(format!("{name} of the {call}")),
                }
            }
            texts.join(", ")
        };
        let read_outcomes = by_number(&self.read_outcomes, &[0, 12, 13, 14, 10], "reader");
        let numbers = [0, 1, 2, 3, 4, 5, 6, 7, 15, 16];
        let page_outcomes = by_number(&self.page_outcomes, &numbers, "page");
        let counts = [
            (self.marked, "marked union"),
            (self.marks_matter, "other sets by marks"),
            (self.marked_joins, "rows joined by marks"),
            (self.none, "union with none"),
            (self.none_not_empty, "other sets than with empty for none"),
            (self.none_not_zero, "other sets than with 0 for none"),
            (self.none_pages, "page with none"),
            (self.left_out_early, "row left out before the third image"),
            (self.other_pairs, "other pairs tried in the other grouping"),
            (self.with_itself, "result with itself"),
            (self.no_input, "too many rows after the first union"),
        ];
        for (count, name) in counts {
            if count == 0 {
                missing.push(name.to_string());
            }
        }
        let compared = if cfg!(feature = "product") {
            "product and reference equal"
        } else {
            "brute force and reference equal"
        };
        println!(
            "{compared}: {cases} cases, {} calls ({}); {} by brute force, {} pairs with the same T, \
             T up to {} rows, sets up to {}, 1,024 sets {}, subsumed rows {}, shared joined rows {}; \
             marked unions {}, {} with other sets than unmarked, {} of them with rows joined; \
             unions with none {}, {} with more or fewer sets if it were empty, {} if it were 0; \
             set lists read: {} ({}), up to {} words, {} of complement union; \
             pages: {} ({}), {} with none, {} of complement union's tables, \
             {} tables of up to {} pages read back; \
             three images: {}, {} with all four unions done, of these {} with a row left out early, \
             {} with other pairs tried, {} with the result united with itself; \
             {} with too many rows after the first union{}",
            self.calls,
            outcomes.join(", "),
            self.naive_calls,
            self.twins,
            self.most_rows,
            self.most_sets,
            self.at_limit,
            self.rows_left_out,
            self.shared_joined,
            self.marked,
            self.marks_matter,
            self.marked_joins,
            self.none,
            self.none_not_empty,
            self.none_not_zero,
            self.read_outcomes.values().sum::<u64>(),
            read_outcomes,
            self.most_words,
            self.made_lists,
            self.page_outcomes.values().sum::<u64>(),
            page_outcomes,
            self.none_pages,
            self.made_tables,
            self.whole_tables,
            self.most_pages,
            self.triples,
            self.grouped,
            self.left_out_early,
            self.other_pairs,
            self.with_itself,
            self.no_input,
            if missing.is_empty() {
                String::new()
            } else {
                format!("; NOT HIT: {}", missing.join(", "))
            }
        );
    }
}

fn main() {
    let mut numbers = env::args().skip(1).map(|argument| {
        argument.parse::<u64>().unwrap_or_else(|_| {
            eprintln!("usage: differential SEED COUNT [FIRST_CASE]");
            exit(2);
        })
    });
    let seed = numbers.next().unwrap_or(1);
    let count = numbers.next().unwrap_or(100_000);
    let start = numbers.next().unwrap_or(0);
    let mut differential = Differential::new();
    for case in start..start + count {
        differential.case(seed, case);
    }
    differential.report(count);
}

//! Benchmark: time per call of the reference and, with the feature `product`,
//! of the product, as markdown tables.
//!
//! Each line is one workload of eight inputs that the calls go through in
//! turn, with buffers that are long enough for every result. A batch is as
//! many rounds over the inputs as take about two milliseconds. Batches of the
//! two implementations alternate; the figure is the median of the batches.
//! Time is the thread's processor time, so that other work on the machine
//! counts less.

#[cfg(feature = "product")]
use fusion_bench::ffi::Product;
use fusion_bench::generate::Pair;
use fusion_bench::lists::List;
use fusion_bench::reference::Reference;
use fusion_bench::stored::Stored;
use fusion_bench::workloads::{growth_with_rows, growth_with_sets, pagings, readings, workloads};
use fusion_bench::workloads::{Paging, Reading, Workload};
use fusion_bench::{Call, Library, ANSWER_WORDS, PAGE_NAME, READ_NAME};
use fusion_bench::{MAX_READ_WORDS, MAX_SET_WORDS, MAX_TABLE_WORDS, PAGE_BYTES};
use std::hint::black_box;

const BATCHES: usize = 21;
/// Nanoseconds that a batch should take.
const BATCH_TIME: u64 = 2_000_000;

/// Processor time of this thread in nanoseconds.
#[cfg(target_os = "linux")]
fn now() -> u64 {
    #[repr(C)]
    struct Timespec {
        seconds: i64,
        nanoseconds: i64,
    }
    extern "C" {
        fn clock_gettime(clock: i32, time: *mut Timespec) -> i32;
    }
    const CLOCK_THREAD_CPUTIME_ID: i32 = 3;
    let mut time = Timespec {
        seconds: 0,
        nanoseconds: 0,
    };
    // SAFETY: the structure is the C library's on 64-bit Linux.
    let result = unsafe { clock_gettime(CLOCK_THREAD_CPUTIME_ID, &mut time) };
    assert_eq!(result, 0);
    time.seconds as u64 * 1_000_000_000 + time.nanoseconds as u64
}

/// Wall time where the thread's processor time is not at hand.
#[cfg(not(target_os = "linux"))]
fn now() -> u64 {
    use std::sync::OnceLock;
    use std::time::Instant;
    static START: OnceLock<Instant> = OnceLock::new();
    START.get_or_init(Instant::now).elapsed().as_nanos() as u64
}

/// A call and the inputs that it goes through in turn.
#[derive(Clone, Copy)]
enum Work<'a> {
    Union(Call, &'a [Pair]),
    Read(&'a [List]),
    Page(&'a [Stored]),
}

impl Work<'_> {
    fn name(self) -> &'static str {
        match self {
            Work::Union(call, _) => call.name(),
            Work::Read(_) => READ_NAME,
            Work::Page(_) => PAGE_NAME,
        }
    }

    fn inputs(self) -> usize {
        match self {
            Work::Union(_, pairs) => pairs.len(),
            Work::Read(lists) => lists.len(),
            Work::Page(tables) => tables.len(),
        }
    }
}

/// One implementation with its buffers and its times.
struct Lane {
    library: Box<dyn Library>,
    table: Vec<u32>,
    sets: Vec<u32>,
    words: Vec<u32>,
    bytes: Vec<u8>,
    answer: [u32; ANSWER_WORDS],
    rounds: u32,
    times: Vec<f64>,
}

impl Lane {
    fn new(library: Box<dyn Library>) -> Lane {
        Lane {
            library,
            table: vec![0; MAX_TABLE_WORDS],
            sets: vec![0; MAX_SET_WORDS],
            words: vec![0; MAX_READ_WORDS],
            bytes: vec![0; PAGE_BYTES],
            answer: [0; ANSWER_WORDS],
            rounds: 1,
            times: Vec::new(),
        }
    }

    /// Makes the call on one input.
    #[inline(always)]
    fn call(&mut self, work: Work, input: usize) -> u32 {
        match work {
            Work::Union(call, pairs) => self.library.run(
                call,
                black_box(&pairs[input].first),
                black_box(&pairs[input].second),
                &mut self.table,
                &mut self.sets,
                &mut self.answer,
            ),
            Work::Read(lists) => self.library.read(
                black_box(&lists[input].words),
                lists[input].rows,
                &mut self.words,
                &mut self.answer,
            ),
            Work::Page(tables) => self.library.page(
                black_box(&tables[input].image),
                tables[input].page,
                &mut self.bytes,
                &mut self.answer,
            ),
        }
    }

    /// Nanoseconds of a number of rounds over the inputs.
    fn time(&mut self, work: Work, rounds: u32) -> u64 {
        let start = now();
        for _ in 0..rounds {
            for input in 0..work.inputs() {
                black_box(self.call(work, input));
                black_box((&self.table, &self.sets, &self.words, &self.bytes));
                black_box(&self.answer);
            }
        }
        now() - start
    }

    /// Warms up and finds the rounds of a batch.
    fn calibrate(&mut self, work: Work) {
        self.times.clear();
        self.rounds = 1;
        while self.time(work, self.rounds) < BATCH_TIME {
            self.rounds *= 2;
        }
    }

    /// Runs one input and gives the answer and the words and bytes written.
    fn run(&mut self, work: Work, input: usize) -> (&[u32], &[u32], &[u32], &[u8]) {
        self.call(work, input);
        let (words, set_words) = (self.answer[3] as usize, self.answer[7] as usize);
        let written = match work {
            Work::Union(..) => &self.table[..words],
            Work::Read(_) => &self.words[..words],
            Work::Page(_) => &[],
        };
        (&self.answer, written, &self.sets[..set_words], &self.bytes)
    }

    fn batch(&mut self, work: Work) {
        let time = self.time(work, self.rounds);
        let calls = f64::from(self.rounds) * work.inputs() as f64;
        self.times.push(time as f64 / calls);
    }

    fn median(&mut self) -> f64 {
        self.times.sort_unstable_by(f64::total_cmp);
        self.times[self.times.len() / 2]
    }
}

/// Stops the program where the lanes differ: their times would say nothing.
fn compare(lanes: &mut [Lane], name: &str, work: Work) {
    let (first, others) = lanes.split_first_mut().unwrap();
    for input in 0..work.inputs() {
        let expected = first.run(work, input);
        for other in others.iter_mut() {
            assert!(other.run(work, input) == expected, "'{name}': they differ");
        }
    }
}

/// Medians of the lanes, in nanoseconds per call.
fn measure(lanes: &mut [Lane], work: Work) -> Vec<f64> {
    for lane in lanes.iter_mut() {
        lane.calibrate(work);
    }
    for batch in 0..BATCHES {
        let turn = batch % lanes.len();
        lanes.rotate_left(turn);
        for lane in lanes.iter_mut() {
            lane.batch(work);
        }
        lanes.rotate_right(turn);
    }
    lanes.iter_mut().map(Lane::median).collect()
}

/// Sets found by complement union, over the inputs: "3", "2 to 5" or "refused".
fn sets(workload: &Workload) -> String {
    let mut reference = Reference::new();
    let (mut table, mut sets) = (vec![0; MAX_TABLE_WORDS], vec![0; MAX_SET_WORDS]);
    let (mut least, mut most, mut refused) = (u32::MAX, 0, 0);
    for pair in &workload.pairs {
        let answer = reference.complement_union(&pair.first, &pair.second, &mut table, &mut sets);
        if answer.number != 0 {
            refused += 1;
        } else {
            least = least.min(answer.sets);
            most = most.max(answer.sets);
        }
    }
    match refused {
        0 if least == most => least.to_string(),
        0 => format!("{least} to {most}"),
        _ if refused == workload.pairs.len() => "refused".to_string(),
        _ => format!("{least} to {most}, {refused} refused"),
    }
}

/// The line of one call on one workload.
fn line(lanes: &mut [Lane], name: &str, sets: &str, work: Work, bar: Option<f64>) {
    compare(lanes, name, work);
    let medians = measure(lanes, work);
    print!("| {name} | {sets} | {} | {:.0} |", work.name(), medians[0]);
    if let [reference, product] = medians[..] {
        let bar = bar.map_or("-".to_string(), |bar| bar.to_string());
        print!(" {product:.0} | {:.3} | {bar} |", product / reference);
    }
    println!();
}

/// The head of a table, whose second column counts sets or pages.
fn head(title: &str, counted: &str, lanes: &[Lane]) {
    println!("\n### {title}\n");
    print!("| workload | {counted} | call | reference ns |");
    if lanes.len() == 2 {
        println!(" product ns | product / reference | bar |");
        println!("|---|---|---|---:|---:|---:|---:|");
    } else {
        println!();
        println!("|---|---|---|---:|");
    }
}

fn table(title: &str, lanes: &mut [Lane], workloads: &[Workload], calls: &[Call]) {
    head(title, "sets", lanes);
    for workload in workloads {
        workload.check();
        let (name, sets) = (&workload.name, sets(workload));
        for &call in calls {
            let work = Work::Union(call, &workload.pairs);
            line(lanes, name, &sets, work, workload.bar_of(call));
        }
    }
}

fn reading_table(title: &str, lanes: &mut [Lane], readings: &[Reading]) {
    head(title, "sets", lanes);
    for reading in readings {
        let (sets, _) = reading.check();
        let work = Work::Read(&reading.lists);
        line(
            lanes,
            &reading.name,
            &sets.to_string(),
            work,
            Some(reading.bar),
        );
    }
}

fn paging_table(title: &str, lanes: &mut [Lane], pagings: &[Paging]) {
    head(title, "pages", lanes);
    for paging in pagings {
        let pages = paging.check().to_string();
        let work = Work::Page(&paging.tables);
        line(lanes, &paging.name, &pages, work, Some(paging.bar));
    }
}

fn main() {
    // With an argument, only the workloads whose names hold it.
    let part = std::env::args().nth(1).unwrap_or_default();
    let chosen = |mut list: Vec<Workload>| {
        list.retain(|workload| workload.name.contains(&part));
        list
    };
    let mut lanes = vec![
        Lane::new(Box::new(Reference::new())),
        #[cfg(feature = "product")]
        Lane::new(Box::new(Product)),
    ];
    println!("Median of {BATCHES} batches, nanoseconds per call.");
    for (title, list, calls) in [
        ("Workloads", workloads(), &Call::ALL[..]),
        ("Growth with the rows", growth_with_rows(), &Call::ALL),
        (
            "Growth with the sets",
            growth_with_sets(),
            &[Call::Complement],
        ),
    ] {
        table(title, &mut lanes, &chosen(list), calls);
    }
    let mut list = readings();
    list.retain(|reading| reading.name.contains(&part));
    reading_table("Set lists read", &mut lanes, &list);
    let mut list = pagings();
    list.retain(|paging| paging.name.contains(&part));
    paging_table("Tables on a page", &mut lanes, &list);
}

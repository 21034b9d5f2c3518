//! Stack measurement: the deepest byte of stack that each call writes on the
//! benchmark's workloads.
//!
//! Method: a region of 64 MiB is filled with a pattern. For each call the
//! stack pointer is set to the top of the region, the call is made there and
//! the stack pointer is set back. Then the region is searched from its low end
//! for the first word that is no longer the pattern; the distance from there
//! to the top is the stack that the call used, to a word of eight bytes. It
//! takes in the small frames between the switch and the call, which the line
//! "empty call" shows on their own. Stack that a function reserves but neither
//! it nor anything it calls writes is not seen. The buffers and images are on
//! the heap. x86-64 only, as the product's archive is.

#[cfg(not(target_arch = "x86_64"))]
compile_error!("the stack measurement switches stacks with x86-64 instructions");

#[cfg(feature = "product")]
use fusion_bench::ffi::Product;
use fusion_bench::generate::Pair;
use fusion_bench::lists::List;
use fusion_bench::reference::Reference;
use fusion_bench::stored::Stored;
use fusion_bench::workloads::{growth_with_rows, growth_with_sets, pagings, readings, workloads};
use fusion_bench::{Call, Library, Pager, Reader, Unions, PAGE_NAME, READ_NAME};
use fusion_bench::{MAX_READ_WORDS, MAX_SET_WORDS, MAX_TABLE_WORDS, PAGE_BYTES};
use std::arch::asm;
use std::hint::black_box;

const REGION_BYTES: usize = 64 << 20;
const PATTERN: u64 = 0xC3A5_5A3C_96E1_1E69;
/// Inputs of each workload that are run.
const VARIANTS: usize = 3;

/// A call that does nothing.
struct Empty;

impl Unions for Empty {
    #[inline(never)]
    fn run(
        &mut self,
        call: Call,
        first: &[u32],
        second: &[u32],
        table: &mut [u32],
        sets: &mut [u32],
        answer: &mut [u32],
    ) -> u32 {
        black_box((call, first, second, table, sets, answer));
        0
    }
}

impl Reader for Empty {
    #[inline(never)]
    fn read(&mut self, list: &[u32], rows: u32, words: &mut [u32], answer: &mut [u32]) -> u32 {
        black_box((list, rows, words, answer));
        0
    }
}

impl Pager for Empty {
    #[inline(never)]
    fn page(&mut self, image: &[u32], page: u32, bytes: &mut [u8], answer: &mut [u32]) -> u32 {
        black_box((image, page, bytes, answer));
        0
    }
}

/// A call with its input.
#[derive(Clone, Copy)]
enum Input<'a> {
    Union(Call, &'a Pair),
    Read(&'a List),
    Page(&'a Stored),
}

/// The lent buffers.
struct Buffers {
    table: Vec<u32>,
    sets: Vec<u32>,
    words: Vec<u32>,
    bytes: Vec<u8>,
    answer: Vec<u32>,
}

/// What is run on the painted stack.
struct Task<'a> {
    library: &'a mut dyn Library,
    input: Input<'a>,
    buffers: &'a mut Buffers,
}

extern "C" fn run_task(task: *mut Task) {
    // SAFETY: `on_region` passes a task that outlives the call.
    let task = unsafe { &mut *task };
    let lent = &mut *task.buffers;
    match task.input {
        Input::Union(call, pair) => task.library.run(
            call,
            &pair.first,
            &pair.second,
            &mut lent.table,
            &mut lent.sets,
            &mut lent.answer,
        ),
        Input::Read(list) => {
            let (words, answer) = (&mut lent.words, &mut lent.answer);
            task.library.read(&list.words, list.rows, words, answer)
        }
        Input::Page(table) => {
            let (bytes, answer) = (&mut lent.bytes, &mut lent.answer);
            task.library.page(&table.image, table.page, bytes, answer)
        }
    };
}

/// Runs the task with its stack at the end of the region.
fn on_region(region: &mut [u64], task: &mut Task) {
    let top = region.as_mut_ptr_range().end as usize & !63;
    // SAFETY: the region is written by nothing else; the stack pointer is kept
    // in a register that the called function preserves, and set back.
    unsafe {
        asm!(
            "mov r12, rsp",
            "mov rsp, {top}",
            "call {function}",
            "mov rsp, r12",
            top = in(reg) top,
            function = in(reg) run_task as extern "C" fn(*mut Task),
            in("rdi") task as *mut Task,
            out("r12") _,
            clobber_abi("C"),
        );
    }
}

/// Bytes of stack used by the task; the region is painted again afterwards.
fn measure(region: &mut [u64], task: &mut Task) -> usize {
    on_region(region, task);
    let region = black_box(region);
    // Whole pages of the pattern first: this is quicker.
    let page = |words: &[u64]| words.iter().fold(0, |all, word| all | word ^ PATTERN) == 0;
    let pages = region.chunks(512).take_while(|words| page(words)).count();
    let lowest = region
        .iter()
        .skip(512 * pages)
        .position(|&word| word != PATTERN)
        .map_or(region.len(), |place| 512 * pages + place);
    assert!(lowest > 512, "the region is too small for this call");
    let used = &mut region[lowest..];
    used.fill(PATTERN);
    used.len() * 8
}

fn main() {
    let mut region = vec![PATTERN; REGION_BYTES / 8];
    let mut buffers = Buffers {
        table: vec![0; MAX_TABLE_WORDS],
        sets: vec![0; MAX_SET_WORDS],
        words: vec![0; MAX_READ_WORDS],
        bytes: vec![0; PAGE_BYTES],
        answer: vec![0; fusion_bench::ANSWER_WORDS],
    };
    let mut lanes: Vec<(&str, Box<dyn Library>)> = vec![
        ("empty call", Box::new(Empty)),
        ("reference", Box::new(Reference::new())),
        #[cfg(feature = "product")]
        ("product", Box::new(Product)),
    ];
    let mut unions = workloads();
    unions.extend(growth_with_rows());
    unions.extend(growth_with_sets());
    let (reads, shown) = (readings(), pagings());
    // For each call its inputs, with the names of their workloads.
    let mut calls: Vec<(&str, Vec<(&str, Input)>)> = Vec::new();
    for call in Call::ALL {
        let inputs = unions.iter().flat_map(|workload| {
            let pairs = workload.pairs.iter().take(VARIANTS);
            pairs.map(move |pair| (&workload.name[..], Input::Union(call, pair)))
        });
        calls.push((call.name(), inputs.collect()));
    }
    let inputs = reads.iter().flat_map(|reading| {
        let lists = reading.lists.iter().take(VARIANTS);
        lists.map(|list| (&reading.name[..], Input::Read(list)))
    });
    calls.push((READ_NAME, inputs.collect()));
    let inputs = shown.iter().flat_map(|paging| {
        let tables = paging.tables.iter().take(VARIANTS);
        tables.map(|table| (&paging.name[..], Input::Page(table)))
    });
    calls.push((PAGE_NAME, inputs.collect()));

    println!("| implementation | call | deepest stack, bytes | on workload |");
    println!("|---|---|---:|---|");
    for (name, library) in &mut lanes {
        for (call, inputs) in &calls {
            let mut deepest = 0;
            let mut worst = "";
            for &(workload, input) in inputs {
                let mut task = Task {
                    library: &mut **library,
                    input,
                    buffers: &mut buffers,
                };
                let bytes = measure(&mut region, &mut task);
                if bytes > deepest {
                    deepest = bytes;
                    worst = workload;
                }
            }
            println!("| {name} | {call} | {deepest} | {worst} |");
        }
    }
}

//! How much of the stack the steps of a workload take for each level of a chain.
use crate::marks;
use crate::names::Names;
use crate::ours;
use std::hint::black_box;
use std::sync::Mutex;
use std::sync::atomic::{AtomicUsize, Ordering};
use std::thread;

/// Bytes of the thread's stack, and of those next to its two ends that are not painted.
const STACK: usize = 256 << 20;
const END: usize = 1 << 20;
const NEAR: usize = 8 << 10;

/// What the free stack is painted with.
const PAINT: u64 = 0xa5a5_5a5a_c3c3_3c3c;

/// Where the painted part begins; 0 if no stack is measured.
static LOWEST: AtomicUsize = AtomicUsize::new(0);

/// How deep each step went, in bytes below the place where it began.
static DEPTHS: Mutex<Vec<usize>> = Mutex::new(Vec::new());

/// Levels of the two chains that are compared.
const LEVELS: [usize; 2] = [2_000, 4_000];

/// A thread's usual stack in bytes.
const USUAL: usize = 8 << 20;

// The least address that is no longer painted.
fn reached(from: usize, to: usize) -> usize {
    // The stack is the thread's own down to LOWEST, and nothing lives so far below the running frame.
    let is_painted = |at: &usize| unsafe { (*at as *const u64).read_volatile() == PAINT };
    (from..to)
        .step_by(8)
        .find(|at| !is_painted(at))
        .unwrap_or(to)
}

fn paint(from: usize, to: usize) {
    for at in (from..to).step_by(8) {
        // As above.
        unsafe { (at as *mut u64).write_volatile(PAINT) };
    }
}

/// A step has ended: keeps how deep it went, and paints what it used. With 0 a step begins.
#[inline(never)]
pub fn mark(step: u32) {
    let lowest = LOWEST.load(Ordering::Relaxed);
    if lowest == 0 {
        return;
    }
    let here = black_box(0u64);
    let near = (&raw const here as usize - NEAR) & !7;
    let deepest = reached(lowest, near);
    if step > 0 {
        DEPTHS.lock().unwrap().push(near - deepest);
    }
    paint(deepest, near);
}

// How deep the steps of a workload went, in a thread of its own.
fn depths(workload: impl FnOnce() -> u64 + Send + 'static) -> Vec<usize> {
    let measure = move || {
        let here = black_box(0u64);
        let top = &raw const here as usize & !7;
        paint(top - STACK + END, top - NEAR);
        LOWEST.store(top - STACK + END, Ordering::Relaxed);
        assert_ne!(workload(), 0, "the workload is refused");
        LOWEST.store(0, Ordering::Relaxed);
        marks::take();
        std::mem::take(&mut *DEPTHS.lock().unwrap())
    };
    let thread = thread::Builder::new().stack_size(STACK).spawn(measure);
    thread.unwrap().join().unwrap()
}

fn print_rows(calls: &[&str], workload: impl Fn(usize) -> u64 + Clone + Send + 'static) {
    let [few, many] = LEVELS.map(|levels| {
        let workload = workload.clone();
        depths(move || workload(levels))
    });
    for (at, call) in calls.iter().enumerate() {
        let bytes = many[at].saturating_sub(few[at]) / (LEVELS[1] - LEVELS[0]);
        let levels = match bytes {
            0 => "any".into(),
            bytes => (USUAL / bytes).to_string(),
        };
        println!("| {call} | {bytes} | {levels} |");
    }
}

const CALLS: &[&str] = &[
    "`enter` and a visitor in each",
    "`finish`",
    "`write`",
    "`clone`",
    "`add` of a graph with the same paths",
    "`rows`",
    "`total_at`, and so `get` and `size_at`",
    "`outline`",
    "`table`",
    "`by_last_key`",
    "the end of a graph",
];

/// Prints what each call takes.
pub fn print_table(names: &Names) {
    println!("\n| call | bytes of the stack for each level | levels in 8 MiB |\n|---|---:|---:|");
    let deep = names.clone();
    print_rows(CALLS, move |levels| ours::deep(&deep, levels));
    let linked = names.clone();
    let links = &["the visit of a chain of links, a link"];
    print_rows(links, move |levels| ours::links(&linked, levels));
    let compared = names.clone();
    print_rows(&["`compare`"], move |levels| ours::chains(&compared, levels));
}

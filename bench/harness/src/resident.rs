//! How much a process grows by a container, beside the bytes that the container owns.
use crate::names::Names;
use crate::ours;
use std::process::Command;
use std::sync::Mutex;
use std::sync::atomic::{AtomicBool, Ordering};
use std::{env, fs};

/// The kinds of containers, with what they hold.
const CONTAINERS: [(u32, &str); 3] = [
    (2, "pairs in a `HashMap`"),
    (3, "pairs in a `BTreeMap`"),
    (4, "texts of 9 letters in a `Vec`"),
];

/// Between the two, buffers and hash tables double.
const COUNTS: [usize; 2] = [1_000_000, 1_200_000];

/// Whether this process measures its memory, and what it had as the last step began.
static IS_MEASURED: AtomicBool = AtomicBool::new(false);
static SEEN: Mutex<[usize; 2]> = Mutex::new([0; 2]);

// The bytes that are resident, and the most that ever were.
fn bytes() -> [usize; 2] {
    let status = fs::read_to_string("/proc/self/status").unwrap();
    ["VmRSS:", "VmHWM:"].map(|word| {
        let mut lines = status.lines();
        let figure = lines.find_map(|line| line.strip_prefix(word)).unwrap();
        let kilobytes: usize = figure.trim_end_matches("kB").trim().parse().unwrap();
        1024 * kilobytes
    })
}

/// A step begins, if its number is 0. What it handles is in memory then.
pub fn mark(step: u32) {
    if step == 0 && IS_MEASURED.load(Ordering::Relaxed) {
        *SEEN.lock().unwrap() = bytes();
    }
}

/// Makes a container in this process, and prints how much that takes.
pub fn print_row(container: usize, count: usize) {
    let (kind, name) = CONTAINERS[container];
    IS_MEASURED.store(true, Ordering::Relaxed);
    let [before, _] = bytes();
    let owned = ours::sizes(&Names::new(0), 0, kind, count) as f64;
    let [grown, most] = SEEN.lock().unwrap().map(|seen| (seen - before) as f64);
    let [owned_mb, grown_mb, most_mb] = [owned, grown, most].map(|bytes| bytes / 1e6);
    let (factor, peak) = (grown / owned, most / owned);
    println!(
        "| {count} {name} | {owned_mb:.1} | {grown_mb:.1} | {factor:.2} | {most_mb:.1} | {peak:.2} |"
    );
}

/// Each container is made in a process of its own, with the usual settings of the C library.
pub fn print_table() {
    println!(
        "\n| what | owned (MB) | resident (MB) | factor | peak (MB) | factor |\n|---|---:|---:|---:|---:|---:|"
    );
    for container in 0..CONTAINERS.len() {
        for count in COUNTS {
            let mut process = Command::new(env::current_exe().unwrap());
            process.args(["resident", &container.to_string(), &count.to_string()]);
            let ended = process.env_remove("GLIBC_TUNABLES").status().unwrap();
            assert!(ended.success(), "a container is made");
        }
    }
}

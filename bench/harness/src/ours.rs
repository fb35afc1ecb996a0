//! The workloads on the proved crates, in the static library.
use crate::names::{Names, WIDTH};

macro_rules! workloads {
    ($($name:ident = $symbol:ident($($argument:ident: $kind:ty),*);)*) => {
        unsafe extern "C" {
            $(fn $symbol(texts: *const u8, length: usize, width: usize, $($argument: $kind),*) -> u64;)*
        }

        $(pub fn $name(names: &Names, $($argument: $kind),*) -> u64 {
            let texts = names.texts();
            // The texts stand for good, and are ASCII.
            unsafe { $symbol(texts.as_ptr(), texts.len(), WIDTH, $($argument),*) }
        })*
    };
}

workloads! {
    cube = bench_cube(side: usize);
    wide = bench_wide(count: usize, order: u32);
    at_once = bench_at_once(count: usize, order: u32);
    interleaving = bench_interleaving(count: usize);
    few = bench_few(count: usize);
    few_paths = bench_few_paths(rounds: usize);
    tree = bench_tree(side: usize);
    chain = bench_chain(depth: usize);
    deep = bench_deep(depth: usize);
    shared = bench_shared(pointers: usize, identities: usize);
    wide_entries = bench_wide_entries(count: usize, order: u32);
    compare = bench_compare(side: usize);
}

macro_rules! values {
    ($($name:ident = $symbol:ident($($argument:ident: $kind:ty),*);)*) => {
        unsafe extern "C" {
            $(fn $symbol($($argument: $kind),*) -> u64;)*
        }

        $(pub fn $name(_: &Names, $($argument: $kind),*) -> u64 {
            unsafe { $symbol($($argument),*) }
        })*
    };
}

values! {
    records = bench_records(count: usize, is_counted: bool);
    map = bench_map(count: usize, is_counted: bool);
    lists = bench_lists(count: usize, is_counted: bool);
    links = bench_links(depth: usize);
    boxes = bench_boxes();
    sizes = bench_sizes(measure: u32, kind: u32, count: usize);
    admit = bench_admit(measure: u32, count: usize);
    entries = bench_entries(count: usize, has_own_tenants: bool, is_store: bool);
    chains = bench_chains(depth: usize);
}

//! What calls of services and pictures take, which have no counterpart in plain Rust.
use crate::instructions::Counted;
use crate::names::Names;
use crate::{Side, measure, ours};

/// Steps of the proved crates, each of so many calls.
struct Service {
    name: String,
    steps: &'static [&'static str],
    calls: usize,
    ours: Side,
}

/// The measures, in the order of their numbers.
const MEASURES: [&str; 3] = ["owned", "unique", "shown"];

/// Each value that is measured, with its kind, its count, and how many values that makes.
const VALUES: [(&str, u32, usize, usize); 5] = [
    ("record of six fields", 0, 1_000, 1_000),
    ("hashed map of 10,000 pairs", 2, 10_000, 1),
    ("vector of 100,000 records", 1, 100_000, 1),
    ("the same by `CountedValue`", 5, 100_000, 1),
    ("the same in a struct, counted", 6, 100_000, 1),
];

/// What is done with each entry of a ledger and of a store.
const ENTERED: &[&str] = &["admit", "enter_growth", "charge", "release"];
const STORED: &[&str] = &["put", "change", "remove"];

/// What is done with two graphs; cubes are only compared.
const COMPARED: &[&str] = &[
    "compare, none changed",
    "compare, all changed",
    "change_picture",
    "picture",
    "picture, all warned",
];

fn service(
    name: String,
    steps: &'static [&'static str],
    calls: usize,
    ours: impl Fn(&Names) -> u64 + 'static,
) -> Service {
    let ours = Box::new(ours);
    Service {
        name,
        steps,
        calls,
        ours,
    }
}

fn services() -> Vec<Service> {
    let mut all = Vec::new();
    for (measure, word) in (0..).zip(MEASURES) {
        for (value, kind, count, calls) in VALUES {
            let sizes = move |names: &Names| ours::sizes(names, measure, kind, count);
            all.push(service(format!("{value}, {word}"), &["size"], calls, sizes));
        }
        let admit = move |names: &Names| ours::admit(names, measure, 100);
        let name = format!("ledger of 100 records, {word}");
        all.push(service(name, &["admit", "release"], 100, admit));
    }
    for (is_store, word, steps) in [(false, "ledger", ENTERED), (true, "store", STORED)] {
        for (is_many, tenants) in [(false, "one tenant"), (true, "as many tenants")] {
            for count in [1_000, 10_000, 100_000] {
                let entries = move |names: &Names| ours::entries(names, count, is_many, is_store);
                let name = format!("{word} of {count} entries, {tenants}");
                all.push(service(name, steps, count, entries));
            }
        }
    }
    let compare = |names: &Names| ours::compare(names, 46);
    let name = "two cubes of 46, 99,498 paths".into();
    all.push(service(name, &COMPARED[..2], 1, compare));
    for depth in [2_500, 5_000, 10_000] {
        let chains = move |names: &Names| ours::chains(names, depth);
        let name = format!("two chains of {depth} levels");
        all.push(service(name, COMPARED, 1, chains));
    }
    all
}

/// The steps whose instructions are counted.
pub fn counted() -> impl Iterator<Item = Counted> {
    services().into_iter().map(|service| Counted {
        name: service.name,
        steps: service.steps,
        calls: service.calls as u64,
    })
}

pub fn print_table(names: &Names, only: Option<&str>) {
    println!("\nServices and pictures:\n\n| value | call | proved (µs) |\n|---|---|---:|");
    for service in services() {
        if only.is_some_and(|word| !service.name.contains(word)) {
            continue;
        }
        let [least] = measure([&service.ours], names);
        assert_ne!(least.answer, 0, "{} is refused", service.name);
        for (step, time) in service.steps.iter().zip(&least.steps) {
            let each = time.as_secs_f64() * 1e6 / service.calls as f64;
            println!("| {} | {step} | {each:.3} |", service.name);
        }
    }
}

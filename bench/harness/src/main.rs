//! Measures workloads on the proved crates and on the same design in plain Rust, and prints a table of both.
mod instructions;
mod marks;
mod names;
mod ours;
mod plain;
mod resident;
mod services;
mod stack;
mod theirs;
mod values;

use instructions::Counted;
use names::Names;
use std::env;
use std::fs;
use std::thread;
use std::time::{Duration, Instant};

type Side = Box<dyn Fn(&Names) -> u64>;

/// One workload on either side. Both answer the hash of the text that they wrote.
struct Workload {
    name: String,
    steps: &'static [&'static str],
    ours: Side,
    theirs: Side,
}

/// Seconds: for all rounds of a workload, and for a round that is not run again.
const ENOUGH: f64 = 1.5;
const LONG: f64 = 5.0;

const HANDLED: &[&str] = &["build", "clone", "add", "write", "drop"];
const COLLECTED: &[&str] = &["enter", "finish", "write", "drop"];

/// The orders in which children come, by their numbers.
const ORDERS: [(u32, &str); 3] = [(0, "rising"), (1, "falling"), (2, "mixed")];

macro_rules! workload {
    ($name:expr, $steps:expr, $call:ident($($argument:expr),*)) => {
        workload!($name, $steps, theirs::$call($($argument),*))
    };
    ($name:expr, $steps:expr, $module:ident::$call:ident($($argument:expr),*)) => {
        Workload {
            name: $name,
            steps: $steps,
            ours: Box::new(move |names| ours::$call(names, $($argument),*)),
            theirs: Box::new(move |names| $module::$call(names, $($argument),*)),
        }
    };
}

fn graphs() -> Vec<Workload> {
    let mut all = Vec::new();
    for side in [29usize, 36, 46] {
        let paths = side + side.pow(2) + side.pow(3);
        all.push(workload!(
            format!("cube of {side}, {paths} paths"),
            HANDLED,
            cube(side)
        ));
    }
    for (order, word) in ORDERS {
        for count in [25_000usize, 50_000, 100_000] {
            all.push(workload!(
                format!("{count} children, {word}"),
                HANDLED,
                wide(count, order)
            ));
        }
    }
    for (order, word) in ORDERS {
        let name = format!("100000 children at once, {word}");
        all.push(workload!(name, &["build"], at_once(100_000, order)));
    }
    for count in [12_500usize, 25_000, 50_000] {
        let name = format!("two interleaving lists of {count}");
        all.push(workload!(name, &["add"], interleaving(count)));
    }
    for count in [1_000, 10_000, 100_000] {
        let name = format!("100 times 10 of {count} children");
        all.push(workload!(name, &["add"], few(count)));
    }
    all
}

fn collectors() -> Vec<Workload> {
    let mut all = vec![
        workload!(
            "2,000,007 entries on 9 paths".into(),
            COLLECTED,
            few_paths(222_223)
        ),
        workload!(
            "tree of 46 by 46 by 46, 99,498 paths".into(),
            COLLECTED,
            tree(46)
        ),
        workload!("chain of depth 10,000".into(), COLLECTED, chain(10_000)),
        workload!(
            "100,000 pointers to 10,007 identities".into(),
            COLLECTED,
            shared(100_000, 10_007)
        ),
    ];
    for (order, word) in ORDERS {
        let name = format!("100,000 entries in one, {word}");
        all.push(workload!(name, COLLECTED, wide_entries(100_000, order)));
    }
    all
}

/// Values, one by one and counted first. The plain side enters them one by one in either case.
fn values() -> Vec<Workload> {
    let mut all = Vec::new();
    for (is_counted, word) in [(false, ""), (true, ", counted")] {
        all.push(workload!(
            format!("vector of 200,000 records{word}"),
            COLLECTED,
            values::records(200_000, is_counted)
        ));
        all.push(workload!(
            format!("hashed map of 100,000 texts{word}"),
            COLLECTED,
            values::map(100_000, is_counted)
        ));
        all.push(workload!(
            format!("vector of 100,000 vectors{word}"),
            COLLECTED,
            values::lists(100_000, is_counted)
        ));
    }
    all.push(workload!(
        "tree of boxes, 32,768 leaves".into(),
        COLLECTED,
        values::boxes()
    ));
    all
}

/// The least time of each step so far, and the answer.
struct Least {
    steps: Vec<Duration>,
    answer: u64,
}

fn run(side: &Side, names: &Names, before: Option<Least>) -> Least {
    let answer = side(names);
    let steps = marks::take();
    let Some(before) = before else {
        return Least { steps, answer };
    };
    assert_eq!(
        answer, before.answer,
        "a workload answers the same each time"
    );
    let steps = before
        .steps
        .into_iter()
        .zip(steps)
        .map(|(old, new)| old.min(new))
        .collect();
    Least { steps, answer }
}

/// Runs the sides in turn, until the time for it is over: at least twice, or once if a round takes long.
fn measure<const SIDES: usize>(sides: [&Side; SIDES], names: &Names) -> [Least; SIDES] {
    let begun = Instant::now();
    let mut all: [Option<Least>; SIDES] = [const { None }; SIDES];
    let mut rounds = 0.0;
    loop {
        for (side, least) in sides.iter().zip(&mut all) {
            *least = Some(run(side, names, least.take()));
        }
        rounds += 1.0;
        let spent = begun.elapsed().as_secs_f64();
        if spent > LONG || rounds > 1.0 && spent + spent / rounds > ENOUGH {
            break;
        }
    }
    all.map(Option::unwrap)
}

fn print_row(workload: &Workload, ours: &Least, theirs: &Least) {
    for (at, step) in workload.steps.iter().enumerate() {
        let milliseconds = |least: &Least| least.steps[at].as_secs_f64() * 1000.0;
        let (mine, other) = (milliseconds(ours), milliseconds(theirs));
        // A ratio of less than what a clock tells apart says nothing.
        let ratio = match mine.max(other) < 0.02 {
            true => "-".into(),
            false => format!("{:.2}", mine / other),
        };
        println!(
            "| {} | {step} | {mine:.3} | {other:.3} | {ratio} |",
            workload.name
        );
    }
}

fn print_table(title: &str, workloads: &[Workload], names: &Names, only: Option<&str>) {
    println!(
        "\n{title}\n\n| workload | step | proved (ms) | plain Rust (ms) | ratio |\n|---|---|---:|---:|---:|"
    );
    for workload in workloads {
        if only.is_some_and(|word| !workload.name.contains(word)) {
            continue;
        }
        let [ours, theirs] = measure([&workload.ours, &workload.theirs], names);
        assert_eq!(
            ours.answer, theirs.answer,
            "{}: both sides write the same text",
            workload.name
        );
        assert_eq!(ours.steps.len(), workload.steps.len(), "{}", workload.name);
        print_row(workload, &ours, &theirs);
    }
}

fn print_machine() {
    let info = fs::read_to_string("/proc/cpuinfo").unwrap_or_default();
    let model = info
        .lines()
        .find_map(|line| line.strip_prefix("model name"))
        .unwrap_or(": unknown");
    let cores = thread::available_parallelism().map_or(1, usize::from);
    println!(
        "Machine: {}, {cores} cores.",
        model.trim_start_matches([' ', '\t', ':'])
    );
}

/// The steps of the proved crates whose instructions are counted.
fn counted() -> impl Iterator<Item = Counted> {
    let workloads = [graphs(), collectors(), values()].into_iter().flatten();
    let steps = workloads.map(|workload| Counted {
        name: workload.name,
        steps: workload.steps,
        calls: 1,
    });
    steps.chain(services::counted())
}

/// With the word `stack` what calls take of the stack, with `resident` what containers take of memory, and with
/// `instructions` how many instructions steps take, where another word may follow; with another word only the workloads
/// whose names have it. A container and a count make that one container.
fn main() {
    let words: Vec<String> = env::args().skip(1).collect();
    if let [_, container, count] = &words[..] {
        return resident::print_row(container.parse().unwrap(), count.parse().unwrap());
    }
    if words.first().is_some_and(|word| word == "instructions") {
        return instructions::print_table(counted(), words.get(1).map(String::as_str));
    }
    let only = words.into_iter().next();
    print_machine();
    let names = Names::new(100_000);
    match only.as_deref() {
        Some("stack") => return stack::print_table(&names),
        Some("resident") => return resident::print_table(),
        _ => {}
    }
    // A chain of 10,000 calls is deeper than the first thread's stack may be.
    let all = move || {
        print_table("Flame graphs:", &graphs(), &names, only.as_deref());
        print_table("Collectors:", &collectors(), &names, only.as_deref());
        print_table("Values:", &values(), &names, only.as_deref());
        services::print_table(&names, only.as_deref());
        if only.is_none() {
            resident::print_table();
        }
    };
    thread::Builder::new()
        .stack_size(64 << 20)
        .spawn(all)
        .unwrap()
        .join()
        .unwrap();
}

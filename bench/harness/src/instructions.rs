//! How many instructions the steps of workloads take, by callgrind, which counts anew where a step begins.
use std::path::Path;
use std::process::{Command, Stdio, id};
use std::{env, fs};

/// Steps of the proved crates, each of so many calls.
pub struct Counted {
    pub name: String,
    pub steps: &'static [&'static str],
    pub calls: u64,
}

/// The instructions of each call, by the workloads whose names have the word.
pub fn print_table(all: impl Iterator<Item = Counted>, only: Option<&str>) {
    println!("\n| workload | step | instructions |\n|---|---|---:|");
    let folder = env::temp_dir().join(format!("allocative-bench-{}", id()));
    for counted in all {
        if only.is_some_and(|word| !counted.name.contains(word)) {
            continue;
        }
        fs::create_dir(&folder).unwrap();
        run(&counted.name, &folder);
        for (step, at) in counted.steps.iter().zip(1..) {
            let each = total(&folder.join(format!("out.{at}"))) / counted.calls;
            println!("| {} | {step} | {each} |", counted.name);
        }
        fs::remove_dir_all(&folder).unwrap();
    }
}

/// Runs this program on a workload in callgrind, which writes a file at each step's end.
fn run(name: &str, folder: &Path) {
    let ended = Command::new("valgrind")
        .args([
            "--tool=callgrind",
            "--zero-before=bench_step_begins",
            "--dump-before=bench_step_ends",
        ])
        .arg(format!("--callgrind-out-file={}/out", folder.display()))
        .arg(env::current_exe().unwrap())
        .arg(name)
        .stdout(Stdio::null())
        .stderr(Stdio::null())
        .status()
        .unwrap();
    assert!(ended.success(), "{name} is counted");
}

/// The instructions that a file of callgrind has.
fn total(file: &Path) -> u64 {
    let text = fs::read_to_string(file).unwrap();
    let total = text.lines().find_map(|line| line.strip_prefix("totals: "));
    total.unwrap().trim().parse().unwrap()
}

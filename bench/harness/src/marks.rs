//! How much processor time the steps of a workload took.
use crate::{resident, stack};
use std::hint::black_box;
use std::sync::Mutex;
use std::time::Duration;

/// When the running step began, and the least time of each step so far.
static CLOCK: Mutex<(Option<Duration>, Vec<Duration>)> = Mutex::new((None, Vec::new()));

/// A C `timespec` of a 64-bit system.
#[repr(C)]
struct Time {
    seconds: i64,
    nanoseconds: i64,
}

unsafe extern "C" {
    fn clock_gettime(clock: i32, time: *mut Time) -> i32;
}

/// The number of the clock of a thread's own processor time, on Linux.
const THREAD_CLOCK: i32 = 3;

/// The time that this thread has run: the machine's other work counts for less than on a clock of the wall.
fn time_run() -> Duration {
    let mut time = Time {
        seconds: 0,
        nanoseconds: 0,
    };
    // It writes the one struct that it is given.
    unsafe { clock_gettime(THREAD_CLOCK, &mut time) };
    Duration::new(time.seconds as u64, time.nanoseconds as u32)
}

/// The step of that number, from 1 on, has ended and the next begins; with 0 a step begins, and what came before counts
/// for none. Both sides call it. Of a step that is run several times the least time counts.
#[unsafe(no_mangle)]
pub extern "C" fn bench_mark(step: u32) {
    let now = time_run();
    if step == 0 {
        bench_step_begins();
    } else {
        bench_step_ends();
    }
    stack::mark(step);
    resident::mark(step);
    let (begun, least) = &mut *CLOCK.lock().unwrap();
    if let (Some(begun), Some(at)) = (*begun, step.checked_sub(1)) {
        let at = at as usize;
        if least.len() <= at {
            least.resize(at + 1, Duration::MAX);
        }
        least[at] = least[at].min(now - begun);
    }
    *begun = Some(time_run());
}

/// Where callgrind counts anew.
#[unsafe(no_mangle)]
#[inline(never)]
extern "C" fn bench_step_begins() {
    black_box(0);
}

/// Where callgrind writes what it counted, and counts anew.
#[unsafe(no_mangle)]
#[inline(never)]
extern "C" fn bench_step_ends() {
    black_box(1);
}

/// The least time of each step since the last call.
pub fn take() -> Vec<Duration> {
    let (begun, least) = &mut *CLOCK.lock().unwrap();
    *begun = None;
    std::mem::take(least)
}

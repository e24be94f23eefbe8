// Holds the library against plain Rust: the same answers first, then the time of each.
mod capi;
mod compare;
mod inputs;
mod plain;

use capi::{End, Entry, Rates, Verdict};
use inputs::{Dice, NO_ANSWER, NO_ENTRY};
use std::hint::black_box;
use std::process::ExitCode;

// How often each side is timed; the fastest of them counts.
const ROUNDS: usize = 15;

// A round takes at least so long.
const ROUND_NANOSECONDS: f64 = 4e6;

// As the C library has it on 64-bit Linux.
#[repr(C)]
struct Timespec {
    seconds: i64,
    nanoseconds: i64,
}

const CLOCK_THREAD_CPUTIME_ID: i32 = 3;

unsafe extern "C" {
    fn clock_gettime(clock: i32, time: &mut Timespec) -> i32;
}

// The processor's time for this thread: other programs on the machine do not count.
fn processor_time() -> f64 {
    let mut time = Timespec {
        seconds: 0,
        nanoseconds: 0,
    };
    unsafe { clock_gettime(CLOCK_THREAD_CPUTIME_ID, &mut time) };
    time.seconds as f64 * 1e9 + time.nanoseconds as f64
}

fn timed(call: &mut dyn FnMut()) -> f64 {
    let start = processor_time();
    call();
    processor_time() - start
}

// The times of one call of each side, in nanoseconds, taken in turns.
fn race(mut library: impl FnMut(), mut rust: impl FnMut()) -> (f64, f64) {
    let once = timed(&mut library).min(timed(&mut library)).max(1.0);
    let calls = (ROUND_NANOSECONDS / once).ceil().max(1.0) as usize;
    let mut best = (f64::MAX, f64::MAX);
    for _ in 0..ROUNDS {
        let first = timed(&mut || (0..calls).for_each(|_| library()));
        let second = timed(&mut || (0..calls).for_each(|_| rust()));
        best = (best.0.min(first), best.1.min(second));
    }
    (best.0 / calls as f64, best.1 / calls as f64)
}

fn row(what: &str, unit: &str, per: usize, times: (f64, f64)) {
    let (library, rust) = (times.0 / per as f64, times.1 / per as f64);
    println!(
        "{what:<44} {unit:<14} {library:>10.3} {rust:>10.3} {:>7.2}",
        library / rust
    );
}

fn time_draw(end: &End, count: usize) {
    let characters: Vec<u16> = (0..count).map(|i| (i * 37 % 256) as u16).collect();
    let size = inputs::picture(end, &characters).len();
    let (mut a, mut b) = (vec![0; size], vec![0; size]);
    let (mut n, mut m) = (0, 0);
    let times = race(
        || {
            black_box(capi::draw(black_box(end), &characters, &mut a, &mut n));
        },
        || {
            black_box(plain::draw(black_box(end), &characters, &mut b, &mut m));
        },
    );
    let count = if count == 1 { "1 character".to_string() } else { format!("{count} characters") };
    let what = format!("draw, divider {}, {count}", end.divider);
    row(&what, "a byte", size, times);
}

type Scan = fn(&End, &[u8], &mut [Entry], &mut usize) -> u8;

fn time_scan(end: &End, picture: &[u8], what: &str, rust: Scan) {
    let mut entries = vec![NO_ENTRY; picture.len() / 8 + 9];
    let mut found = 0;
    plain::scan(end, picture, &mut entries, &mut found);
    let (mut a, mut b) = (vec![NO_ENTRY; found], vec![NO_ENTRY; found]);
    let (mut n, mut m) = (0, 0);
    let times = race(
        || {
            black_box(capi::scan(black_box(end), picture, &mut a, &mut n));
        },
        || {
            black_box(rust(black_box(end), picture, &mut b, &mut m));
        },
    );
    row(what, "a byte", picture.len(), times);
}

fn time_scans(end: &End, long: usize, rust: Scan) {
    let mut dice = Dice::new(5);
    for (name, count) in [("1 character", 1), ("long", long)] {
        let characters: Vec<u16> = (0..count).map(|i| (i * 37 % 256) as u16).collect();
        let picture = inputs::picture(end, &characters);
        let what = format!("scan, divider {}, {name}, clean", end.divider);
        time_scan(end, &picture, &what, rust);
        if count > 1 {
            let mut hurt = picture.clone();
            inputs::damage(&mut dice, &mut hurt, count as u64 / 4);
            let what = format!("scan, divider {}, {name}, damaged", end.divider);
            time_scan(end, &hurt, &what, rust);
        }
    }
}

type Run = fn(&End, &End, &[capi::Act], &mut [capi::Answer]) -> u8;

fn time_run(end: &End, what: &str, acts: &[capi::Act], library: Run, rust: Run) {
    let (mut a, mut b) = (vec![NO_ANSWER; acts.len()], vec![NO_ANSWER; acts.len()]);
    let pairs = acts.iter().filter(|act| act.kind == 2).count();
    let times = race(
        || {
            black_box(library(black_box(end), end, acts, &mut a));
        },
        || {
            black_box(rust(black_box(end), end, acts, &mut b));
        },
    );
    let what = format!("link, divider {}, {what}", end.divider);
    row(&what, "a clock pair", pairs, times);
}

fn time_fit(what: &str, receiver: &End, rates: Rates) {
    let end = inputs::eight_n_one(6, 0x6f);
    let blank = Verdict { verdict: 9, bit: 99 };
    let (mut a, mut b) = (blank, blank);
    let times = race(
        || {
            black_box(capi::fit(black_box(&end), black_box(receiver), black_box(rates), &mut a));
        },
        || {
            black_box(plain::fit(black_box(&end), black_box(receiver), black_box(rates), &mut b));
        },
    );
    row(what, "a call", 1, times);
}

fn compare_all() -> Result<(), String> {
    let mut dice = Dice::new(20_261_118);
    compare::draws(&mut dice, 3000)?;
    compare::scans(&mut dice, 3000)?;
    compare::fits(&mut dice, 200_000)?;
    compare::runs(&mut dice, 1500)
}

fn time_all() {
    println!(
        "{:<44} {:<14} {:>10} {:>10} {:>7}",
        "nanoseconds", "for", "library", "Rust", "ratio"
    );
    let ends = [(6, 0x6f, 4096), (54, 0xd5, 512), (436, 0xff, 64)];
    for (divider, modulator, long) in ends {
        let end = inputs::eight_n_one(divider, modulator);
        time_draw(&end, 1);
        time_draw(&end, long);
    }
    for (divider, modulator, long) in ends {
        time_scans(&inputs::eight_n_one(divider, modulator), long, plain::scan);
    }
    for (divider, modulator, _) in ends {
        let end = inputs::eight_n_one(divider, modulator);
        let pairs = 10 * (divider as usize + 1);
        let bare = inputs::steady(64, 1, pairs);
        time_run(&end, "bare ends", &bare, capi::run, plain::run);
        let queued = inputs::steady(64, 16, pairs);
        time_run(&end, "queues of 16", &queued, capi::run_queued, plain::run_queued);
    }
    let receiver = inputs::eight_n_one(6, 0x6f);
    time_fit("Fit, rates that pass", &receiver, Rates { send: 54, receive: 53 });
    time_fit("Fit, late at bit 7", &receiver, Rates { send: 53, receive: 52 });
    time_fit("Fit, a divider out of range", &inputs::eight_n_one(2, 0), Rates { send: 1, receive: 1 });
    println!();
    println!("The same scans against Rust that looks at nothing between the samples:");
    for (divider, modulator, long) in ends {
        time_scans(&inputs::eight_n_one(divider, modulator), long, plain::scan_samples);
    }
}

fn main() -> ExitCode {
    if let Err(difference) = compare_all() {
        println!("The two sides differ. {difference}");
        return ExitCode::FAILURE;
    }
    println!("Both sides answer the same: 3000 draws, 3000 scans, 200000 calls of Fit, 3000 runs of a link.");
    println!();
    time_all();
    ExitCode::SUCCESS
}

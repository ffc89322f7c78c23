//! Emitted Rust by the calls that bench/embed.rs makes of rust-crdt's types. Each line of the output is what is called, how, and the
//! nanoseconds of a call.
#[allow(dead_code)]
mod counter;
#[allow(dead_code)]
mod element_set;

use counter::Counter;
use element_set::ElementSet;
use std::hint::black_box;

const CALLS: usize = 100_000;
const NAMES: u64 = 200;
const MERGES: usize = 1_000;

#[repr(C)]
struct Time {
    seconds: i64,
    nanoseconds: i64,
}

extern "C" {
    fn clock_gettime(clock: i32, to: *mut Time) -> i32;
}

/// The nanoseconds that this process has had of its processor.
fn now() -> f64 {
    let mut time = Time { seconds: 0, nanoseconds: 0 };
    unsafe { clock_gettime(2, &mut time) };
    time.seconds as f64 * 1e9 + time.nanoseconds as f64
}

fn timed(what: &str, calls: usize, mut call: impl FnMut(usize)) {
    let from = now();
    (0..calls).for_each(|i| call(i));
    println!("{what} emitted {:.1}", (now() - from) / calls as f64);
}

fn counters() {
    let (mut here, mut there) = (Counter::new(1).unwrap(), Counter::new(2).unwrap());
    there.visit().unwrap();
    timed("counter_do", CALLS, |_| {
        here.visit().unwrap();
        black_box(&here);
    });
    timed("counter_ask", CALLS, |_| {
        black_box(black_box(&here).visits());
    });
    timed("counter_merge", CALLS, |_| {
        black_box(there.merge(black_box(&here)));
    });
    timed("counter_text", CALLS, |_| {
        there.merge(&Counter::from_state(&black_box(&here).state()).unwrap());
    });
}

/// The names of the calls, and whether each is inserted.
fn calls() -> Vec<(bool, String)> {
    let mut seed = 1u64;
    let mut draw = |n: u64| {
        seed = seed.wrapping_mul(6364136223846793005).wrapping_add(1442695040888963407);
        (seed >> 33) % n
    };
    (0..CALLS).map(|_| (draw(3) > 0, format!("key{:03}", draw(NAMES)))).collect()
}

fn sets() {
    let (mut here, mut there) = (ElementSet::new(1).unwrap(), ElementSet::new(2).unwrap());
    let calls = calls();
    timed("set_do", CALLS, |i| {
        let (inserted, name) = &calls[i];
        if *inserted { here.insert(name).unwrap() } else { here.remove(name).unwrap() }
    });
    timed("set_ask", CALLS, |i| {
        black_box(here.contains(&calls[i].1).unwrap());
    });
    timed("set_merge", MERGES, |_| {
        black_box(there.merge(black_box(&here)));
    });
    timed("set_text", MERGES, |_| {
        there.merge(&ElementSet::from_state(&black_box(&here).state()).unwrap());
    });
}

fn main() {
    counters();
    sets();
}

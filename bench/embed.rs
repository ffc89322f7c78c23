//! rust-crdt's types by the calls that bench/embed.c makes. Each line of the output is what is called, how, and the nanoseconds of a
//! call. A counter, and the set from which names are removed; what is merged is a copy, since `merge` takes it.
use crdts::{CmRDT, CvRDT, GCounter, Orswot};
use std::hint::black_box;

const CALLS: usize = 100_000;
const NAMES: u64 = 200;
const MERGES: usize = 1_000;

#[repr(C)]
struct Time {
    seconds: i64,
    nanoseconds: i64,
}

extern "C" {
    fn clock_gettime(clock: i32, to: *mut Time) -> i32;
}

/// The nanoseconds that this process has had of its processor.
fn now() -> f64 {
    let mut time = Time { seconds: 0, nanoseconds: 0 };
    unsafe { clock_gettime(2, &mut time) };
    time.seconds as f64 * 1e9 + time.nanoseconds as f64
}

fn timed(what: &str, calls: usize, mut call: impl FnMut(usize)) {
    let from = now();
    (0..calls).for_each(|i| call(i));
    println!("{what} rust-crdt {:.1}", (now() - from) / calls as f64);
}

fn counters() {
    let (mut here, mut there) = (GCounter::<u32>::new(), GCounter::<u32>::new());
    there.apply(there.inc(2));
    timed("counter_do", CALLS, |_| {
        let op = here.inc(1);
        here.apply(op);
        black_box(&here);
    });
    timed("counter_ask", CALLS, |_| {
        black_box(here.read());
    });
    timed("counter_merge", CALLS, |_| there.merge(black_box(&here).clone()));
}

/// The names of the calls, and whether each is inserted.
fn calls() -> Vec<(bool, String)> {
    let mut seed = 1u64;
    let mut draw = |n: u64| {
        seed = seed.wrapping_mul(6364136223846793005).wrapping_add(1442695040888963407);
        (seed >> 33) % n
    };
    (0..CALLS).map(|_| (draw(3) > 0, format!("key{:03}", draw(NAMES)))).collect()
}

fn sets() {
    let (mut here, mut there) = (Orswot::<String, u32>::new(), Orswot::<String, u32>::new());
    let calls = calls();
    timed("set_do", CALLS, |i| {
        let (inserted, name) = &calls[i];
        let op = if *inserted {
            here.add(name.clone(), here.read_ctx().derive_add_ctx(1))
        } else {
            here.rm(name.clone(), here.contains(name).derive_rm_ctx())
        };
        here.apply(op);
    });
    timed("set_ask", CALLS, |i| {
        black_box(here.contains(&calls[i].1).val);
    });
    timed("set_merge", MERGES, |_| there.merge(black_box(&here).clone()));
}

fn main() {
    counters();
    sets();
}

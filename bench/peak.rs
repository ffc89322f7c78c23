//! Runs a command with its output in a file, and prints its seconds, its peak kilobytes and its status.
//! A process counts the memory of the one that started it, so a small program has to start it.
use std::fs::File;
use std::process::Command;
use std::time::Instant;

/// What `wait4` tells of a process that ended (Linux).
#[repr(C)]
#[derive(Default)]
struct Usage {
    times: [i64; 4],
    peak: i64,
    others: [i64; 13],
}

extern "C" {
    fn wait4(process: i32, status: *mut i32, options: i32, usage: *mut Usage) -> i32;
}

fn main() {
    let words: Vec<String> = std::env::args().skip(1).collect();
    let out = File::create(&words[0]).expect("the file of the output");
    let began = Instant::now();
    let child = Command::new(&words[1]).args(&words[2..]).stdout(out).spawn().expect("the command");
    let (mut status, mut usage) = (0, Usage::default());
    // SAFETY: both are places of the sizes that Linux writes.
    unsafe { wait4(child.id() as i32, &mut status, 0, &mut usage) };
    println!("{} {} {}", began.elapsed().as_secs_f64(), usage.peak, status);
}

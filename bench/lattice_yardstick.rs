// Merges two sorted vectors into a new one, over and over, as a programmer would write it without proofs:
// the yardstick of bench/lattice.sh. Arguments: set, map or tally; the number of entries.
use std::cmp::Ordering;
use std::hint::black_box;
use std::time::Instant;

fn union(a: &[u64], b: &[u64]) -> Vec<u64> {
    let mut out = Vec::with_capacity(a.len() + b.len());
    let (mut i, mut j) = (0, 0);
    while i < a.len() && j < b.len() {
        match a[i].cmp(&b[j]) {
            Ordering::Less => {
                out.push(a[i]);
                i += 1;
            }
            Ordering::Equal => {
                out.push(a[i]);
                i += 1;
                j += 1;
            }
            Ordering::Greater => {
                out.push(b[j]);
                j += 1;
            }
        }
    }
    out.extend_from_slice(&a[i..]);
    out.extend_from_slice(&b[j..]);
    out
}

fn greatest<K: Ord + Copy, V: Ord + Copy>(a: &[(K, V)], b: &[(K, V)]) -> Vec<(K, V)> {
    let mut out = Vec::with_capacity(a.len() + b.len());
    let (mut i, mut j) = (0, 0);
    while i < a.len() && j < b.len() {
        match a[i].0.cmp(&b[j].0) {
            Ordering::Less => {
                out.push(a[i]);
                i += 1;
            }
            Ordering::Equal => {
                out.push((a[i].0, a[i].1.max(b[j].1)));
                i += 1;
                j += 1;
            }
            Ordering::Greater => {
                out.push(b[j]);
                j += 1;
            }
        }
    }
    out.extend_from_slice(&a[i..]);
    out.extend_from_slice(&b[j..]);
    out
}

fn time(rounds: u64, mut join: impl FnMut() -> usize) {
    let mut least = u128::MAX;
    let mut len = 0;
    for _ in 0..5 {
        let start = Instant::now();
        for _ in 0..rounds {
            len = join();
        }
        least = least.min(start.elapsed().as_micros());
    }
    println!("{least} entries {len}");
}

fn main() {
    let words: Vec<String> = std::env::args().collect();
    let n: u64 = words[2].parse().unwrap();
    let rounds = 4_000_000 / n;
    match words[1].as_str() {
        "set" => {
            let a: Vec<u64> = (0..n).map(|i| 2 * i).collect();
            let b: Vec<u64> = (0..n).map(|i| 3 * i).collect();
            time(rounds, || {
                black_box(union(&a, &b)).len()
            });
        }
        "map" => {
            let a: Vec<(u64, i128)> = (0..n).map(|i| (2 * i, 5)).collect();
            let b: Vec<(u64, i128)> = (0..n).map(|i| (3 * i, 7)).collect();
            time(rounds, || {
                black_box(greatest(&a, &b)).len()
            });
        }
        _ => {
            let a: Vec<(u32, u128)> = (0..n as u32).map(|i| (i, 5)).collect();
            let b: Vec<(u32, u128)> = (0..n as u32).map(|i| (n as u32 / 2 + i, 7)).collect();
            time(rounds, || {
                black_box(greatest(&a, &b)).len()
            });
        }
    }
}

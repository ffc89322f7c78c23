//! What a table with many keys costs, kept in several ways: one ascending list, as kat_lattice does; the same list, searched where it is gone
//! through today; std's BTreeMap; a list of blocks of at most 512 entries; such blocks that are shared by counted pointers; and
//! rust-crdt's types. The entries are as large as katara's: a key of 32 bytes, and a cell with its leaves in a list of their own, or
//! the sums of replicas. Each line has nanoseconds of the processor for a call.
use crdts::{CmRDT, CvRDT, Orswot};
use std::cmp::Ordering;
use std::collections::BTreeMap;
use std::hint::black_box;
use std::sync::Arc;

#[repr(C)]
struct Time {
    seconds: i64,
    nanoseconds: i64,
}
extern "C" {
    fn clock_gettime(clock: i32, to: *mut Time) -> i32;
}
fn now() -> f64 {
    let mut time = Time { seconds: 0, nanoseconds: 0 };
    unsafe { clock_gettime(2, &mut time) };
    time.seconds as f64 * 1e9 + time.nanoseconds as f64
}

#[derive(Clone, Copy, PartialEq, Eq, PartialOrd, Ord, Hash, Debug)]
enum Value {
    Truth(bool),
    Number(i128),
    Name(u128),
}

/// What a table keeps at a key.
trait Lattice: Clone {
    fn of(time: u64, shape: &Arc<u8>) -> Self;
    fn join(&mut self, other: &Self);
    fn leq(&self, other: &Self) -> bool;
}

#[derive(Clone)]
struct Cell {
    shape: Arc<u8>,
    leaves: Vec<Value>,
}
impl Lattice for Cell {
    fn of(time: u64, shape: &Arc<u8>) -> Self {
        Cell { shape: shape.clone(), leaves: vec![Value::Number(time as i128), Value::Truth(time % 2 == 0)] }
    }
    fn join(&mut self, other: &Self) {
        if self.leaves < other.leaves {
            self.leaves.copy_from_slice(&other.leaves)
        }
        black_box(&self.shape);
    }
    fn leq(&self, other: &Self) -> bool {
        self.leaves <= other.leaves
    }
}

#[derive(Clone)]
struct Tally(Vec<(u32, u128)>);
impl Lattice for Tally {
    fn of(time: u64, _: &Arc<u8>) -> Self {
        Tally(vec![(time as u32 % 2, time as u128)])
    }
    fn join(&mut self, other: &Self) {
        if other.leq(self) {
            return;
        }
        let mut sums = Vec::with_capacity(self.0.len() + other.0.len());
        let (mut i, mut j) = (0, 0);
        while i < self.0.len() && j < other.0.len() {
            let (x, y) = (self.0[i], other.0[j]);
            match x.0.cmp(&y.0) {
                Ordering::Less => {
                    sums.push(x);
                    i += 1
                }
                Ordering::Greater => {
                    sums.push(y);
                    j += 1
                }
                Ordering::Equal => {
                    sums.push((x.0, x.1.max(y.1)));
                    i += 1;
                    j += 1
                }
            }
        }
        sums.extend_from_slice(&self.0[i..]);
        sums.extend_from_slice(&other.0[j..]);
        self.0 = sums;
    }
    fn leq(&self, other: &Self) -> bool {
        self.0.iter().all(|x| other.0.iter().any(|y| y.0 == x.0 && x.1 <= y.1))
    }
}

type Entry<L> = (Value, L);
fn place<L>(entries: &[Entry<L>], key: &Value) -> Result<usize, usize> {
    entries.binary_search_by_key(key, |e| e.0)
}

trait Table<L: Lattice> {
    const NAME: &'static str;
    fn made(entries: Vec<Entry<L>>) -> Self;
    fn get(&self, key: &Value) -> Option<&L>;
    /// A step with what takes it back: the value is copied, joined, and put back.
    fn step(&mut self, key: Value, value: &L);
    /// One packet of few keys.
    fn deliver(&mut self, packet: &[Entry<L>]);
    fn copy(&self) -> Self;
    fn total(&self) -> usize;
}

/// One list, as it is.
struct Listed<L>(Vec<Entry<L>>);
fn step_list<L: Lattice>(list: &mut Vec<Entry<L>>, key: Value, value: &L) {
    match place(list, &key) {
        Ok(at) => {
            let mut v = list[at].1.clone();
            v.join(value);
            black_box(std::mem::replace(&mut list[at], (key, v)));
        }
        Err(at) => list.insert(at, (key, value.clone())),
    }
}
impl<L: Lattice> Table<L> for Listed<L> {
    const NAME: &'static str = "list";
    fn made(entries: Vec<Entry<L>>) -> Self {
        Listed(entries)
    }
    fn get(&self, key: &Value) -> Option<&L> {
        place(&self.0, key).ok().map(|at| &self.0[at].1)
    }
    fn step(&mut self, key: Value, value: &L) {
        step_list(&mut self.0, key, value)
    }
    fn deliver(&mut self, packet: &[Entry<L>]) {
        // new keys by search, then all moved into a new list, then a walk over both
        let fresh: Vec<Entry<L>> = packet.iter().filter(|e| place(&self.0, &e.0).is_err()).cloned().collect();
        if !fresh.is_empty() {
            let mut list = Vec::with_capacity(self.0.len() + fresh.len());
            let mut mine = std::mem::take(&mut self.0).into_iter().peekable();
            let mut fresh = fresh.into_iter().peekable();
            loop {
                let from_mine = match (mine.peek(), fresh.peek()) {
                    (Some(x), Some(y)) => x.0 < y.0,
                    (None, None) => break,
                    (x, _) => x.is_some(),
                };
                list.push(if from_mine { mine.next().unwrap() } else { fresh.next().unwrap() });
            }
            self.0 = list;
        }
        let (mut i, mut j) = (0, 0);
        while j < packet.len() {
            match self.0[i].0.cmp(&packet[j].0) {
                Ordering::Less => i += 1,
                _ => {
                    self.0[i].1.join(&packet[j].1);
                    i += 1;
                    j += 1
                }
            }
        }
    }
    fn copy(&self) -> Self {
        Listed(self.0.clone())
    }
    fn total(&self) -> usize {
        self.0.iter().filter(|e| matches!(e.0, Value::Name(_))).count()
    }
}

/// One list, of which a delivery that has something new makes another with copies: sums by key, and sets without values, today.
struct Copied<L>(Vec<Entry<L>>);
impl<L: Lattice> Table<L> for Copied<L> {
    const NAME: &'static str = "list, copied";
    fn made(entries: Vec<Entry<L>>) -> Self {
        Copied(entries)
    }
    fn get(&self, key: &Value) -> Option<&L> {
        place(&self.0, key).ok().map(|at| &self.0[at].1)
    }
    fn step(&mut self, key: Value, value: &L) {
        step_list(&mut self.0, key, value)
    }
    fn deliver(&mut self, packet: &[Entry<L>]) {
        let mut j = 0;
        let absorbed = packet.iter().all(|e| {
            while j < self.0.len() && self.0[j].0 < e.0 {
                j += 1
            }
            j < self.0.len() && self.0[j].0 == e.0 && e.1.leq(&self.0[j].1)
        });
        if absorbed {
            return;
        }
        let mut list = Vec::with_capacity(self.0.len() + packet.len());
        let (mut i, mut j) = (0, 0);
        while i < self.0.len() && j < packet.len() {
            match self.0[i].0.cmp(&packet[j].0) {
                Ordering::Less => {
                    list.push(self.0[i].clone());
                    i += 1
                }
                Ordering::Greater => {
                    list.push(packet[j].clone());
                    j += 1
                }
                Ordering::Equal => {
                    let mut v = self.0[i].1.clone();
                    v.join(&packet[j].1);
                    list.push((self.0[i].0, v));
                    i += 1;
                    j += 1
                }
            }
        }
        list.extend_from_slice(&self.0[i..]);
        list.extend_from_slice(&packet[j..]);
        self.0 = list;
    }
    fn copy(&self) -> Self {
        Copied(self.0.clone())
    }
    fn total(&self) -> usize {
        self.0.iter().filter(|e| matches!(e.0, Value::Name(_))).count()
    }
}

/// One list, searched for each key of a packet.
struct Searched<L>(Vec<Entry<L>>);
impl<L: Lattice> Table<L> for Searched<L> {
    const NAME: &'static str = "list, searched";
    fn made(entries: Vec<Entry<L>>) -> Self {
        Searched(entries)
    }
    fn get(&self, key: &Value) -> Option<&L> {
        place(&self.0, key).ok().map(|at| &self.0[at].1)
    }
    fn step(&mut self, key: Value, value: &L) {
        step_list(&mut self.0, key, value)
    }
    fn deliver(&mut self, packet: &[Entry<L>]) {
        for e in packet {
            match place(&self.0, &e.0) {
                Ok(at) => self.0[at].1.join(&e.1),
                Err(at) => self.0.insert(at, e.clone()),
            }
        }
    }
    fn copy(&self) -> Self {
        Searched(self.0.clone())
    }
    fn total(&self) -> usize {
        self.0.iter().filter(|e| matches!(e.0, Value::Name(_))).count()
    }
}

/// std's map.
struct Tree<L>(BTreeMap<Value, L>);
impl<L: Lattice> Table<L> for Tree<L> {
    const NAME: &'static str = "BTreeMap";
    fn made(entries: Vec<Entry<L>>) -> Self {
        Tree(entries.into_iter().collect())
    }
    fn get(&self, key: &Value) -> Option<&L> {
        self.0.get(key)
    }
    fn step(&mut self, key: Value, value: &L) {
        match self.0.get_mut(&key) {
            Some(there) => {
                let mut v = there.clone();
                v.join(value);
                black_box(std::mem::replace(there, v));
            }
            None => {
                self.0.insert(key, value.clone());
            }
        }
    }
    fn deliver(&mut self, packet: &[Entry<L>]) {
        for e in packet {
            match self.0.get_mut(&e.0) {
                Some(there) => there.join(&e.1),
                None => {
                    self.0.insert(e.0, e.1.clone());
                }
            }
        }
    }
    fn copy(&self) -> Self {
        Tree(self.0.clone())
    }
    fn total(&self) -> usize {
        self.0.keys().filter(|k| matches!(k, Value::Name(_))).count()
    }
}

const MOST: usize = 512;
fn block<B: AsRef<[Entry<L>]>, L>(blocks: &[B], key: &Value) -> usize {
    let at = blocks.partition_point(|b| b.as_ref().last().is_some_and(|e| e.0 < *key));
    at.min(blocks.len().saturating_sub(1))
}

/// Blocks in one list.
struct Blocks<L>(Vec<Vec<Entry<L>>>);
impl<L: Lattice> Blocks<L> {
    fn insert(&mut self, b: usize, at: usize, entry: Entry<L>) {
        if self.0.is_empty() {
            self.0.push(vec![entry]);
            return;
        }
        let block = &mut self.0[b];
        block.insert(at, entry);
        if block.len() > MOST {
            let rest = block.split_off(MOST / 2);
            self.0.insert(b + 1, rest)
        }
    }
}
impl<L: Lattice> Table<L> for Blocks<L> {
    const NAME: &'static str = "blocks";
    fn made(entries: Vec<Entry<L>>) -> Self {
        Blocks(entries.chunks(MOST * 3 / 4).map(<[_]>::to_vec).collect())
    }
    fn get(&self, key: &Value) -> Option<&L> {
        let b = self.0.get(block(&self.0, key))?;
        place(b, key).ok().map(|at| &b[at].1)
    }
    fn step(&mut self, key: Value, value: &L) {
        let b = block(&self.0, &key);
        match self.0.get(b).map_or(Err(0), |b| place(b, &key)) {
            Ok(at) => {
                let e = &mut self.0[b][at];
                let mut v = e.1.clone();
                v.join(value);
                black_box(std::mem::replace(e, (key, v)));
            }
            Err(at) => self.insert(b, at, (key, value.clone())),
        }
    }
    fn deliver(&mut self, packet: &[Entry<L>]) {
        for e in packet {
            let b = block(&self.0, &e.0);
            match self.0.get(b).map_or(Err(0), |b| place(b, &e.0)) {
                Ok(at) => self.0[b][at].1.join(&e.1),
                Err(at) => self.insert(b, at, e.clone()),
            }
        }
    }
    fn copy(&self) -> Self {
        Blocks(self.0.clone())
    }
    fn total(&self) -> usize {
        self.0.iter().flatten().filter(|e| matches!(e.0, Value::Name(_))).count()
    }
}

/// Blocks with counted pointers to them: a copy shares them, and a change of a shared one copies it first.
struct Shared<L>(Vec<Arc<Vec<Entry<L>>>>);
impl<L: Lattice> Shared<L> {
    fn insert(&mut self, b: usize, at: usize, entry: Entry<L>) {
        if self.0.is_empty() {
            self.0.push(Arc::new(vec![entry]));
            return;
        }
        let block = Arc::make_mut(&mut self.0[b]);
        block.insert(at, entry);
        if block.len() > MOST {
            let rest = block.split_off(MOST / 2);
            self.0.insert(b + 1, Arc::new(rest))
        }
    }
}
fn shared_block<L>(blocks: &[Arc<Vec<Entry<L>>>], key: &Value) -> usize {
    let at = blocks.partition_point(|b| b.last().is_some_and(|e| e.0 < *key));
    at.min(blocks.len().saturating_sub(1))
}
impl<L: Lattice> Table<L> for Shared<L> {
    const NAME: &'static str = "shared blocks";
    fn made(entries: Vec<Entry<L>>) -> Self {
        Shared(entries.chunks(MOST * 3 / 4).map(|c| Arc::new(c.to_vec())).collect())
    }
    fn get(&self, key: &Value) -> Option<&L> {
        let b = self.0.get(shared_block(&self.0, key))?;
        place(b, key).ok().map(|at| &b[at].1)
    }
    fn step(&mut self, key: Value, value: &L) {
        let b = shared_block(&self.0, &key);
        match self.0.get(b).map_or(Err(0), |b| place(b, &key)) {
            Ok(at) => {
                let e = &mut Arc::make_mut(&mut self.0[b])[at];
                let mut v = e.1.clone();
                v.join(value);
                black_box(std::mem::replace(e, (key, v)));
            }
            Err(at) => self.insert(b, at, (key, value.clone())),
        }
    }
    fn deliver(&mut self, packet: &[Entry<L>]) {
        for e in packet {
            let b = shared_block(&self.0, &e.0);
            match self.0.get(b).map_or(Err(0), |b| place(b, &e.0)) {
                Ok(at) => Arc::make_mut(&mut self.0[b])[at].1.join(&e.1),
                Err(at) => self.insert(b, at, e.clone()),
            }
        }
    }
    fn copy(&self) -> Self {
        Shared(self.0.clone())
    }
    fn total(&self) -> usize {
        self.0.iter().flat_map(|b| b.iter()).filter(|e| matches!(e.0, Value::Name(_))).count()
    }
}

fn drawn(seed: &mut u64) -> u64 {
    *seed = seed.wrapping_mul(6364136223846793005).wrapping_add(1442695040888963407);
    *seed >> 20
}
/// Keys of a table are even, new ones odd.
fn key(k: u64) -> Value {
    Value::Name(((k as u128) << 64) | k.wrapping_mul(0x9E3779B97F4A7C15) as u128)
}

/// What was freed before is put together now, and not while a call is timed.
fn settle() {
    black_box(vec![1u8; 1 << 20]);
    black_box(vec![1u8; 100_000]);
}

fn line(what: &str, name: &str, n: usize, nanoseconds: f64) {
    println!("{what}|{n}|{name}|{nanoseconds:.0}");
}

fn measure<L: Lattice, T: Table<L>>(kind: &str, n: usize) {
    let shape = Arc::new(0u8);
    let entries: Vec<Entry<L>> = (0..n as u64).map(|k| (key(2 * k), L::of(k + 1, &shape))).collect();
    let mut seed = 7u64;
    let (reads, steps) = (20_000, if n > 100_000 { 60 } else { 4_000 });
    // from nothing, in a random order
    if n <= 10_000 || !T::NAME.starts_with("list") {
        let mut order: Vec<u64> = (0..n as u64).collect();
        for i in (1..n).rev() {
            order.swap(i, (drawn(&mut seed) % (i as u64 + 1)) as usize)
        }
        let rounds = (100_000 / n).max(1);
        let mut spent = 0.0;
        for _ in 0..rounds {
            let mut t = T::made(Vec::new());
            let from = now();
            for k in &order {
                t.step(key(2 * k), &entries[*k as usize].1)
            }
            spent += now() - from;
            black_box(t.total());
        }
        line(&format!("{kind}: new key, from nothing"), T::NAME, n, spent / (rounds * n) as f64);
    }
    let mut t = T::made(entries.clone());
    settle();
    let from = now();
    for _ in 0..reads {
        let k = drawn(&mut seed) % (n as u64);
        assert!(black_box(t.get(&key(2 * k))).is_some());
    }
    line(&format!("{kind}: read"), T::NAME, n, (now() - from) / reads as f64);
    let value = L::of(1 << 40, &shape);
    settle();
    let from = now();
    for _ in 0..reads {
        let k = drawn(&mut seed) % (n as u64);
        t.step(key(2 * k), &value)
    }
    line(&format!("{kind}: step at a key"), T::NAME, n, (now() - from) / reads as f64);
    // (so few that the size stays)
    let few = steps.min(n / 10);
    let rounds = (steps / few).max(1);
    let mut spent = 0.0;
    for _ in 0..rounds {
        let mut t = T::made(entries.clone());
        settle();
        let from = now();
        for _ in 0..few {
            let k = drawn(&mut seed) % (n as u64);
            t.step(key(2 * k + 1), &value)
        }
        spent += now() - from;
    }
    line(&format!("{kind}: step at a new key"), T::NAME, n, spent / (rounds * few) as f64);
    let mut spent = 0.0;
    for _ in 0..rounds {
        let mut t = T::made(entries.clone());
        settle();
        let from = now();
        for i in 0..few {
            let k = drawn(&mut seed) % (n as u64);
            t.deliver(&[(key(2 * k), L::of((1 << 41) + i as u64, &shape))])
        }
        spent += now() - from;
    }
    line(&format!("{kind}: deliver one key"), T::NAME, n, spent / (rounds * few) as f64);
    let mut spent = 0.0;
    for _ in 0..rounds {
        let mut t = T::made(entries.clone());
        settle();
        let from = now();
        for i in 0..few {
            let k = drawn(&mut seed) % (n as u64);
            t.deliver(&[(key(2 * k + 1), L::of((1 << 41) + i as u64, &shape))])
        }
        spent += now() - from;
    }
    line(&format!("{kind}: deliver one new key"), T::NAME, n, spent / (rounds * few) as f64);
    let copies = (20_000 / n).clamp(1, 100);
    let from = now();
    for _ in 0..copies {
        black_box(t.copy().total());
    }
    let both = now() - from;
    let from = now();
    for _ in 0..copies {
        black_box(t.total());
    }
    let look = now() - from;
    line(&format!("{kind}: copy"), T::NAME, n, (both - look) / copies as f64);
    line(&format!("{kind}: look at all"), T::NAME, n, look / copies as f64);
}

fn crdt(n: usize) {
    let mut t = Orswot::<Value, u32>::new();
    let mut seed = 7u64;
    let mut order: Vec<u64> = (0..n as u64).collect();
    for i in (1..n).rev() {
        order.swap(i, (drawn(&mut seed) % (i as u64 + 1)) as usize)
    }
    let from = now();
    for k in &order {
        let op = t.add(key(2 * k), t.read_ctx().derive_add_ctx(1));
        t.apply(op)
    }
    line("cells: new key, from nothing", "rust-crdt", n, (now() - from) / n as f64);
    let reads = 20_000;
    settle();
    let from = now();
    for _ in 0..reads {
        let k = drawn(&mut seed) % (n as u64);
        black_box(t.contains(&key(2 * k)).val);
    }
    line("cells: read", "rust-crdt", n, (now() - from) / reads as f64);
    settle();
    let from = now();
    for _ in 0..reads {
        let k = drawn(&mut seed) % (n as u64);
        let op = t.add(key(2 * k), t.read_ctx().derive_add_ctx(1));
        t.apply(op)
    }
    line("cells: step at a key", "rust-crdt", n, (now() - from) / reads as f64);
    let few = 60.min(n / 10);
    let from = now();
    for _ in 0..few {
        let k = drawn(&mut seed) % (n as u64);
        let op = t.add(key(2 * k + 1), t.read_ctx().derive_add_ctx(1));
        t.apply(op)
    }
    line("cells: step at a new key", "rust-crdt", n, (now() - from) / few as f64);
    // an operation of another replica is delivered as an operation
    let from = now();
    for _ in 0..few {
        let k = drawn(&mut seed) % (n as u64);
        let op = t.add(key(2 * k), t.read_ctx().derive_add_ctx(2));
        t.apply(op)
    }
    line("cells: deliver one key", "rust-crdt", n, (now() - from) / few as f64);
    let copies = (20_000 / n).clamp(1, 100);
    let from = now();
    for _ in 0..copies {
        black_box(t.clone());
    }
    line("cells: copy", "rust-crdt", n, (now() - from) / copies as f64);
    let mut other = Orswot::<Value, u32>::new();
    let op = other.add(key(3), other.read_ctx().derive_add_ctx(3));
    other.apply(op);
    let from = now();
    t.merge(other);
    line("cells: merge a state with one key", "rust-crdt", n, now() - from);
}

/// So many calls of one kind on one table, for a count of instructions.
fn one<L: Lattice, T: Table<L>>(what: &str, n: usize, rounds: usize) {
    let shape = Arc::new(0u8);
    let mut t = T::made((0..n as u64).map(|k| (key(2 * k), L::of(k + 1, &shape))).collect());
    let (mut seed, value) = (7u64, L::of(1 << 40, &shape));
    for i in 0..rounds {
        let k = drawn(&mut seed) % (n as u64);
        match what {
            "read" => {
                black_box(t.get(&key(2 * k)));
            }
            "step" => t.step(key(2 * k), &value),
            "new" => t.step(key(2 * k + 1), &value),
            "deliver" => t.deliver(&[(key(2 * k), L::of((1 << 41) + i as u64, &shape))]),
            "deliver_new" => t.deliver(&[(key(2 * k + 1), value.clone())]),
            _ => {
                black_box(t.copy());
            }
        }
    }
    black_box(t.total());
}

fn main() {
    let words: Vec<String> = std::env::args().skip(1).collect();
    if let [way, what, n, rounds] = &words[..] {
        if let (Ok(n), Ok(rounds)) = (n.parse(), rounds.parse()) {
            match way.as_str() {
                "list" => return one::<Cell, Listed<Cell>>(what, n, rounds),
                "searched" => return one::<Cell, Searched<Cell>>(what, n, rounds),
                "tree" => return one::<Cell, Tree<Cell>>(what, n, rounds),
                "blocks" => return one::<Cell, Blocks<Cell>>(what, n, rounds),
                "shared" => return one::<Cell, Shared<Cell>>(what, n, rounds),
                "sums_list" => return one::<Tally, Copied<Tally>>(what, n, rounds),
                "sums_searched" => return one::<Tally, Searched<Tally>>(what, n, rounds),
                "sums_tree" => return one::<Tally, Tree<Tally>>(what, n, rounds),
                "sums_blocks" => return one::<Tally, Blocks<Tally>>(what, n, rounds),
                "sums_shared" => return one::<Tally, Shared<Tally>>(what, n, rounds),
                _ => {}
            }
        }
    }
    for n in words.iter().map(|w| w.parse().unwrap()) {
        measure::<Cell, Listed<Cell>>("cells", n);
        measure::<Cell, Searched<Cell>>("cells", n);
        measure::<Cell, Tree<Cell>>("cells", n);
        measure::<Cell, Blocks<Cell>>("cells", n);
        measure::<Cell, Shared<Cell>>("cells", n);
        crdt(n);
        measure::<Tally, Copied<Tally>>("sums", n);
        measure::<Tally, Searched<Tally>>("sums", n);
        measure::<Tally, Tree<Tally>>("sums", n);
        measure::<Tally, Blocks<Tally>>("sums", n);
        measure::<Tally, Shared<Tally>>("sums", n);
    }
}

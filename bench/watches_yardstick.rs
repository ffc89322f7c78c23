// Unit propagation with two watched literals a clause, over the same drawn clauses and literals, in plain Rust. It is the measure
// for kat_watch's speed, and no part of the program.
use std::env;

const VARIABLES: u32 = 5_000;
const CLAUSES: u32 = 20_000;
const ASSUMED: u32 = 100;

fn code(literal: i32) -> usize {
    2 * literal.unsigned_abs() as usize + usize::from(literal < 0)
}

struct Watches {
    clauses: Vec<[i32; 3]>,
    // by a literal's code, the clauses that watch it
    lists: Vec<Vec<u32>>,
    marks: Vec<bool>,
    reasons: Vec<Option<u32>>,
    trail: Vec<i32>,
    looked: usize,
}

impl Watches {
    fn new() -> Self {
        let size = 2 * VARIABLES as usize + 2;
        Watches {
            clauses: Vec::new(),
            lists: vec![Vec::new(); size],
            marks: vec![false; size],
            reasons: vec![None; VARIABLES as usize + 1],
            trail: Vec::with_capacity(size),
            looked: 0,
        }
    }

    fn add(&mut self, clause: [i32; 3]) {
        let number = self.clauses.len() as u32;
        self.lists[code(clause[0])].push(number);
        self.lists[code(clause[1])].push(number);
        self.clauses.push(clause);
    }

    fn enter(&mut self, literal: i32, reason: Option<u32>) {
        self.marks[code(literal)] = true;
        self.reasons[literal.unsigned_abs() as usize] = reason;
        self.trail.push(literal);
    }

    fn is_open(&self, literal: i32) -> bool {
        !self.marks[code(literal)] && !self.marks[code(-literal)]
    }

    // The watched literals are the clause's first two.
    fn propagate(&mut self) -> bool {
        while self.looked < self.trail.len() {
            let falsified = -self.trail[self.looked];
            self.looked += 1;
            let mut list = std::mem::take(&mut self.lists[code(falsified)]);
            let mut i = 0;
            while i < list.len() {
                let number = list[i];
                let clause = &mut self.clauses[number as usize];
                if clause[0] == falsified {
                    clause.swap(0, 1);
                }
                let other = clause[0];
                if self.marks[code(other)] {
                    i += 1;
                    continue;
                }
                if !self.marks[code(-clause[2])] {
                    clause.swap(1, 2);
                    let to = code(clause[1]);
                    self.lists[to].push(number);
                    list.swap_remove(i);
                    continue;
                }
                if self.marks[code(-other)] {
                    self.lists[code(falsified)] = list;
                    return false;
                }
                self.enter(other, Some(number));
                i += 1;
            }
            self.lists[code(falsified)] = list;
        }
        true
    }

    fn undo(&mut self, kept: usize) {
        for literal in self.trail.drain(kept..) {
            self.marks[code(literal)] = false;
        }
        self.looked = kept;
    }
}

fn next(seed: &mut u32) -> u32 {
    *seed = seed.wrapping_mul(1_664_525).wrapping_add(1_013_904_223);
    *seed >> 8
}

fn literal(draw: u32) -> i32 {
    let variable = (draw / 2 % VARIABLES) as i32 + 1;
    if draw % 2 == 0 { variable } else { -variable }
}

fn main() {
    let rounds: u32 = env::args().nth(1).and_then(|word| word.parse().ok()).unwrap_or(1);
    let mut seed = 1;
    let mut watches = Watches::new();
    for _ in 0..CLAUSES {
        let clause = [literal(next(&mut seed)), literal(next(&mut seed)), literal(next(&mut seed))];
        let [a, b, c] = clause.map(i32::unsigned_abs);
        if a != b && a != c && b != c {
            watches.add(clause);
        }
    }
    let mut assigned = 0;
    for _ in 0..rounds {
        for _ in 0..ASSUMED {
            let assumed = literal(next(&mut seed));
            if watches.is_open(assumed) {
                watches.enter(assumed, None);
            }
        }
        if watches.propagate() {
            assigned += watches.trail.len();
        }
        watches.undo(0);
    }
    println!("{assigned}");
}

// Unit propagation over the same generated clauses and lines in plain Rust, with a count of open literals a clause.
// It is the measure for the checker's speed, and no part of the program.
use std::env;

struct Clauses {
    lists: Vec<Vec<i32>>,
    table: Vec<Vec<u32>>,
    units: Vec<u32>,
}

fn code(literal: i32) -> usize {
    2 * literal.unsigned_abs() as usize + usize::from(literal < 0)
}

impl Clauses {
    fn new(variables: usize) -> Self {
        Clauses { lists: Vec::new(), table: vec![Vec::new(); 2 * variables + 2], units: Vec::new() }
    }

    fn add(&mut self, clause: &[i32]) {
        let number = self.lists.len() as u32;
        for literal in clause {
            self.table[code(*literal)].push(number);
        }
        if clause.len() < 2 {
            self.units.push(number);
        }
        self.lists.push(clause.to_vec());
    }

    fn follows(&self, line: &[i32]) -> bool {
        let mut known = vec![false; self.table.len()];
        let mut open: Vec<u32> = self.lists.iter().map(|clause| clause.len() as u32).collect();
        let mut queue: Vec<i32> = line.iter().map(|literal| -literal).collect();
        for unit in &self.units {
            match self.lists[*unit as usize].first() {
                Some(literal) => queue.push(*literal),
                None => return true,
            }
        }
        let mut next = 0;
        while next < queue.len() {
            let literal = queue[next];
            next += 1;
            if known[code(literal)] {
                continue;
            }
            known[code(literal)] = true;
            for number in &self.table[code(-literal)] {
                let left = &mut open[*number as usize];
                *left -= 1;
                if *left == 0 {
                    return true;
                }
                if *left == 1 {
                    let clause = &self.lists[*number as usize];
                    if let Some(unit) = clause.iter().find(|k| !known[code(-**k)]) {
                        queue.push(*unit);
                    }
                }
            }
        }
        false
    }
}

// The clauses and the lines of a kind, as the checker's own program makes them.
fn work(kind: &str, size: i32, count: i32) -> (usize, Vec<Vec<i32>>, Vec<Vec<i32>>) {
    match kind {
        "repeats" => {
            let mut first = vec![-1, 2];
            first.extend(std::iter::repeat(-1).take(size as usize));
            first.sort_unstable();
            first.dedup();
            let mut lines = vec![first];
            lines.extend((0..count).map(|_| vec![-1, 2]));
            (2, vec![vec![-1, 2]], lines)
        }
        "long" => {
            let clause: Vec<i32> = (1..=size).collect();
            (size as usize, vec![clause.clone()], vec![clause; count as usize])
        }
        _ => {
            let mut seed = 1u32;
            let mut below = || {
                seed = seed.wrapping_mul(1_664_525).wrapping_add(1_013_904_223);
                ((seed >> 16) % size as u32) as i32
            };
            let clauses = (0..size).map(|i| vec![-1 - i, i + 2]).collect();
            let mut lines = Vec::new();
            for _ in 0..count {
                let (a, b) = (below(), below());
                lines.push(vec![-1 - a.min(b), a.max(b) + 2]);
            }
            (size as usize + 1, clauses, lines)
        }
    }
}

fn main() {
    let words: Vec<String> = env::args().skip(1).collect();
    let number = |i: usize| words.get(i).and_then(|word| word.parse::<u16>().ok()).unwrap_or(0);
    let (size, count) = (number(1), number(2));
    let kind = words.first().map_or("", |word| word.as_str());
    let (variables, clauses, lines) = work(kind, i32::from(size), i32::from(count));
    let mut known = Clauses::new(variables);
    for clause in &clauses {
        known.add(clause);
    }
    let mut bad = lines.len() as u32 + 1;
    for (i, line) in lines.iter().enumerate() {
        if !known.follows(line) {
            bad = i as u32 + 1;
            break;
        }
        known.add(line);
    }
    println!("{size} of each, {count} lines: Bad({bad})");
}

// A plain program that does what `model` does on the type of examples/types/cart.type, as a user would write it: std
// only, the type built in, one write call a line. It is the yardstick of model.sh.
use std::collections::HashMap;
use std::io::{self, Write};
use std::process::exit;
use std::{env, fs};

/// `add NAME COUNT`, done at a time by a replica (a place from 0).
struct Add<'a> {
    time: u64,
    replica: usize,
    name: &'a str,
    count: i128,
}

enum Line<'a> {
    Do { replica: usize, time: u64 },
    Ship { replica: usize, packet: usize },
    Deliver { packet: usize, replica: usize },
    Ask { replica: usize, name: &'a str },
}

struct Script<'a> {
    replicas: usize,
    adds: Vec<Add<'a>>,
    lines: Vec<Line<'a>>,
}

/// What was absorbed: of each replica the operations up to a time.
type Known = Vec<u64>;

fn number(word: &str, limit: u64) -> Option<u64> {
    if word.is_empty() || !word.bytes().all(|b| b.is_ascii_digit()) {
        return None;
    }
    word.parse().ok().filter(|n| *n <= limit)
}

fn is_word(word: &str) -> bool {
    let mut bytes = word.bytes();
    bytes.next().is_some_and(|b| b.is_ascii_alphabetic() || b == b'_')
        && bytes.all(|b| b.is_ascii_alphanumeric() || b == b'_')
        && word.len() <= 15
        && !matches!(word, "at" | "true" | "false" | "type" | "state" | "op" | "query" | "if" | "max" | "min")
}

fn name(word: &str) -> Option<&str> {
    let name = word.strip_prefix('"')?.strip_suffix('"')?;
    let fits = name.len() <= 15 && name.bytes().all(|b| b.is_ascii_alphanumeric() || matches!(b, b'_' | b'.' | b'-'));
    fits.then_some(name)
}

fn replica(word: &str, clocks: &[u64]) -> Option<usize> {
    let n = number(word, clocks.len() as u64)? as usize;
    n.checked_sub(1)
}

fn read(text: &str) -> Option<Script<'_>> {
    let mut clocks: Vec<u64> = Vec::new();
    let mut packets: HashMap<&str, (usize, u64)> = HashMap::new();
    let (mut adds, mut lines) = (Vec::new(), Vec::new());
    let mut count = 0;
    for line in text.lines() {
        let line = line.split('#').next()?;
        let words: Vec<&str> = line.split_whitespace().collect();
        if words.is_empty() {
            continue;
        }
        count += 1;
        if count > 100_000 {
            return None;
        }
        if count == 1 {
            match words.as_slice() {
                ["replicas", n] => clocks = vec![0; number(n, 32).filter(|n| *n > 0)? as usize],
                _ => return None,
            }
            continue;
        }
        match words.as_slice() {
            ["do", r, "add", key, value, rest @ ..] => {
                let r = replica(r, &clocks)?;
                let (name, value) = (name(key)?, number(value, 1_000_000_000_000)?);
                let time = match rest {
                    [] => clocks[r] + 1,
                    ["at", time] => number(time, 1_000_000_000).filter(|t| *t > clocks[r])?,
                    _ => return None,
                };
                if time > 1_000_000_000 {
                    return None;
                }
                clocks[r] = time;
                adds.push(Add { time, replica: r, name, count: value as i128 });
                lines.push(Line::Do { replica: r, time });
            }
            ["ship", r, word] if is_word(word) => {
                let r = replica(r, &clocks)?;
                let new = packets.len();
                let entry = packets.entry(*word).or_insert((new, 0));
                entry.1 = clocks[r];
                lines.push(Line::Ship { replica: r, packet: entry.0 });
                if packets.len() > 32 {
                    return None;
                }
            }
            ["deliver", word, r] => {
                let r = replica(r, &clocks)?;
                let (packet, clock) = *packets.get(word)?;
                clocks[r] = clocks[r].max(clock);
                lines.push(Line::Deliver { packet, replica: r });
            }
            ["ask", r, "count", key] => lines.push(Line::Ask { replica: replica(r, &clocks)?, name: name(key)? }),
            ["show", r] => {
                replica(r, &clocks)?;
            }
            _ => return None,
        }
    }
    if clocks.is_empty() {
        return None;
    }
    Some(Script { replicas: clocks.len(), adds, lines })
}

/// The count of a name after the operations that are known, in their order.
fn answer(adds: &[Add], known: &Known, name: &str) -> i128 {
    let mut counts: HashMap<&str, i128> = HashMap::new();
    for add in adds.iter().filter(|add| add.time <= known[add.replica]) {
        *counts.entry(add.name).or_default() += add.count;
    }
    counts.get(name).copied().unwrap_or(0)
}

fn run(script: Script) -> io::Result<()> {
    let mut out = io::stdout().lock();
    let mut adds = script.adds;
    adds.sort_by_key(|add| (add.time, add.replica));
    let mut held: Vec<Known> = vec![vec![0; script.replicas]; script.replicas];
    let mut packets: Vec<Known> = Vec::new();
    for line in &script.lines {
        match *line {
            Line::Do { replica, time } => held[replica][replica] = time,
            Line::Ship { replica, packet } => {
                if packet == packets.len() {
                    packets.push(held[replica].clone());
                } else {
                    packets[packet].clone_from(&held[replica]);
                }
            }
            Line::Deliver { packet, replica } => {
                for (mine, theirs) in held[replica].iter_mut().zip(&packets[packet]) {
                    *mine = (*mine).max(*theirs);
                }
            }
            Line::Ask { replica, name } => {
                writeln!(out, "{} count \"{}\" = {}", replica + 1, name, answer(&adds, &held[replica], name))?;
            }
        }
    }
    Ok(())
}

fn main() {
    let words: Vec<String> = env::args().collect();
    let [_, command, ty, script] = words.as_slice() else { exit(1) };
    if command != "model" {
        exit(1);
    }
    let (Ok(_), Ok(script)) = (fs::read(ty), fs::read_to_string(script)) else { exit(2) };
    let Some(script) = read(&script) else { exit(3) };
    if run(script).is_err() {
        exit(8);
    }
}

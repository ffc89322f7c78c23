// A plain program that does what `converge` does on `builtin max`, as a user would write it: std only,
// one write call a line. It is the yardstick of converge.sh.
use std::collections::HashMap;
use std::io::{self, Write};
use std::process::exit;
use std::{env, fs};

enum Line {
    Do { replica: usize, time: u64, value: i128 },
    Ship { replica: usize, packet: usize },
    Deliver { packet: usize, replica: usize },
    Ask { replica: usize },
    Show { replica: usize },
}

#[derive(Clone, Copy, Default)]
struct Held {
    clock: u64,
    value: i128,
}

fn number(word: &str, limit: u64) -> Option<u64> {
    if word.is_empty() || !word.bytes().all(|b| b.is_ascii_digit()) {
        return None;
    }
    word.parse().ok().filter(|n| *n <= limit)
}

fn is_word(word: &str) -> bool {
    let mut bytes = word.bytes();
    bytes.next().is_some_and(|b| b.is_ascii_alphabetic() || b == b'_')
        && bytes.all(|b| b.is_ascii_alphanumeric() || b == b'_')
        && word.len() <= 15
        && !matches!(word, "at" | "true" | "false" | "type" | "state" | "op" | "query" | "if" | "max" | "min")
}

fn replica(word: &str, clocks: &[u64]) -> Option<usize> {
    let n = number(word, clocks.len() as u64)? as usize;
    n.checked_sub(1)
}

fn read(text: &str) -> Option<(usize, Vec<Line>)> {
    let mut clocks: Vec<u64> = Vec::new();
    let mut packets: HashMap<&str, (usize, u64)> = HashMap::new();
    let mut lines = Vec::new();
    let mut count = 0;
    for line in text.lines() {
        let line = line.split('#').next()?;
        let words: Vec<&str> = line.split_whitespace().collect();
        if words.is_empty() {
            continue;
        }
        count += 1;
        if count > 100_000 {
            return None;
        }
        if count == 1 {
            match words.as_slice() {
                ["replicas", n] => clocks = vec![0; number(n, 32).filter(|n| *n > 0)? as usize],
                _ => return None,
            }
            continue;
        }
        match words.as_slice() {
            ["do", r, "add", value, rest @ ..] => {
                let r = replica(r, &clocks)?;
                let value = number(value, 1_000_000_000_000)?;
                let time = match rest {
                    [] => clocks[r] + 1,
                    ["at", time] => number(time, 1_000_000_000).filter(|t| *t > clocks[r])?,
                    _ => return None,
                };
                if time > 1_000_000_000 {
                    return None;
                }
                clocks[r] = time;
                lines.push(Line::Do { replica: r, time, value: value as i128 });
            }
            ["ship", r, word] if is_word(word) => {
                let r = replica(r, &clocks)?;
                let new = packets.len();
                let entry = packets.entry(*word).or_insert((new, 0));
                entry.1 = clocks[r];
                lines.push(Line::Ship { replica: r, packet: entry.0 });
                if packets.len() > 32 {
                    return None;
                }
            }
            ["deliver", word, r] => {
                let r = replica(r, &clocks)?;
                let (packet, clock) = *packets.get(word)?;
                clocks[r] = clocks[r].max(clock);
                lines.push(Line::Deliver { packet, replica: r });
            }
            ["ask", r, "get"] => lines.push(Line::Ask { replica: replica(r, &clocks)? }),
            ["show", r] => lines.push(Line::Show { replica: replica(r, &clocks)? }),
            _ => return None,
        }
    }
    if clocks.is_empty() {
        return None;
    }
    Some((clocks.len(), lines))
}

fn run(replicas: usize, lines: &[Line]) -> io::Result<()> {
    let mut out = io::stdout().lock();
    writeln!(out, "unproved")?;
    let mut held = vec![Held::default(); replicas];
    let mut packets: Vec<Held> = Vec::new();
    for line in lines {
        match *line {
            Line::Do { replica, time, value } => {
                held[replica].clock = time;
                held[replica].value = held[replica].value.max(value);
            }
            Line::Ship { replica, packet } => {
                if packet == packets.len() {
                    packets.push(held[replica]);
                } else {
                    packets[packet] = held[replica];
                }
            }
            Line::Deliver { packet, replica } => {
                held[replica].clock = held[replica].clock.max(packets[packet].clock);
                held[replica].value = held[replica].value.max(packets[packet].value);
            }
            Line::Ask { replica } => writeln!(out, "{} get = {}", replica + 1, held[replica].value)?,
            Line::Show { replica } => writeln!(out, "{} clock {} [[{}]]", replica + 1, held[replica].clock, held[replica].value)?,
        }
    }
    Ok(())
}

fn main() {
    let words: Vec<String> = env::args().collect();
    let [_, command, design, script] = words.as_slice() else { exit(1) };
    if command != "converge" {
        exit(1);
    }
    let (Ok(design), Ok(script)) = (fs::read_to_string(design), fs::read_to_string(script)) else { exit(2) };
    if design.trim_end() != "builtin max" {
        exit(3);
    }
    let Some((replicas, lines)) = read(&script) else { exit(3) };
    if run(replicas, &lines).is_err() {
        exit(8);
    }
}

// A plain program that does what `converge` does on five designs, as a user would write it for one of them: std only,
// its own choice of maps, one write call a line. It is the yardstick of designs.sh.
use std::collections::{BTreeMap, BTreeSet, HashMap};
use std::io::{self, Write};
use std::{env, fs};

#[derive(Clone, Copy)]
enum Arg<'a> {
    Number(i64),
    Name(&'a str),
}

impl<'a> Arg<'a> {
    fn number(self) -> i64 {
        if let Arg::Number(n) = self { n } else { 0 }
    }
    fn name(self) -> &'a str {
        if let Arg::Name(n) = self { n } else { "" }
    }
}

enum Line<'a> {
    Do { replica: usize, time: u64, op: &'a str, args: Vec<Arg<'a>> },
    Ship { replica: usize, packet: usize },
    Deliver { packet: usize, replica: usize },
    Ask { replica: usize, query: &'a str, args: Vec<Arg<'a>> },
    Show { replica: usize },
}

/// What a replica keeps.
trait Kept: Clone + Default {
    fn apply(&mut self, replica: u32, time: u64, op: &str, args: &[Arg]);
    fn join(&mut self, other: &Self);
    fn answer(&self, args: &[Arg]) -> String;
    fn text(&self) -> String;
}

/// A register: the last write wins.
#[derive(Clone, Default, PartialEq, PartialOrd)]
struct Register(u64, u32, i64);

impl Kept for Register {
    fn apply(&mut self, replica: u32, time: u64, _op: &str, args: &[Arg]) {
        self.join(&Register(time, replica, args[0].number()));
    }
    fn join(&mut self, other: &Self) {
        if *self < *other {
            *self = other.clone();
        }
    }
    fn answer(&self, _args: &[Arg]) -> String {
        self.2.to_string()
    }
    fn text(&self) -> String {
        format!("[[{},{},{}]]", self.0, self.1, self.2)
    }
}

/// A set whose later operation wins at each key, an insertion over a removal of the same time.
#[derive(Clone, Default)]
struct Table(BTreeMap<String, (u64, bool)>);

impl Kept for Table {
    fn apply(&mut self, _replica: u32, time: u64, op: &str, args: &[Arg]) {
        let new = (time, op == "insert");
        match self.0.get_mut(args[0].name()) {
            Some(old) => *old = (*old).max(new),
            None => {
                self.0.insert(args[0].name().to_string(), new);
            }
        }
    }
    fn join(&mut self, other: &Self) {
        for (key, new) in &other.0 {
            match self.0.get_mut(key) {
                Some(old) => *old = (*old).max(*new),
                None => {
                    self.0.insert(key.clone(), *new);
                }
            }
        }
    }
    fn answer(&self, args: &[Arg]) -> String {
        self.0.get(args[0].name()).is_some_and(|e| e.1).to_string()
    }
    fn text(&self) -> String {
        let entries: Vec<String> = self.0.iter().map(|(k, e)| format!("[\"{}\",[{},{}]]", k, e.0, e.1)).collect();
        format!("[[{}]]", entries.join(","))
    }
}

/// A set that only grows.
#[derive(Clone, Default)]
struct Set(BTreeSet<String>);

impl Kept for Set {
    fn apply(&mut self, _replica: u32, _time: u64, _op: &str, args: &[Arg]) {
        if !self.0.contains(args[0].name()) {
            self.0.insert(args[0].name().to_string());
        }
    }
    fn join(&mut self, other: &Self) {
        for key in &other.0 {
            if !self.0.contains(key) {
                self.0.insert(key.clone());
            }
        }
    }
    fn answer(&self, args: &[Arg]) -> String {
        self.0.contains(args[0].name()).to_string()
    }
    fn text(&self) -> String {
        let keys: Vec<String> = self.0.iter().map(|k| format!("\"{}\"", k)).collect();
        format!("[[{}]]", keys.join(","))
    }
}

/// A counter: a sum for each replica.
#[derive(Clone, Default)]
struct Tally(BTreeMap<u32, u128>);

impl Tally {
    fn bump(&mut self, replica: u32, weight: i64) {
        if weight > 0 {
            *self.0.entry(replica).or_default() += weight as u128;
        }
    }
    fn merge(&mut self, other: &Self) {
        for (replica, sum) in &other.0 {
            let mine = self.0.entry(*replica).or_default();
            *mine = (*mine).max(*sum);
        }
    }
    fn total(&self) -> u128 {
        self.0.values().sum()
    }
    fn list(&self) -> String {
        let sums: Vec<String> = self.0.iter().map(|(r, s)| format!("[{},{}]", r, s)).collect();
        format!("[{}]", sums.join(","))
    }
}

impl Kept for Tally {
    fn apply(&mut self, replica: u32, _time: u64, _op: &str, args: &[Arg]) {
        self.bump(replica, args[0].number());
    }
    fn join(&mut self, other: &Self) {
        self.merge(other);
    }
    fn answer(&self, _args: &[Arg]) -> String {
        self.total().to_string()
    }
    fn text(&self) -> String {
        format!("[{}]", self.list())
    }
}

/// A cart: a counter for each key.
#[derive(Clone, Default)]
struct Cart(BTreeMap<String, Tally>);

impl Kept for Cart {
    fn apply(&mut self, replica: u32, _time: u64, _op: &str, args: &[Arg]) {
        match self.0.get_mut(args[0].name()) {
            Some(tally) => tally.bump(replica, args[1].number()),
            None if args[1].number() > 0 => {
                let mut tally = Tally::default();
                tally.bump(replica, args[1].number());
                self.0.insert(args[0].name().to_string(), tally);
            }
            None => {}
        }
    }
    fn join(&mut self, other: &Self) {
        for (key, tally) in &other.0 {
            match self.0.get_mut(key) {
                Some(mine) => mine.merge(tally),
                None => {
                    self.0.insert(key.clone(), tally.clone());
                }
            }
        }
    }
    fn answer(&self, args: &[Arg]) -> String {
        self.0.get(args[0].name()).map_or(0, Tally::total).to_string()
    }
    fn text(&self) -> String {
        let entries: Vec<String> = self.0.iter().map(|(k, t)| format!("[\"{}\",{}]", k, t.list())).collect();
        format!("[[{}]]", entries.join(","))
    }
}

fn args<'a>(words: &[&'a str]) -> Option<Vec<Arg<'a>>> {
    words
        .iter()
        .map(|word| match word.strip_prefix('"') {
            Some(name) => name.strip_suffix('"').filter(|n| n.len() <= 15).map(Arg::Name),
            None => word.parse().ok().map(Arg::Number),
        })
        .collect()
}

fn read(text: &str) -> Option<(usize, Vec<Line<'_>>)> {
    let mut clocks: Vec<u64> = Vec::new();
    let mut packets: HashMap<&str, (usize, u64)> = HashMap::new();
    let mut lines = Vec::new();
    for line in text.lines() {
        let line = line.split('#').next()?;
        let words: Vec<&str> = line.split_whitespace().collect();
        let place = |word: &str, count: usize| word.parse::<usize>().ok().filter(|n| 1 <= *n && *n <= count).map(|n| n - 1);
        match words.as_slice() {
            [] => {}
            ["replicas", n] if clocks.is_empty() => clocks = vec![0; n.parse::<usize>().ok().filter(|n| 1 <= *n && *n <= 32)?],
            ["do", r, op, rest @ ..] => {
                let replica = place(r, clocks.len())?;
                let (rest, time) = match rest {
                    [front @ .., "at", time] => (front, time.parse().ok().filter(|t| *t > clocks[replica])?),
                    _ => (rest, clocks[replica] + 1),
                };
                clocks[replica] = time;
                lines.push(Line::Do { replica, time, op, args: args(rest)? });
            }
            ["ship", r, word] => {
                let replica = place(r, clocks.len())?;
                let next = packets.len();
                let packet = packets.entry(word).or_insert((next, 0));
                packet.1 = clocks[replica];
                lines.push(Line::Ship { replica, packet: packet.0 });
            }
            ["deliver", word, r] => {
                let replica = place(r, clocks.len())?;
                let packet = packets.get(word)?;
                clocks[replica] = clocks[replica].max(packet.1);
                lines.push(Line::Deliver { packet: packet.0, replica });
            }
            ["ask", r, query, rest @ ..] => lines.push(Line::Ask { replica: place(r, clocks.len())?, query, args: args(rest)? }),
            ["show", r] => lines.push(Line::Show { replica: place(r, clocks.len())? }),
            _ => return None,
        }
    }
    Some((clocks.len(), lines))
}

fn run<K: Kept>(replicas: usize, lines: &[Line], out: &mut impl Write) -> io::Result<()> {
    let mut held: Vec<(u64, K)> = vec![Default::default(); replicas];
    let mut packets: Vec<(u64, K)> = Vec::new();
    out.write_all(b"unproved\n")?;
    for line in lines {
        match line {
            Line::Do { replica, time, op, args } => {
                held[*replica].0 = *time;
                held[*replica].1.apply(*replica as u32 + 1, *time, op, args);
            }
            Line::Ship { replica, packet } => {
                let copy = held[*replica].clone();
                if *packet < packets.len() {
                    packets[*packet] = copy;
                } else {
                    packets.push(copy);
                }
            }
            Line::Deliver { packet, replica } => {
                let mine = &mut held[*replica];
                mine.0 = mine.0.max(packets[*packet].0);
                mine.1.join(&packets[*packet].1);
            }
            Line::Ask { replica, query, args } => {
                let mut text = format!("{} {}", replica + 1, query);
                for arg in args {
                    match arg {
                        Arg::Number(n) => text += &format!(" {}", n),
                        Arg::Name(n) => text += &format!(" \"{}\"", n),
                    }
                }
                text += &format!(" = {}\n", held[*replica].1.answer(args));
                out.write_all(text.as_bytes())?;
            }
            Line::Show { replica } => {
                let mine = &held[*replica];
                out.write_all(format!("{} clock {} {}\n", replica + 1, mine.0, mine.1.text()).as_bytes())?;
            }
        }
    }
    Ok(())
}

fn main() {
    let words: Vec<String> = env::args().collect();
    let text = fs::read_to_string(&words[3]).expect("the script");
    let (replicas, lines) = read(&text).expect("a good script");
    let mut out = io::stdout();
    let design = words[2].rsplit('/').next().unwrap();
    match design {
        "register.design" => run::<Register>(replicas, &lines, &mut out),
        "element_set.design" => run::<Table>(replicas, &lines, &mut out),
        "set.design" => run::<Set>(replicas, &lines, &mut out),
        "tally.design" => run::<Tally>(replicas, &lines, &mut out),
        "cart.design" => run::<Cart>(replicas, &lines, &mut out),
        _ => panic!("no such design"),
    }
    .expect("the output");
}

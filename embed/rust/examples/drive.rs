//! Makes the calls that lines of standard input ask for, and answers each with a line, for fuzz.py, which has the form of both.
use katara::{Error, Replica, Type, Value, run};
use std::collections::HashMap;
use std::io::{self, BufRead, Write};

/// The bytes that a word has as hexadecimal digits, or `-` for none.
fn bytes(word: &str) -> Vec<u8> {
    let digits = word.trim_start_matches('-').as_bytes();
    let pairs = digits
        .chunks(2)
        .map(|pair| std::str::from_utf8(pair).expect("digits"));
    pairs
        .map(|pair| u8::from_str_radix(pair, 16).expect("digits"))
        .collect()
}

fn hex(bytes: &[u8]) -> String {
    if bytes.is_empty() {
        return "-".to_owned();
    }
    bytes.iter().map(|byte| format!("{byte:02x}")).collect()
}

/// A text that a word has; what is none in Rust is a call that no design has.
fn text(word: &str) -> Result<String, Error> {
    String::from_utf8(bytes(word)).map_err(|_| Error::NoCall)
}

fn value(word: &str) -> Result<Value, Error> {
    let (kind, rest) = word.split_at(1);
    match kind {
        "t" => Ok((rest == "1").into()),
        "n" => rest.parse().map(Value::Number).map_err(|_| Error::NoCall),
        _ => text(rest).map(Value::Name),
    }
}

fn values(words: &[&str]) -> Result<Vec<Value>, Error> {
    words.iter().map(|word| value(word)).collect()
}

fn said(value: &Value) -> String {
    match value {
        Value::Truth(truth) => format!("t{}", u8::from(*truth)),
        Value::Number(number) => format!("n{number}"),
        Value::Name(name) => format!("s{}", hex(name.as_bytes())),
    }
}

fn listed(keys: &[Value]) -> String {
    let words: Vec<String> = keys.iter().map(said).collect();
    if words.is_empty() {
        "-".to_owned()
    } else {
        words.join(",")
    }
}

fn flag(changed: bool) -> String {
    u8::from(changed).to_string()
}

/// The replicas by the words of their slots.
#[derive(Default)]
struct Slots(HashMap<String, Replica>);

impl Slots {
    fn at(&mut self, slot: &str) -> Result<&mut Replica, Error> {
        self.0.get_mut(slot).ok_or(Error::Handle)
    }

    fn merge_from(&mut self, slot: &str, other: &str) -> Result<String, Error> {
        let mut other_one = self.0.remove(other).ok_or(Error::Handle)?;
        let merged = self
            .at(slot)
            .and_then(|replica| replica.merge_from(&mut other_one));
        self.0.insert(other.to_owned(), other_one);
        merged.map(flag)
    }

    fn call(&mut self, word: &str, words: &[&str]) -> Result<String, Error> {
        let done = |()| String::new();
        match (word, words) {
            ("open", [slot, number, ty, design]) => {
                let number: u32 = number.parse().expect("a number");
                // (replicas with an even number by a type that is opened first)
                let replica = match number % 2 {
                    0 => Type::open(&bytes(ty), &bytes(design))?.replica(number)?,
                    _ => Replica::open(&bytes(ty), &bytes(design), number)?,
                };
                self.0.insert((*slot).to_owned(), replica);
                Ok(String::new())
            }
            ("free", [slot]) => {
                self.0.remove(*slot);
                Ok(String::new())
            }
            ("do", [slot, name, rest @ ..]) => self
                .at(slot)?
                .act(&text(name)?, &values(rest)?)
                .map(|time| time.to_string()),
            ("ask", [slot, name, rest @ ..]) => self
                .at(slot)?
                .ask(&text(name)?, &values(rest)?)
                .map(|value| said(&value)),
            ("do_text", [slot, call]) => self
                .at(slot)?
                .act_text(&text(call)?)
                .map(|time| time.to_string()),
            ("ask_text", [slot, call]) => self
                .at(slot)?
                .ask_text(&text(call)?)
                .map(|it| hex(it.as_bytes())),
            ("state", [slot]) => self.at(slot)?.state().map(|it| hex(&it)),
            ("keys", [slot, query]) => self.at(slot)?.keys(&text(query)?).map(|it| listed(&it)),
            ("keys_beyond", [slot, query, known]) => self
                .at(slot)?
                .keys_beyond(&text(query)?, &bytes(known))
                .map(|it| listed(&it)),
            ("merge", [slot, state]) => self.at(slot)?.merge(&bytes(state)).map(flag),
            ("share", [slot]) => self.at(slot)?.share().map(|it| hex(&it)),
            ("difference", [slot, known]) => {
                self.at(slot)?.difference(&bytes(known)).map(|it| hex(&it))
            }
            ("merge_difference", [slot, packet]) => {
                self.at(slot)?.merge_difference(&bytes(packet)).map(flag)
            }
            ("marks", [slot]) => self.at(slot)?.marks().map(|it| hex(&it)),
            ("restore_share", [slot, share]) => {
                self.at(slot)?.restore_share(&bytes(share)).map(done)
            }
            ("merge_from", [slot, other]) => self.merge_from(slot, other),
            ("restore", [slot, state]) => self.at(slot)?.restore(&bytes(state)).map(done),
            ("run", [ty, design, script]) => {
                run(&bytes(ty), &bytes(design), &bytes(script)).map(|it| hex(it.as_bytes()))
            }
            _ => panic!("no call: {word} with {} words", words.len()),
        }
    }
}

/// The code of an error, and the place of a proof's first fault.
fn told(error: Error) -> String {
    let (code, place) = match error {
        Error::NoMemory => (1, None),
        Error::Handle => (3, None),
        Error::BadType => (4, None),
        Error::BadDesign => (5, None),
        Error::OtherSignature => (6, None),
        Error::BadProof { condition, line } => (7, Some((condition, line))),
        Error::NoCall => (8, None),
        Error::Limit => (9, None),
        Error::BadState => (10, None),
        Error::BadScript => (11, None),
        Error::OtherDesign => (12, None),
        Error::Gap => (13, None),
        Error::NoMarks => (14, None),
        Error::BadShare => (15, None),
    };
    let place = place.map_or("- -".to_owned(), |(condition, line)| {
        format!("{condition} {line}")
    });
    format!("error {code} {place} {}", hex(error.to_string().as_bytes()))
}

fn main() -> io::Result<()> {
    let mut slots = Slots::default();
    let mut out = io::stdout().lock();
    for line in io::stdin().lock().lines() {
        let line = line?;
        let words: Vec<&str> = line.split(' ').collect();
        match slots.call(words[0], &words[1..]) {
            Ok(answer) if answer.is_empty() => writeln!(out, "ok")?,
            Ok(answer) => writeln!(out, "ok {answer}")?,
            Err(error) => writeln!(out, "{}", told(error))?,
        }
        out.flush()?;
    }
    Ok(())
}

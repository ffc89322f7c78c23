//! A tokeniser as a Rust programmer writes it without contracts: the yardstick for `kat_lex::tokens`.
//! It prints the microseconds of the fastest of five rounds over a file (or of as many as its second word says), and
//! the number of tokens or the place of the first fault.
use std::time::Instant;

#[derive(Clone, Copy)]
#[allow(dead_code)]
enum Kind {
    Word(u128),
    Name(u128),
    Number(u64),
    Sign(u8, u8),
    Newline,
}

#[allow(dead_code)]
struct Token {
    kind: Kind,
    from: usize,
    to: usize,
}

fn code(bytes: &[u8]) -> u128 {
    let mut padded = [0; 16];
    padded[1..=bytes.len()].copy_from_slice(bytes);
    u128::from_be_bytes(padded)
}

fn run_end(bytes: &[u8], from: usize, passes: impl Fn(u8) -> bool) -> usize {
    bytes[from..].iter().position(|byte| !passes(*byte)).map_or(bytes.len(), |n| from + n)
}

fn is_name_byte(byte: u8) -> bool {
    byte.is_ascii_alphanumeric() || matches!(byte, b'_' | b'.' | b'-')
}

fn number(digits: &[u8]) -> Option<u64> {
    digits.iter().try_fold(0u64, |value, digit| {
        let value = value * 10 + u64::from(digit - b'0');
        (value <= 1_000_000_000_000).then_some(value)
    })
}

fn tokens(bytes: &[u8]) -> Result<Vec<Token>, usize> {
    let mut found = Vec::new();
    let mut at = 0;
    while at < bytes.len() {
        let (kind, to) = match bytes[at] {
            b' ' | b'\t' | b'\r' => {
                at += 1;
                continue;
            }
            b'#' => {
                at = run_end(bytes, at, |byte| byte != b'\n');
                continue;
            }
            b'\n' => (Kind::Newline, at + 1),
            b'a'..=b'z' | b'A'..=b'Z' | b'_' => {
                let to = run_end(bytes, at, |byte| byte.is_ascii_alphanumeric() || byte == b'_');
                if to - at > 15 {
                    return Err(at);
                }
                (Kind::Word(code(&bytes[at..to])), to)
            }
            b'0'..=b'9' => {
                let to = run_end(bytes, at, |byte| byte.is_ascii_digit());
                (Kind::Number(number(&bytes[at..to]).ok_or(at)?), to)
            }
            b'"' => {
                let end = run_end(bytes, at + 1, is_name_byte);
                if bytes.get(end) != Some(&b'"') {
                    return Err(end);
                }
                if end - at > 16 {
                    return Err(at);
                }
                (Kind::Name(code(&bytes[at + 1..end])), end + 1)
            }
            first @ (b'<' | b':' | b'-') => match (first, bytes.get(at + 1)) {
                (b'<' | b':', Some(b'=')) => (Kind::Sign(first, b'='), at + 2),
                (b'-', Some(b'>')) => (Kind::Sign(first, b'>'), at + 2),
                _ => (Kind::Sign(first, 0), at + 1),
            },
            first @ (b'(' | b')' | b'[' | b']' | b',' | b';' | b'=' | b'+') => (Kind::Sign(first, 0), at + 1),
            _ => return Err(at),
        };
        found.push(Token { kind, from: at, to });
        at = to;
    }
    Ok(found)
}

fn main() {
    let path = std::env::args().nth(1).expect("a file");
    let rounds = std::env::args().nth(2).map_or(5, |word| word.parse().expect("a number of rounds"));
    let bytes = std::fs::read(path).expect("the file is read");
    let mut least = u128::MAX;
    let mut outcome = String::new();
    for _ in 0..rounds {
        let start = Instant::now();
        let answer = tokens(&bytes);
        least = least.min(start.elapsed().as_micros());
        outcome = match answer {
            Ok(found) => format!("tokens {}", found.len()),
            Err(place) => format!("fault {place}"),
        };
    }
    println!("{least} {outcome}");
}
